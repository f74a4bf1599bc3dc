//! The wrapper on the stand-in for the library (`tests/wrappers/stand_in.c`), which answers with what it was passed.
#![cfg(hardieflax_stand_in)]

use std::sync::{Mutex, MutexGuard, PoisonError};
use std::thread;

use hardieflax::{Dialect, Hardieflax, HardieflaxError};

extern "C" {
    fn stand_in_living() -> usize;
}

/// The stand-in counts handles without a lock, so one test at a time has any.
fn one() -> MutexGuard<'static, ()> {
    static ONE: Mutex<()> = Mutex::new(());
    ONE.lock().unwrap_or_else(PoisonError::into_inner)
}

const TEXT: &str = "é \0 x";

#[test]
fn each_call_passes_what_it_is_given() {
    let _one = one();
    let mut handle = Hardieflax::new();
    assert_eq!(handle.build(TEXT.as_bytes()), Ok("build - é \0 x"));
    assert_eq!(handle.guard(TEXT.as_bytes()), Ok("guard - é \0 x"));
    assert_eq!(handle.open(TEXT.as_bytes()), Ok("open - é \0 x"));
    assert_eq!(handle.next(TEXT.as_bytes()), Ok("next - é \0 x"));
    for (number, dialect) in [Dialect::Pg, Dialect::Mysql, Dialect::Sqlite, Dialect::Bracket].into_iter().enumerate() {
        assert_eq!(handle.read(dialect, TEXT.as_bytes()), Ok(format!("read {number} {TEXT}").as_str()));
        assert_eq!(handle.audit(dialect, TEXT.as_bytes()), Ok(format!("audit {number} {TEXT}").as_str()));
        assert_eq!(handle.audit_next(dialect, TEXT.as_bytes()), Ok(format!("audit_next {number} {TEXT}").as_str()));
    }
    assert_eq!(handle.open_within(TEXT.as_bytes(), 100), Ok("open_within 100 é \0 x"));
    assert_eq!(handle.reset(), Ok(""));
    assert_eq!(handle.next(TEXT.as_bytes()), Ok("next - é \0 x"));
    assert_eq!(handle.build(b""), Ok("build - "));
    assert_eq!(handle.build(b"nothing"), Ok(""));
}

#[test]
fn a_status_is_an_error() {
    let _one = one();
    let mut handle = Hardieflax::new();
    let none = HardieflaxError::NoMemory { answered: String::new() };
    for error in [HardieflaxError::NoSession, HardieflaxError::BadDocument, none, HardieflaxError::TooLarge, HardieflaxError::Unknown(5)] {
        let input = format!("status {}", error.status());
        assert_eq!(error.answered(), "");
        assert_eq!(handle.build(input.as_bytes()), Err(error));
    }
    assert_eq!(handle.next(b"x"), Err(HardieflaxError::NoSession));
    assert_eq!(handle.reset(), Err(HardieflaxError::NoSession));
    assert_eq!(handle.audit_next(Dialect::Pg, b"x"), Err(HardieflaxError::NoSession));
    assert_eq!(handle.build(b"x"), Ok("build - x"));
}

#[test]
fn an_error_has_the_lines_before() {
    let _one = one();
    let mut handle = Hardieflax::new();
    let deep = |call: &str| Err(HardieflaxError::NoMemory { answered: format!("{call} - deep") });
    assert_eq!(handle.build(b"deep"), deep("build"));
    assert_eq!(handle.open(b"deep"), deep("open"));
    assert_eq!(handle.next(b"deep"), deep("next"));
    assert_eq!(handle.next(b"y"), Ok("next - y"));
    assert_eq!(handle.next(b"status 6").map_err(|error| error.status()), Err(6));
    assert_eq!(handle.next(b"y"), Err(HardieflaxError::NoSession));
}

#[test]
fn a_dropped_handle_is_freed() {
    let _one = one();
    // SAFETY: it reads a number.
    let living = || unsafe { stand_in_living() };
    let before = living();
    let mut handle = Hardieflax::new();
    assert_eq!(living(), before);
    assert_eq!(handle.open(b"x"), Ok("open - x"));
    assert_eq!(living(), before + 1);
    drop(handle);
    assert_eq!(living(), before);
}

#[test]
fn a_handle_moves_to_another_thread() {
    let _one = one();
    let mut handle = Hardieflax::new();
    assert_eq!(handle.open(b"x"), Ok("open - x"));
    let mut handle = thread::spawn(move || {
        assert_eq!(handle.next(b"y"), Ok("next - y"));
        handle
    })
    .join()
    .expect("the thread ends");
    assert_eq!(handle.next(b"z"), Ok("next - z"));
}

#[test]
fn the_version_is_a_text() {
    assert_eq!(hardieflax::version(), "stand-in");
}
