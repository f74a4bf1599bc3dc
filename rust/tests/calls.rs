//! The wrapper's calls, and what it answers where there is nothing to answer.

use std::sync::Mutex;
use std::thread;

use hardieflax::{Dialect, Hardieflax, HardieflaxError};

const USERS: &str = r#"{"tables":[{"name":"users","columns":[{"name":"id","type":"Integer"},{"name":"name","type":"Text"}]}]}"#;
const NONE: &str = r#"{"tables":[]}"#;
const BY_ID: &str =
    r#"{"dialect":"Pg","query":{"from":{"table":"users"},"calls":[["filter",{"eq":[{"col":["users","id"]},{"bind":["Integer",7]}]}]]}}"#;
const NAMES: &str = r#"{"dialect":"Pg","query":{"from":{"table":"users"},"calls":[["select",[{"col":["users","name"]}]]]}}"#;
const BY_ID_LINE: &str = concat!(
    r#"{"binds":[["Integer",7]],"columns":["Integer","Text"],"id":1,"safe":true,"sql":"#,
    r#""SELECT \"users\".\"id\", \"users\".\"name\" FROM \"users\" WHERE (\"users\".\"id\" = $1)"}"#,
    "\n"
);
const NAMES_LINE: &str = concat!(r#"{"binds":[],"columns":["Text"],"id":2,"safe":true,"sql":"SELECT \"users\".\"name\" FROM \"users\""}"#, "\n");

fn document(schema: &str, requests: &[&str]) -> Vec<u8> {
    format!(r#"{{"schema":{schema},"requests":[{}]}}"#, requests.join(",")).into_bytes()
}

#[test]
fn a_session_goes_on_with_its_ids() {
    let mut session = Hardieflax::new();
    assert_eq!(session.open(&document(USERS, &[])), Ok(""));
    assert_eq!(session.next(&document(NONE, &[BY_ID])), Ok(BY_ID_LINE));
    let both = format!("{NAMES_LINE}{BY_ID_LINE}");
    assert_eq!(session.next(&document(NONE, &[NAMES, BY_ID])), Ok(both.as_str()));
}

#[test]
fn a_reset_counts_from_one() {
    let mut session = Hardieflax::new();
    assert_eq!(session.reset(), Err(HardieflaxError::NoSession));
    assert_eq!(session.open_within(&document(USERS, &[NAMES]), 0).map(str::len), Ok(NAMES_LINE.len()));
    assert_eq!(session.next(&document(NONE, &[BY_ID])).map(|line| line.contains(r#""id":2"#)), Ok(true));
    assert_eq!(session.reset(), Ok(""));
    let both = format!("{BY_ID_LINE}{NAMES_LINE}");
    assert_eq!(session.next(&document(NONE, &[BY_ID, NAMES])), Ok(both.as_str()));
}

#[test]
fn texts_are_audited_over_the_schema_of_a_session() {
    let texts = br#"{"schema":{"tables":[]},"texts":["SELECT \"users\".\"id\" FROM \"users\"","x"]}"#;
    let lines = "{\"columns\":[[\"users\",\"id\"]],\"sources\":[0],\"tables\":[\"users\"]}\n{\"refused\":\"NotInGrammar\"}\n";
    let mut session = Hardieflax::new();
    assert_eq!(session.audit_next(Dialect::Pg, texts), Err(HardieflaxError::NoSession));
    assert_eq!(session.open(&document(USERS, &[BY_ID])), Ok(BY_ID_LINE));
    assert_eq!(session.audit_next(Dialect::Pg, texts), Ok(lines));
    assert_eq!(session.audit_next(Dialect::Pg, b"x"), Err(HardieflaxError::BadDocument));
    assert_eq!(session.next(&document(NONE, &[NAMES])), Ok(NAMES_LINE));
}

#[test]
fn one_call_is_one_document() {
    let both = format!("{BY_ID_LINE}{NAMES_LINE}");
    let mut handle = Hardieflax::new();
    for _ in 0..3 {
        assert_eq!(handle.build(&document(USERS, &[BY_ID, NAMES])), Ok(both.as_str()));
    }
}

#[test]
fn a_session_outlives_other_calls() {
    let mut session = Hardieflax::new();
    assert_eq!(session.open(&document(USERS, &[BY_ID])), Ok(BY_ID_LINE));
    assert_eq!(session.build(&document(NONE, &[])), Ok(""));
    assert_eq!(session.build(b"no document"), Err(HardieflaxError::BadDocument));
    assert_eq!(session.next(&document(NONE, &[NAMES])), Ok(NAMES_LINE));
}

#[test]
fn bad_requests_leave_the_session() {
    let large = vec![b' '; 16_777_217];
    let mut session = Hardieflax::new();
    assert_eq!(session.next(&document(NONE, &[])), Err(HardieflaxError::NoSession));
    assert_eq!(session.open(b"{}"), Err(HardieflaxError::BadDocument));
    assert_eq!(session.next(&document(NONE, &[])), Err(HardieflaxError::NoSession));
    assert_eq!(session.open(&document(USERS, &[])), Ok(""));
    assert_eq!(session.next(b""), Err(HardieflaxError::BadDocument));
    assert_eq!(session.next(&document(USERS, &[])), Err(HardieflaxError::BadDocument));
    assert_eq!(session.next(&document(NONE, &[BY_ID])), Ok(BY_ID_LINE));
    assert_eq!(session.next(&large), Err(HardieflaxError::TooLarge));
    assert_eq!(session.build(&large), Err(HardieflaxError::TooLarge));
    assert_eq!(session.next(&document(NONE, &[NAMES])), Ok(NAMES_LINE));
    assert_eq!(session.open(b"{}"), Err(HardieflaxError::BadDocument));
    assert_eq!(session.next(&document(NONE, &[])), Err(HardieflaxError::NoSession));
}

/// A request whose statement nests deeper than 2,500 levels.
fn deep() -> String {
    let calls = vec![r#"["nullable"]"#; 2498].join(",");
    format!(r#"{{"dialect":"Pg","query":{{"from":{{"table":"users"}},"calls":[{calls}]}}}}"#)
}

#[test]
fn a_session_outlives_a_deep_request() {
    let deep = deep();
    let mut session = Hardieflax::new();
    let cut = |answered: &str| Err(HardieflaxError::NoMemory { answered: answered.to_owned() });
    assert_eq!(session.open(&document(USERS, &[BY_ID, &deep, NAMES])), cut(BY_ID_LINE));
    assert_eq!(session.next(&document(NONE, &[&deep])), cut(""));
    let both = format!("{NAMES_LINE}{BY_ID_LINE}");
    assert_eq!(session.next(&document(NONE, &[NAMES, BY_ID, &deep])), cut(&both));
    assert_eq!(session.next(&document(NONE, &[BY_ID, NAMES])), Ok(format!("{BY_ID_LINE}{NAMES_LINE}").as_str()));
    assert_eq!(session.build(&document(USERS, &[BY_ID, &deep])), cut(BY_ID_LINE));
}

#[test]
fn texts_are_read_and_audited() {
    let mut handle = Hardieflax::new();
    assert_eq!(handle.read(Dialect::Pg, b"SELECT"), Ok("{\"refused\":\"NotInGrammar\"}\n"));
    assert_eq!(handle.read(Dialect::Sqlite, b"\xff"), Err(HardieflaxError::BadDocument));
    assert_eq!(handle.audit(Dialect::Pg, b"[]"), Err(HardieflaxError::BadDocument));
}

#[test]
fn threads_have_handles_of_their_own_or_take_turns() {
    let document = document(USERS, &[BY_ID]);
    let shared = Mutex::new(Hardieflax::new());
    thread::scope(|scope| {
        for _ in 0..4 {
            scope.spawn(|| {
                let mut own = Hardieflax::new();
                for _ in 0..20 {
                    assert_eq!(own.build(&document), Ok(BY_ID_LINE));
                    assert_eq!(shared.lock().expect("no thread panics").build(&document), Ok(BY_ID_LINE));
                }
            });
        }
    });
}
