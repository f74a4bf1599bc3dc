//! The calls, over bytes in memory.

use std::ffi::CStr;
use std::fmt;

use crate::raw;

/// The dialect of a text.
#[derive(Debug, Clone, Copy, PartialEq, Eq, Hash)]
#[repr(u32)]
pub enum Dialect {
    /// PostgreSQL
    Pg = 0,
    /// MySQL and MariaDB
    Mysql = 1,
    /// SQLite
    Sqlite = 2,
    /// A dialect of this project's own, like SQL Server's
    Bracket = 3,
}

impl fmt::Display for Dialect {
    /// The name in a document.
    fn fmt(&self, f: &mut fmt::Formatter<'_>) -> fmt::Result {
        fmt::Debug::fmt(self, f)
    }
}

/// Why not all is answered. A request that breaks a rule is no error: the answer has the line `{"refused":RULE}` for it.
#[derive(Debug, Clone, PartialEq, Eq)]
#[non_exhaustive]
pub enum HardieflaxError {
    /// The handle has no session.
    NoSession,
    /// The input is not what the call reads.
    BadDocument,
    /// Out of memory, or a request or a text nests too deep: that after the first n of the input, where `answered` has n lines.
    NoMemory {
        /// The lines before it.
        answered: String,
    },
    /// The input has more than 16777216 bytes.
    TooLarge,
    /// A line that this crate cannot read, since the library is of another version.
    Unreadable(String),
    /// A status that the header does not name.
    Unknown(u32),
}

impl HardieflaxError {
    /// The status of the call, which is the program's exit status; 0 where the call was answered, and the answer is unreadable.
    #[must_use]
    pub fn status(&self) -> u32 {
        match self {
            HardieflaxError::Unreadable(_) => 0,
            HardieflaxError::NoSession => 2,
            HardieflaxError::BadDocument => 3,
            HardieflaxError::NoMemory { .. } => 6,
            HardieflaxError::TooLarge => 7,
            HardieflaxError::Unknown(status) => *status,
        }
    }

    /// The lines that were written before the call ended. Only [`HardieflaxError::NoMemory`] may have some.
    #[must_use]
    pub fn answered(&self) -> &str {
        match self {
            HardieflaxError::NoMemory { answered } => answered,
            _ => "",
        }
    }
}

impl fmt::Display for HardieflaxError {
    fn fmt(&self, f: &mut fmt::Formatter<'_>) -> fmt::Result {
        match self {
            HardieflaxError::NoSession => f.write_str("no session is open"),
            HardieflaxError::BadDocument => f.write_str("the input is not what the call reads"),
            HardieflaxError::NoMemory { .. } => f.write_str("out of memory, or a request or a text nests too deep"),
            HardieflaxError::TooLarge => f.write_str("the input has more than 16777216 bytes"),
            HardieflaxError::Unreadable(line) => write!(f, "a line of another version of the library: {line}"),
            HardieflaxError::Unknown(status) => write!(f, "status {status}"),
        }
    }
}

impl std::error::Error for HardieflaxError {}

/// Lines of JSON, each with a newline at its end.
pub type Lines<'a> = Result<&'a str, HardieflaxError>;

/// Answers calls over bytes, one after the other, and keeps at most one session.
///
/// ```
/// use hardieflax::{Dialect, Hardieflax};
///
/// let mut hardieflax = Hardieflax::new();
/// let line = hardieflax.read(Dialect::Pg, b"SELECT  \"users\".\"id\" FROM \"users\"")?;
/// assert!(line.contains(r#"SELECT \"users\".\"id\" FROM \"users\""#));
/// # Ok::<(), hardieflax::HardieflaxError>(())
/// ```
///
/// It may move to another thread. Threads that share one take turns, as by a `Mutex`:
///
/// ```
/// use std::sync::Mutex;
/// use std::thread;
///
/// use hardieflax::{Dialect, Hardieflax};
///
/// let shared = Mutex::new(Hardieflax::new());
/// thread::scope(|scope| {
///     for _ in 0..2 {
///         scope.spawn(|| {
///             let mut hardieflax = shared.lock().expect("no thread panics");
///             assert!(hardieflax.read(Dialect::Sqlite, b"SELECT ?").is_ok());
///         });
///     }
/// });
/// ```
#[derive(Debug)]
pub struct Hardieflax {
    handle: raw::Handle,
}

// SAFETY: the header lets threads take turns with one handle: the library keeps nothing by thread, nor any pointer into what a caller passes,
// and what a handle owns comes from `malloc`, which any thread may free. No clause of the library speaks of threads; `tests/calls.rs` and
// tests/embed.sh try it.
unsafe impl Send for Hardieflax {}

impl Default for Hardieflax {
    fn default() -> Self {
        Self::new()
    }
}

impl Hardieflax {
    /// A handle that owns nothing.
    #[must_use]
    pub fn new() -> Self {
        let handle = raw::Handle { bytes: std::ptr::null(), length: 0, owned: std::ptr::null_mut(), in_use: false };
        Hardieflax { handle }
    }

    /// A line for each request of the document.
    pub fn build(&mut self, document: &[u8]) -> Lines<'_> {
        // SAFETY: as for each call below, the handle is one that the library left or an empty one, it is borrowed alone, and the pointer
        // and the length are those of one slice, which is borrowed for the call.
        let status = unsafe { raw::hardieflax_build(&mut self.handle, document.as_ptr(), document.len()) };
        self.answer(status)
    }

    /// The same, each statement restricted to the rows of the document's tenant.
    pub fn guard(&mut self, document: &[u8]) -> Lines<'_> {
        // SAFETY: as above.
        let status = unsafe { raw::hardieflax_guard(&mut self.handle, document.as_ptr(), document.len()) };
        self.answer(status)
    }

    /// A line with the text, as the dialect's grammar reads it.
    pub fn read(&mut self, dialect: Dialect, text: &[u8]) -> Lines<'_> {
        // SAFETY: as above.
        let status = unsafe { raw::hardieflax_read(&mut self.handle, dialect as u32, text.as_ptr(), text.len()) };
        self.answer(status)
    }

    /// A line for each text, with the tables and columns that it uses.
    pub fn audit(&mut self, dialect: Dialect, texts: &[u8]) -> Lines<'_> {
        // SAFETY: as above.
        let status = unsafe { raw::hardieflax_audit(&mut self.handle, dialect as u32, texts.as_ptr(), texts.len()) };
        self.answer(status)
    }

    /// Opens a session over the document's schema, in place of an earlier one, and answers the document. Its member `tenant` has policies, with
    /// places for the values that each document of the session gives (`docs/GUARD.md`). Where a request nests too deep the session is open,
    /// and has answered the requests before it. After any other error there is none.
    pub fn open(&mut self, document: &[u8]) -> Lines<'_> {
        // SAFETY: as above.
        let status = unsafe { raw::hardieflax_open(&mut self.handle, document.as_ptr(), document.len()) };
        self.answer(status)
    }

    /// The same, and says how many shapes have an id in the session before all are forgotten: `capacity`, or for 0 the usual 16,384.
    pub fn open_within(&mut self, document: &[u8], capacity: usize) -> Lines<'_> {
        // SAFETY: as above.
        let status = unsafe { raw::hardieflax_open_within(&mut self.handle, document.as_ptr(), document.len(), capacity) };
        self.answer(status)
    }

    /// Answers the requests of a document that declares no table, over the session's schema. Where a request nests too deep the session has
    /// answered the requests before it, and goes on. Where memory runs out it is gone, and the next call is
    /// [`HardieflaxError::NoSession`]: open it again. Other errors leave it as it was.
    pub fn next(&mut self, document: &[u8]) -> Lines<'_> {
        // SAFETY: as above.
        let status = unsafe { raw::hardieflax_next(&mut self.handle, document.as_ptr(), document.len()) };
        self.answer(status)
    }

    /// Has the session begin anew: its schema, policies and capacity stay, and ids are counted from 1 again. Drop what you kept by id. There
    /// are no lines.
    pub fn reset(&mut self) -> Lines<'_> {
        // SAFETY: as above.
        let status = unsafe { raw::hardieflax_reset(&mut self.handle) };
        self.answer(status)
    }

    /// A line for each text of a document that declares no table, with the tables and columns of the session's schema that it uses. The session
    /// stays as it is.
    pub fn audit_next(&mut self, dialect: Dialect, texts: &[u8]) -> Lines<'_> {
        // SAFETY: as above.
        let status = unsafe { raw::hardieflax_audit_next(&mut self.handle, dialect as u32, texts.as_ptr(), texts.len()) };
        self.answer(status)
    }

    fn answer(&self, status: u32) -> Lines<'_> {
        match status {
            0 => Ok(self.lines()),
            2 => Err(HardieflaxError::NoSession),
            3 => Err(HardieflaxError::BadDocument),
            6 => Err(HardieflaxError::NoMemory { answered: self.lines().to_owned() }),
            7 => Err(HardieflaxError::TooLarge),
            status => Err(HardieflaxError::Unknown(status)),
        }
    }

    /// The lines of the last call, which was Done or ran out of memory.
    fn lines(&self) -> &str {
        // The pointer of an empty answer leads nowhere.
        if self.handle.length == 0 {
            return "";
        }
        // SAFETY: the handle has `length` bytes, which stay until the next call on it. A call borrows the wrapper alone, so they are used
        // no more by then.
        let bytes = unsafe { std::slice::from_raw_parts(self.handle.bytes, self.handle.length) };
        std::str::from_utf8(bytes).expect("an answer is JSON")
    }
}

impl Drop for Hardieflax {
    fn drop(&mut self) {
        // SAFETY: as above. The handle is used no more.
        unsafe { raw::hardieflax_free(&mut self.handle) }
    }
}

/// The version of the library.
///
/// ```
/// assert_eq!(hardieflax::version(), env!("CARGO_PKG_VERSION"));
/// ```
#[must_use]
pub fn version() -> &'static str {
    // SAFETY: the library gives a text that stays.
    let text = unsafe { CStr::from_ptr(raw::hardieflax_version()) };
    text.to_str().expect("a version is ASCII")
}
