//! Keeps two JSON documents of different shape in step, by the library of editlens.
//!
//! A [`Session`] has a lens program, a left document and a right document. [`Session::step`] takes an edit of either side as a line of a
//! journal, and returns the edit of the other side. An edit that does not apply is refused with a cause, and nothing changes.
//!
//! ```
//! use editlens::{Answer, Session};
//!
//! let mut session = Session::open("main {hours ~ time: id int, left done: bool}\n")?;
//! let answer = session.step(r#"{"side":"left","edit":[{"at":["hours",[{"set":8}]]}]}"#)?;
//! assert_eq!(answer.line(), "ok 1 right [{\"at\":[\"time\",[{\"set\":8}]]}]\n");
//! assert_eq!(session.right()?, r#"{"time":8}"#);
//!
//! let refused = session.step(r#"{"side":"right","edit":[{"at":["color",[{"set":8}]]}]}"#)?;
//! assert!(matches!(refused, Answer::Refused { cause: editlens::Cause::Place, at: 0, .. }));
//! # Ok::<(), editlens::Error>(())
//! ```
//!
//! A session stays on the thread that opened it, so it is not `Send`; open as many sessions in as many threads as you like. The library is
//! proved to keep to the header, but this crate is only tested.

use std::alloc::{alloc_zeroed, dealloc, handle_alloc_error, Layout};
use std::fmt;
use std::ptr::{null_mut, NonNull};

mod hub;
mod raw;

pub use hub::{Hub, HubStateFault};

/// Why a change does not apply, or why a line is not a change. docs/EDITS.md and docs/FORMATS.md say when each comes.
#[derive(Clone, Copy, Debug, PartialEq, Eq, Hash)]
#[non_exhaustive]
pub enum Cause {
    Kind,
    Place,
    Tag,
    Range,
    Overflow,
    Value,
    Present,
    Length,
    Deep,
    LineTooLong,
    NotJson,
    NotAnEntry,
    NotAnEdit,
    /// The line of a hub's journal names a view that does not exist.
    NoView,
}

/// Which text of a state is refused, or that the three are not consistent.
#[derive(Clone, Copy, Debug, PartialEq, Eq, Hash)]
pub enum StateFault {
    NotLeft,
    NotComplement,
    NotRight,
    NotConsistent,
}

/// A side of a lens.
#[derive(Clone, Copy, Debug, PartialEq, Eq, Hash)]
pub enum Side {
    Left,
    Right,
}

/// Why the records of a log are refused, with the number, from 1, of the first record that is at fault.
#[derive(Clone, Copy, Debug, PartialEq, Eq, Hash)]
pub enum RecordFault {
    /// The record is not one that may stand there.
    BadRecord(u64),
    /// The record is a snapshot whose documents and complement are not consistent.
    NotConsistent(u64),
}

/// The answer to a line.
#[derive(Clone, Debug, PartialEq, Eq)]
pub enum Answer {
    /// The line is blank, and is not an item.
    Blank,
    /// The item was accepted. The answer line has the edit of the other side.
    Accepted { line: String },
    /// The item was refused, and the documents are as before.
    Refused {
        line: String,
        cause: Cause,
        /// The number, from 0, of the entry of a group that does not apply; 0 for an entry alone.
        part: u64,
        /// The number, from 0, of the first primitive that fails.
        at: u64,
    },
}

impl Answer {
    /// The answer line, with its line feed; empty for a blank line.
    pub fn line(&self) -> &str {
        match self {
            Answer::Blank => "",
            Answer::Accepted { line } | Answer::Refused { line, .. } => line,
        }
    }
}

/// Why a call did not do what it was asked.
#[derive(Clone, Debug, PartialEq, Eq)]
#[non_exhaustive]
pub enum Error {
    /// The program is refused, with this line. `cause` is a number of `editlens.h`, and `at` the offset that the line names, or 0.
    ProgramRefused { line: String, cause: u32, at: u64 },
    /// The programs of a hub are refused, with this line. `view` is the number of the view that the line names, or 0.
    ProgramsRefused { line: String, cause: u32, view: u64, at: u64 },
    /// The texts of the state are refused.
    StateRefused(StateFault),
    /// The texts of the state of a hub are refused.
    HubStateRefused(HubStateFault),
    /// The records of the log are refused.
    RecordsRefused(RecordFault),
    /// The last line was not a change that was accepted. Nothing changed.
    NoChange,
    /// A line feed is in the line. Nothing changed.
    LineFeed,
    /// Memory ran out. The session is as before.
    NoMemory,
    /// No further item has a number. Nothing changed.
    Full,
}

impl fmt::Display for Error {
    fn fmt(&self, out: &mut fmt::Formatter<'_>) -> fmt::Result {
        match self {
            Error::ProgramRefused { line, .. } | Error::ProgramsRefused { line, .. } => out.write_str(line.trim_end()),
            Error::StateRefused(StateFault::NotLeft) => out.write_str("the left text is not the JSON of a left document"),
            Error::StateRefused(StateFault::NotComplement) => out.write_str("the text of the complement is not the JSON of one"),
            Error::StateRefused(StateFault::NotRight) => out.write_str("the right text is not the JSON of a right document"),
            Error::StateRefused(StateFault::NotConsistent) => out.write_str("the documents and the complement are not consistent"),
            Error::HubStateRefused(fault) => fault.fmt(out),
            Error::RecordsRefused(RecordFault::BadRecord(number)) => write!(out, "record {number} is not one that may stand there"),
            Error::RecordsRefused(RecordFault::NotConsistent(number)) => write!(out, "record {number} is a snapshot that is not consistent"),
            Error::NoChange => out.write_str("the last line was not a change that was accepted"),
            Error::LineFeed => out.write_str("a line feed is in the line"),
            Error::NoMemory => out.write_str("memory ran out"),
            Error::Full => out.write_str("no further item has a number"),
        }
    }
}

impl std::error::Error for Error {}

/// Two documents that a lens keeps in step. It ends where it is dropped.
pub struct Session {
    // A pointer, so that the session is not `Send` and not `Sync`.
    at: NonNull<u8>,
    layout: Layout,
    opening: String,
}

impl Session {
    /// A session over a program, with its initial documents.
    pub fn open(program: &str) -> Result<Session, Error> {
        Session::made(|at| unsafe { raw::editlens_session_open(at, program.as_ptr(), program.len()) })
    }

    /// A session over a program of which one document is given, as JSON; the other one is made. A log begins with
    /// [`Session::opening`] and [`Session::snapshot`] then.
    pub fn import(program: &str, side: Side, document: &str) -> Result<Session, Error> {
        let import = match side {
            Side::Left => raw::editlens_session_import_left,
            Side::Right => raw::editlens_session_import_right,
        };
        Session::made(|at| unsafe { import(at, program.as_ptr(), program.len(), document.as_ptr(), document.len()) })
    }

    /// The session for which the records of a log stand: [`Session::opening`], and behind it [`Session::change`] after each line that was
    /// accepted, and snapshots where they are wanted.
    pub fn reopen<R: AsRef<str>>(records: impl IntoIterator<Item = R>) -> Result<Session, Error> {
        let mut text = String::new();
        for record in records {
            text.push_str(record.as_ref());
            text.push('\n');
        }
        Session::made(|at| unsafe { raw::editlens_session_reopen(at, text.as_ptr(), text.len()) })
    }

    /// A session that goes on from a state: what [`Session::left`], [`Session::complement`] and [`Session::right`] returned.
    pub fn resume(program: &str, left: &str, complement: &str, right: &str) -> Result<Session, Error> {
        Session::made(|at| unsafe {
            raw::editlens_session_resume(
                at,
                program.as_ptr(),
                program.len(),
                left.as_ptr(),
                left.len(),
                complement.as_ptr(),
                complement.len(),
                right.as_ptr(),
                right.len(),
            )
        })
    }

    fn made(open: impl FnOnce(*mut u8) -> u32) -> Result<Session, Error> {
        let (at, layout) = room_for(unsafe { raw::editlens_session_size() });
        let status = open(at.as_ptr());
        let mut session = Session { at, layout, opening: String::new() };
        if status != raw::DONE {
            let answer = unsafe { raw::editlens_session_status(session.at.as_ptr()) };
            return Err(session.error(answer));
        }
        session.opening = session.text();
        Ok(session)
    }

    /// Takes a line of a journal, without its line feed.
    pub fn step(&mut self, line: &str) -> Result<Answer, Error> {
        let answer = unsafe { raw::editlens_session_step(self.at.as_ptr(), line.as_ptr(), line.len()) };
        match answer.status {
            raw::DONE => Ok(Answer::Accepted { line: self.text() }),
            raw::BLANK => Ok(Answer::Blank),
            raw::REFUSED => Ok(Answer::Refused { line: self.text(), cause: item_cause(answer.cause), part: answer.part, at: answer.at }),
            _ => Err(self.error(answer)),
        }
    }

    /// The three state lines, as `editlens run` ends with them.
    pub fn state(&mut self) -> Result<String, Error> {
        self.shown(raw::STATE)
    }

    /// The left document, as JSON.
    pub fn left(&mut self) -> Result<String, Error> {
        self.shown(raw::LEFT)
    }

    /// The complement, as JSON.
    pub fn complement(&mut self) -> Result<String, Error> {
        self.shown(raw::COMPLEMENT)
    }

    /// The right document, as JSON.
    pub fn right(&mut self) -> Result<String, Error> {
        self.shown(raw::RIGHT)
    }

    /// The left type, in canonical text.
    pub fn left_type(&mut self) -> Result<String, Error> {
        self.shown(raw::LEFT_TYPE)
    }

    /// The right type, in canonical text.
    pub fn right_type(&mut self) -> Result<String, Error> {
        self.shown(raw::RIGHT_TYPE)
    }

    /// The record that a log gets before any other: that of the program. After [`Session::reopen`] it is empty. But if the log
    /// is that of an old store, it is the record of the version, which the log still needs.
    pub fn opening(&self) -> &str {
        &self.opening
    }

    /// A record for a log: a snapshot of the documents and the complement.
    pub fn snapshot(&mut self) -> Result<String, Error> {
        self.shown(raw::SNAPSHOT)
    }

    /// A record for a log: the change that the last line was. [`Error::NoChange`] if it was not accepted.
    pub fn change(&mut self) -> Result<String, Error> {
        self.shown(raw::CHANGE)
    }

    /// The word that takes the document of a side back over the change that the last line was, as JSON.
    pub fn undo(&mut self, side: Side) -> Result<String, Error> {
        self.shown(match side {
            Side::Left => raw::UNDO_LEFT,
            Side::Right => raw::UNDO_RIGHT,
        })
    }

    /// How many items the session was given.
    pub fn items(&self) -> u64 {
        unsafe { raw::editlens_session_status(self.at.as_ptr()) }.number
    }

    fn shown(&mut self, part: u32) -> Result<String, Error> {
        let answer = unsafe { raw::editlens_session_show(self.at.as_ptr(), part) };
        match answer.status {
            raw::DONE => Ok(self.text()),
            _ => Err(self.error(answer)),
        }
    }

    fn text(&mut self) -> String {
        let wanted = unsafe { raw::editlens_session_text(self.at.as_ptr(), null_mut(), 0) }.len;
        let mut text = vec![0; wanted];
        unsafe { raw::editlens_session_text(self.at.as_ptr(), text.as_mut_ptr(), text.len()) };
        String::from_utf8(text).expect("the library writes UTF-8")
    }

    fn error(&mut self, answer: raw::Answer) -> Error {
        match answer.status {
            raw::PROGRAM_REFUSED => Error::ProgramRefused { line: self.text(), cause: answer.cause, at: answer.at },
            raw::STATE_REFUSED => Error::StateRefused(match answer.cause {
                raw::NOT_LEFT => StateFault::NotLeft,
                raw::NOT_COMPLEMENT => StateFault::NotComplement,
                raw::NOT_RIGHT => StateFault::NotRight,
                _ => StateFault::NotConsistent,
            }),
            raw::RECORDS_REFUSED => Error::RecordsRefused(match answer.cause {
                raw::BAD_RECORD => RecordFault::BadRecord(answer.at),
                _ => RecordFault::NotConsistent(answer.at),
            }),
            raw::NO_CHANGE => Error::NoChange,
            raw::LINE_FEED => Error::LineFeed,
            raw::FULL => Error::Full,
            _ => Error::NoMemory,
        }
    }
}

/// Memory of 0 for a session or a hub of this size.
///
/// # Panics
///
/// If the library that is linked has another interface than this crate is written for.
fn room_for(size: usize) -> (NonNull<u8>, Layout) {
    assert_eq!(unsafe { raw::editlens_version() }, raw::VERSION, "libeditlens has another interface than this crate");
    let layout = Layout::from_size_align(size, 16).unwrap();
    let at = NonNull::new(unsafe { alloc_zeroed(layout) }).unwrap_or_else(|| handle_alloc_error(layout));
    (at, layout)
}

impl Drop for Session {
    fn drop(&mut self) {
        unsafe {
            raw::editlens_session_close(self.at.as_ptr());
            dealloc(self.at.as_ptr(), self.layout);
        }
    }
}

impl fmt::Debug for Session {
    fn fmt(&self, out: &mut fmt::Formatter<'_>) -> fmt::Result {
        out.debug_struct("Session").field("items", &self.items()).finish_non_exhaustive()
    }
}

fn item_cause(number: u32) -> Cause {
    match number {
        raw::KIND => Cause::Kind,
        raw::PLACE => Cause::Place,
        raw::TAG => Cause::Tag,
        raw::RANGE => Cause::Range,
        raw::OVERFLOW => Cause::Overflow,
        raw::VALUE => Cause::Value,
        raw::PRESENT => Cause::Present,
        raw::LENGTH => Cause::Length,
        raw::DEEP => Cause::Deep,
        raw::LINE_TOO_LONG => Cause::LineTooLong,
        raw::NOT_JSON => Cause::NotJson,
        raw::NOT_AN_ENTRY => Cause::NotAnEntry,
        raw::NO_VIEW => Cause::NoView,
        _ => Cause::NotAnEdit,
    }
}
