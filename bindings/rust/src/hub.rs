//! One document that is kept in step with many views.
use crate::{item_cause, raw, room_for, Answer, Error};
use std::alloc::{dealloc, Layout};
use std::fmt;
use std::ptr::{null_mut, NonNull};

/// Which text of a hub's state is refused, or which view is not consistent with the hub. A view has a number, from 0.
#[derive(Clone, Copy, Debug, PartialEq, Eq, Hash)]
pub enum HubStateFault {
    /// The texts are not one of the hub and two of each view.
    OtherCount,
    NotHub,
    NotView(u64),
    NotComplement(u64),
    NotConsistent(u64),
}

impl fmt::Display for HubStateFault {
    fn fmt(&self, out: &mut fmt::Formatter<'_>) -> fmt::Result {
        match self {
            HubStateFault::OtherCount => out.write_str("the texts are not one of the hub and two of each view"),
            HubStateFault::NotHub => out.write_str("the first text is not the JSON of a document of the hub"),
            HubStateFault::NotView(view) => write!(out, "the first text of view {view} is not the JSON of a document of it"),
            HubStateFault::NotComplement(view) => write!(out, "the second text of view {view} is not the JSON of a complement of it"),
            HubStateFault::NotConsistent(view) => write!(out, "view {view} is not consistent with the hub"),
        }
    }
}

/// One document and up to 64 views, which lenses keep in step. It ends where it is dropped.
///
/// ```
/// use editlens::Hub;
///
/// let mut hub = Hub::open("main {hours ~ time: id int}\n+++\nmain {hours ~ all: id int}\n")?;
/// hub.step(r#"{"at":0,"edit":[{"at":["time",[{"set":8}]]}]}"#)?;
/// assert_eq!(hub.document()?, r#"{"hours":8}"#);
/// assert_eq!(hub.view(1)?.as_deref(), Some(r#"{"all":8}"#));
/// assert_eq!(hub.view(2)?, None);
///
/// let texts = hub.texts()?;
/// let mut other = Hub::resume("main {hours ~ time: id int}\n+++\nmain {hours ~ all: id int}\n", &texts)?;
/// assert_eq!(other.state()?, hub.state()?);
/// # Ok::<(), editlens::Error>(())
/// ```
pub struct Hub {
    // A pointer, so that the hub is not `Send` and not `Sync`.
    at: NonNull<u8>,
    layout: Layout,
}

impl Hub {
    /// A hub over the programs of its views, with its first documents. The programs are one text, with a line `+++` between them, as in a
    /// script of `editlens hub`.
    pub fn open(programs: &str) -> Result<Hub, Error> {
        Hub::made(|at| unsafe { raw::editlens_hub_open(at, programs.as_ptr(), programs.len()) })
    }

    /// A hub that goes on from a state: what [`Hub::texts`] returned.
    pub fn resume<T: AsRef<str>>(programs: &str, texts: impl IntoIterator<Item = T>) -> Result<Hub, Error> {
        let mut state = String::new();
        for text in texts {
            state.push_str(text.as_ref());
            state.push('\n');
        }
        Hub::made(|at| unsafe { raw::editlens_hub_resume(at, programs.as_ptr(), programs.len(), state.as_ptr(), state.len()) })
    }

    fn made(open: impl FnOnce(*mut u8) -> u32) -> Result<Hub, Error> {
        let (at, layout) = room_for(unsafe { raw::editlens_hub_size() });
        let status = open(at.as_ptr());
        let mut hub = Hub { at, layout };
        if status != raw::DONE {
            let answer = unsafe { raw::editlens_hub_status(hub.at.as_ptr()) };
            return Err(hub.error(answer));
        }
        Ok(hub)
    }

    /// Takes a line of a hub's journal, without its line feed.
    pub fn step(&mut self, line: &str) -> Result<Answer, Error> {
        let answer = unsafe { raw::editlens_hub_step(self.at.as_ptr(), line.as_ptr(), line.len()) };
        match answer.status {
            raw::DONE => Ok(Answer::Accepted { line: self.text() }),
            raw::BLANK => Ok(Answer::Blank),
            raw::REFUSED => Ok(Answer::Refused { line: self.text(), cause: item_cause(answer.cause), part: answer.part, at: answer.at }),
            _ => Err(self.error(answer)),
        }
    }

    /// The state lines, as `editlens hub` ends with them.
    pub fn state(&mut self) -> Result<String, Error> {
        Ok(self.shown(raw::HUB_STATE, 0)?.unwrap_or_default())
    }

    /// The hub's document, as JSON.
    pub fn document(&mut self) -> Result<String, Error> {
        Ok(self.shown(raw::HUB_DOCUMENT, 0)?.unwrap_or_default())
    }

    /// The document of the view with this number, from 0, as JSON. None if there is no such view.
    pub fn view(&mut self, number: u64) -> Result<Option<String>, Error> {
        self.shown(raw::VIEW_DOCUMENT, number)
    }

    /// The complement of the view with this number, from 0, as JSON. None if there is no such view.
    pub fn complement(&mut self, number: u64) -> Result<Option<String>, Error> {
        self.shown(raw::VIEW_COMPLEMENT, number)
    }

    /// The texts from which a hub can go on: that of the hub's document, and for each view in order those of its document and its complement.
    pub fn texts(&mut self) -> Result<Vec<String>, Error> {
        let mut texts = vec![self.document()?];
        for number in 0.. {
            let (view, complement) = match (self.view(number)?, self.complement(number)?) {
                (Some(view), Some(complement)) => (view, complement),
                _ => break,
            };
            texts.extend([view, complement]);
        }
        Ok(texts)
    }

    /// How many items the hub was given.
    pub fn items(&self) -> u64 {
        unsafe { raw::editlens_hub_status(self.at.as_ptr()) }.number
    }

    fn shown(&mut self, part: u32, view: u64) -> Result<Option<String>, Error> {
        let answer = unsafe { raw::editlens_hub_show(self.at.as_ptr(), part, view) };
        match answer.status {
            raw::DONE => Ok(Some(self.text())),
            raw::REFUSED => Ok(None),
            _ => Err(self.error(answer)),
        }
    }

    fn text(&mut self) -> String {
        let wanted = unsafe { raw::editlens_hub_text(self.at.as_ptr(), null_mut(), 0) }.len;
        let mut text = vec![0; wanted];
        unsafe { raw::editlens_hub_text(self.at.as_ptr(), text.as_mut_ptr(), text.len()) };
        String::from_utf8(text).expect("the library writes UTF-8")
    }

    fn error(&mut self, answer: raw::Answer) -> Error {
        match answer.status {
            raw::PROGRAM_REFUSED => Error::ProgramsRefused { line: self.text(), cause: answer.cause, view: answer.part, at: answer.at },
            raw::STATE_REFUSED => Error::HubStateRefused(match answer.cause {
                raw::OTHER_COUNT => HubStateFault::OtherCount,
                raw::NOT_HUB => HubStateFault::NotHub,
                raw::NOT_VIEW => HubStateFault::NotView(answer.part),
                raw::NOT_COMPLEMENT => HubStateFault::NotComplement(answer.part),
                _ => HubStateFault::NotConsistent(answer.part),
            }),
            raw::LINE_FEED => Error::LineFeed,
            raw::FULL => Error::Full,
            _ => Error::NoMemory,
        }
    }
}

impl Drop for Hub {
    fn drop(&mut self) {
        unsafe {
            raw::editlens_hub_close(self.at.as_ptr());
            dealloc(self.at.as_ptr(), self.layout);
        }
    }
}

impl fmt::Debug for Hub {
    fn fmt(&self, out: &mut fmt::Formatter<'_>) -> fmt::Result {
        out.debug_struct("Hub").field("items", &self.items()).finish_non_exhaustive()
    }
}
