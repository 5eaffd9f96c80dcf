//! An embedded, local-first JSON document engine, as a safe crate over its library for C.
//!
//! A [`Document`] is written and asked, and a [`Reader`] follows it on another thread, without locks. Values, paths and answers are JSON,
//! as `jdoc serve` takes and gives them: they are passed as strings, and whoever wants values adds a crate for JSON.
//!
//! ```
//! use jdoc::{Document, Id, Questions};
//!
//! let mut document = Document::new(1)?;
//! assert_eq!(document.set(r#"["title"]"#, r#""Shopping""#)?, Id { counter: 1, replica: 1 });
//! assert_eq!(document.get("[]")?, r#"{"title":"Shopping"}"#);
//! # Ok::<(), jdoc::Error>(())
//! ```
//!
//! [`Document::open`] keeps a document in a file: what a call wrote or received is saved when it returns.

mod c;
mod file;
mod questions;
mod quoting;
mod replies;

pub use questions::Questions;
use questions::stepped;
use quoting::{bundle_text, quoted};
pub use replies::{Id, Status};
use replies::{id_of, rest_of, status_of};
use std::fmt;
use std::path::Path;

/// Why a call failed.
#[derive(Debug, Clone, Copy, PartialEq, Eq)]
#[non_exhaustive]
pub enum Error {
    /// An allocation failed. What a request writes or receives may be in the document all the same: ask `status`.
    NoMemory,
    /// The engine refused it, with this code, and nothing has changed: 3 is E3 in docs/RULES.md, 'Refusals'.
    Refused(u8),
    /// The number is 0 and the journal has no entry of its own, or it differs from the journal's.
    BadNumber,
    /// A line of the journal, or an operation that came to a reader, doesn't fit.
    Unfit,
    /// What was asked for is in the document, but couldn't be saved. Don't ask for it again: [`Document::save`], the next write and
    /// [`Document::close`] save it too.
    Unsaved,
    /// A sync or a cut of the file failed, so it isn't known what it has; what was asked for may be lost. All calls fail from now on: open
    /// the file again, which has all that was called saved.
    Lost,
    /// The file was moved, deleted, replaced or changed by others while it was open, so what was asked for isn't in the file of that name.
    /// All calls fail from now on.
    Gone,
    /// The document was opened in another process. A forked process has nothing of it.
    OtherProcess,
    /// The file is open elsewhere, in this program or in another one.
    Locked,
    /// There is no such folder.
    NotFound,
    /// The file, or its folder, may not be read or written.
    NoAccess,
    /// The path is that of a folder, a pipe or a device.
    NotRegular,
    /// The file is larger than any document's.
    TooLarge,
    /// A line of the file, counted from 1, doesn't fit: it was changed, or isn't a document's. It is as it was.
    Damaged { line: u64 },
    /// The file is of this number, and not of the one that was given.
    WrongNumber { number: u32 },
    /// The path has a zero byte.
    BadPath,
    /// A call of the system failed when the file was opened.
    System { errno: i32 },
    /// The reply isn't of the form that was expected, which is a fault of this crate.
    BadReply,
}

impl fmt::Display for Error {
    fn fmt(&self, f: &mut fmt::Formatter<'_>) -> fmt::Result {
        match self {
            Error::NoMemory => f.write_str("memory was short"),
            Error::Refused(code) => write!(f, "E{code}"),
            Error::BadNumber => f.write_str("the number isn't the journal's, or is 0"),
            Error::Unfit => f.write_str("a line of the journal doesn't fit"),
            Error::Unsaved => f.write_str("it is in the document, but couldn't be saved"),
            Error::Lost => f.write_str("a sync failed, so nobody knows what the file has"),
            Error::Gone => {
                f.write_str("the file was moved, deleted, replaced or changed by others")
            }
            Error::OtherProcess => f.write_str("the document was opened in another process"),
            Error::Locked => f.write_str("the file is open elsewhere"),
            Error::NotFound => f.write_str("there is no such folder"),
            Error::NoAccess => f.write_str("the file or its folder may not be read or written"),
            Error::NotRegular => f.write_str("it is no regular file"),
            Error::TooLarge => f.write_str("the file is larger than any document's"),
            Error::Damaged { line } => write!(f, "line {line} of the file doesn't fit"),
            Error::WrongNumber { number } => write!(f, "the file is of number {number}"),
            Error::BadPath => f.write_str("the path has a zero byte"),
            Error::System { errno } => std::io::Error::from_raw_os_error(*errno).fmt(f),
            Error::BadReply => f.write_str("the reply is of another form"),
        }
    }
}

impl std::error::Error for Error {}

/// One document that is written. It may go to another thread; threads that share one put it into a `Mutex`.
///
/// ```compile_fail
/// fn shared<T: Sync>(_: T) {}
/// shared(jdoc::Document::new(1).unwrap());
/// ```
pub struct Document {
    place: Place,
}

/// Where a document is kept.
enum Place {
    /// By the program, which takes its lines.
    Memory(c::Handle),
    File(file::File),
}

/// What a peer lacked.
#[derive(Debug, Clone, PartialEq, Eq)]
pub struct Bundle {
    /// The lines for the peer, as they are in the reply: a JSON string. `Document::receive` takes it.
    pub text: String,
    /// Whether the peer lacks more; it says hello again once it has received these.
    pub has_more: bool,
    /// Whether the peer knows operations of this device that aren't here: write no more under its number then.
    pub is_beyond: bool,
}

impl Document {
    /// The document in the file of this path, which is created if it doesn't exist. What a call wrote or received is saved when it returns:
    /// appended to the file and synced. The number is the file's, or a random one if this device hasn't written there.
    pub fn open(path: impl AsRef<Path>) -> Result<Document, Error> {
        Document::open_numbered(path.as_ref(), 0)
    }

    /// The same, as the device with this number, which no other device of the document has.
    pub fn open_as(path: impl AsRef<Path>, number: u32) -> Result<Document, Error> {
        if number == 0 {
            return Err(Error::BadNumber);
        }
        Document::open_numbered(path.as_ref(), number)
    }

    fn open_numbered(path: &Path, number: u32) -> Result<Document, Error> {
        file::File::open(path, number).map(|file| Document {
            place: Place::File(file),
        })
    }

    /// Closes the document. One that is dropped is closed too.
    ///
    /// # Errors
    /// `Unsaved`, `Lost` or `Gone` if something wasn't saved, and is lost now.
    pub fn close(self) -> Result<(), Error> {
        match self.place {
            Place::Memory(_) => Ok(()),
            Place::File(file) => file.close(),
        }
    }

    /// A new document of the device with this number, which no other device of the document has. It is in memory, and its lines are yours to
    /// store.
    pub fn new(number: u32) -> Result<Document, Error> {
        Document::resume(number, b"").map(|(document, _)| document)
    }

    /// A document that resumes from the lines of its journal, and how many bytes of it were taken: what is after them was being written
    /// when the power went, and has to be cut off. The number may be 0 if the journal has an entry of its own.
    pub fn resume(number: u32, journal: &[u8]) -> Result<(Document, usize), Error> {
        let (handle, taken) = c::Handle::open(number, journal)?;
        let place = Place::Memory(handle);
        Ok((Document { place }, taken))
    }

    /// The reply to a request, both without their line feeds. What it says was made, received or saved is in the file; of a document that is
    /// in memory it is in [`lines`](Self::lines): store those before the reply is used.
    pub fn request(&mut self, line: &str) -> Result<String, Error> {
        match &mut self.place {
            Place::Memory(handle) => handle.call(line),
            Place::File(file) => file.call(line),
        }
    }

    /// Writes a value over everything at the element: a number, a text, `true`, `false`, `null`, or `[]` or `{}`, which is then filled by
    /// calls of its own.
    pub fn set(&mut self, expression: &str, value: &str) -> Result<Id, Error> {
        id_of(&self.request(&format!(r#"["assign",{expression},{value}]"#))?)
    }

    /// Inserts an item right after the one to which the expression leads, or at the head of the list if its last step is 0.
    pub fn insert_after(&mut self, expression: &str, value: &str) -> Result<Id, Error> {
        id_of(&self.request(&format!(r#"["insert",{expression},{value}]"#))?)
    }

    /// Inserts an item after the last one of the list to which the expression leads, or as its first one.
    pub fn append(&mut self, expression: &str, value: &str) -> Result<Id, Error> {
        let items = self.items(expression)?;
        let last = match items.rfind('[') {
            Some(0) | None => "0",
            Some(at) => &items[at..items.len() - 1],
        };
        self.insert_after(&stepped(expression, last), value)
    }

    /// Deletes what is at the element. What others write there concurrently stays.
    pub fn delete(&mut self, expression: &str) -> Result<Id, Error> {
        id_of(&self.request(&format!(r#"["delete",{expression}]"#))?)
    }

    /// The number, how many operations there are, and how many of them count as saved.
    pub fn status(&mut self) -> Result<Status, Error> {
        status_of(&self.request(r#"["status"]"#)?)
    }

    /// Saves what isn't saved, after `Unsaved`.
    pub fn save(&mut self) -> Result<(), Error> {
        rest_of(&self.request(r#"["save"]"#)?, "saved").map(|_| ())
    }

    /// The lines of the journal that came since [`stored`](Self::stored). There are none if the document is in a file, which has them.
    pub fn lines(&mut self) -> Result<Vec<u8>, Error> {
        match &mut self.place {
            Place::Memory(handle) => handle.lines(),
            Place::File(_) => Ok(Vec::new()),
        }
    }

    /// Calls the lines that `lines` gave last stored.
    pub fn stored(&mut self) -> Result<(), Error> {
        match &mut self.place {
            Place::Memory(handle) => handle.lines_stored(),
            Place::File(_) => Ok(()),
        }
    }

    /// A reader for another thread, with room for `room` operations on their way to it, at least one.
    pub fn reader(&mut self, room: usize) -> Result<Reader, Error> {
        let handle = match &mut self.place {
            Place::Memory(handle) => handle.reader(room)?,
            Place::File(file) => file.reader(room)?,
        };
        Ok(Reader { handle })
    }

    /// Sends the readers what they have room for, as each request does.
    pub fn feed(&mut self) -> Result<(), Error> {
        match &mut self.place {
            Place::Memory(handle) => handle.feed(),
            Place::File(file) => file.feed(),
        }
    }

    /// The line that tells a peer what is known here.
    pub fn hello(&mut self) -> Result<String, Error> {
        let reply = self.request(r#"["hello"]"#)?;
        rest_of(&reply, "hello")?;
        Ok(reply)
    }

    /// What the peer with this hello lacks.
    pub fn answer(&mut self, hello: &str) -> Result<Bundle, Error> {
        let reply = self.request(&format!(r#"["answer",{}]"#, quoted(hello)))?;
        rest_of(&reply, "bundle")?;
        let text = bundle_text(&reply).ok_or(Error::BadReply)?.to_owned();
        Ok(Bundle {
            text,
            has_more: reply.ends_with(",true,false]") || reply.ends_with(",true,true]"),
            is_beyond: reply.ends_with(",true]"),
        })
    }

    /// Receives what a peer answered. Returns the reply, `["received",TAKEN,REFUSED,STOP]`.
    pub fn receive(&mut self, bundle: &Bundle) -> Result<String, Error> {
        let reply = self.request(&format!(r#"["receive",{}]"#, bundle.text))?;
        rest_of(&reply, "received")?;
        Ok(reply)
    }

    /// Exchanges with another document of this program, both ways, until neither has more. A reply that reports refused or bad lines is an
    /// error, `BadReply`: documents of this program send none.
    pub fn sync(&mut self, other: &mut Document) -> Result<(), Error> {
        take_all(self, other)?;
        take_all(other, self)
    }
}

/// Receives everything that the other document has.
fn take_all(document: &mut Document, other: &mut Document) -> Result<(), Error> {
    loop {
        let bundle = other.answer(&document.hello()?)?;
        if !document.receive(&bundle)?.ends_with(",null,null]") {
            return Err(Error::BadReply);
        }
        if !bundle.has_more {
            return Ok(());
        }
    }
}

impl Questions for Document {
    fn ask(&mut self, line: &str) -> Result<String, Error> {
        self.request(line)
    }
}

/// A reader of a document, for another thread.
///
/// ```compile_fail
/// fn shared<T: Sync>(_: T) {}
/// shared(jdoc::Document::new(1).unwrap().reader(1).unwrap());
/// ```
pub struct Reader {
    handle: c::Handle,
}

impl Reader {
    /// Takes in what has come. Returns how many operations it has taken in since it was opened.
    pub fn follow(&mut self) -> Result<usize, Error> {
        self.handle.follow()
    }
}

impl Questions for Reader {
    /// Any other request is refused (E22).
    fn ask(&mut self, line: &str) -> Result<String, Error> {
        self.handle.ask(line)
    }
}
