//! The library's functions, and a handle that closes itself.

use crate::Error;

/// The same as `jdoc_handle` of `jdoc.h`.
#[repr(C)]
pub struct Parts {
    held: *mut u8,
    is_open: bool,
}

unsafe extern "C" {
    fn jdoc_open(
        document: *mut Parts,
        number: u32,
        journal: *const u8,
        length: usize,
        taken: *mut usize,
    ) -> u32;
    fn jdoc_close(handle: *mut Parts);
    fn jdoc_call(document: *mut Parts, line: *const u8, length: usize) -> u32;
    fn jdoc_reply(handle: *mut Parts, out: *mut u8, room: usize, length: *mut usize) -> u32;
    fn jdoc_lines(document: *mut Parts, out: *mut u8, room: usize, length: *mut usize) -> u32;
    fn jdoc_lines_stored(document: *mut Parts) -> u32;
    fn jdoc_reader(document: *mut Parts, reader: *mut Parts, room: usize) -> u32;
    fn jdoc_feed(document: *mut Parts) -> u32;
    fn jdoc_follow(reader: *mut Parts, length: *mut usize) -> u32;
    fn jdoc_ask(reader: *mut Parts, line: *const u8, length: usize) -> u32;
}

const TOO_SHORT: u32 = 2;

/// A function that copies bytes into a buffer.
type Copies = unsafe extern "C" fn(*mut Parts, *mut u8, usize, *mut usize) -> u32;

/// A handle, at a place that it keeps as long as it is open. It is closed when it is dropped.
pub struct Handle {
    parts: Box<Parts>,
}

// SAFETY: what a handle holds is reached only through it, each call takes `&mut`, and the library says that a handle may go to another
// thread. Keeping apart what a document and its readers share is up to the library.
unsafe impl Send for Handle {}

impl Drop for Handle {
    fn drop(&mut self) {
        // SAFETY: only the library has written to the handle.
        unsafe { jdoc_close(&mut *self.parts) }
    }
}

/// What the number of a status means.
fn checked(status: u32) -> Result<(), Error> {
    match status {
        0 => Ok(()),
        1 => Err(Error::NoMemory),
        5 => Err(Error::BadNumber),
        6 => Err(Error::Unfit),
        _ => unreachable!("a call that this crate doesn't make"),
    }
}

impl Handle {
    pub fn closed() -> Handle {
        Handle {
            parts: Box::new(Parts {
                held: std::ptr::null_mut(),
                is_open: false,
            }),
        }
    }

    /// For a function that opens it.
    pub fn parts(&mut self) -> &mut Parts {
        &mut self.parts
    }

    pub fn open(number: u32, journal: &[u8]) -> Result<(Handle, usize), Error> {
        let mut document = Handle::closed();
        let mut taken = 0;
        // SAFETY: the handle is closed, and the pointer and the length are those of one slice.
        checked(unsafe {
            jdoc_open(
                document.parts(),
                number,
                journal.as_ptr(),
                journal.len(),
                &mut taken,
            )
        })?;
        Ok((document, taken))
    }

    pub fn reader(&mut self, room: usize) -> Result<Handle, Error> {
        let mut reader = Handle::closed();
        // SAFETY: this handle is open, and the other one is closed.
        checked(unsafe { jdoc_reader(&mut *self.parts, reader.parts(), room) })?;
        Ok(reader)
    }

    pub fn call(&mut self, line: &str) -> Result<String, Error> {
        // SAFETY: the pointer and the length are those of one slice, which isn't null.
        checked(unsafe { jdoc_call(&mut *self.parts, line.as_ptr(), line.len()) })?;
        self.reply()
    }

    pub fn ask(&mut self, line: &str) -> Result<String, Error> {
        // SAFETY: as in `call`.
        checked(unsafe { jdoc_ask(&mut *self.parts, line.as_ptr(), line.len()) })?;
        self.reply()
    }

    /// The reply without its line feed.
    fn reply(&mut self) -> Result<String, Error> {
        let mut reply = self.copied(jdoc_reply)?;
        reply.pop();
        Ok(String::from_utf8(reply).expect("replies are UTF-8"))
    }

    pub fn lines(&mut self) -> Result<Vec<u8>, Error> {
        self.copied(jdoc_lines)
    }

    pub fn lines_stored(&mut self) -> Result<(), Error> {
        // SAFETY: the handle is open.
        checked(unsafe { jdoc_lines_stored(&mut *self.parts) })
    }

    pub fn feed(&mut self) -> Result<(), Error> {
        // SAFETY: the handle is open.
        checked(unsafe { jdoc_feed(&mut *self.parts) })
    }

    pub fn follow(&mut self) -> Result<usize, Error> {
        let mut length = 0;
        // SAFETY: the handle is open.
        checked(unsafe { jdoc_follow(&mut *self.parts, &mut length) })?;
        Ok(length)
    }

    /// Everything that this function copies.
    fn copied(&mut self, copy: Copies) -> Result<Vec<u8>, Error> {
        let mut bytes = vec![0; 256];
        let mut length = 0;
        // SAFETY: the handle is open, and the pointer and the length are those of one slice.
        let mut status = unsafe {
            copy(
                &mut *self.parts,
                bytes.as_mut_ptr(),
                bytes.len(),
                &mut length,
            )
        };
        if status == TOO_SHORT {
            bytes.resize(length, 0);
            // SAFETY: as above.
            status = unsafe {
                copy(
                    &mut *self.parts,
                    bytes.as_mut_ptr(),
                    bytes.len(),
                    &mut length,
                )
            };
        }
        checked(status)?;
        bytes.truncate(length);
        Ok(bytes)
    }
}
