//! The functions of `jdoc_file.h`, and a document in a file that closes itself.

use crate::Error;
use crate::c::{Handle, Parts};
use std::ffi::{CString, c_char, c_int};
use std::os::unix::ffi::OsStrExt;
use std::path::Path;
use std::ptr;

/// `jdoc_file`, whose fields are the library's.
#[repr(C)]
struct Raw {
    _fields: [u8; 0],
}

unsafe extern "C" {
    fn jdoc_file_open(file: *mut *mut Raw, path: *const c_char, number: u32) -> u32;
    fn jdoc_file_close(file: *mut *mut Raw) -> u32;
    fn jdoc_file_call(
        file: *mut Raw,
        line: *const u8,
        length: usize,
        reply: *mut *const u8,
        reply_length: *mut usize,
    ) -> u32;
    fn jdoc_file_reader(file: *mut Raw, reader: *mut Parts, room: usize) -> u32;
    fn jdoc_file_feed(file: *mut Raw) -> u32;
    fn jdoc_file_number(file: *const Raw) -> u32;
    fn jdoc_file_line(file: *const Raw) -> u64;
    fn jdoc_file_error(file: *const Raw) -> c_int;
}

const DONE: u32 = 0;
const UNSAVED: u32 = 16;

/// A document in a file. It is closed when it is dropped.
pub struct File {
    file: *mut Raw,
}

// SAFETY: what a file holds is reached only through it, and each call takes `&mut`. A call may come from any thread.
unsafe impl Send for File {}

impl Drop for File {
    fn drop(&mut self) {
        // SAFETY: it is null or was opened, and no call is under way. What it couldn't save is lost, as `close` would say.
        let _status = unsafe { jdoc_file_close(&mut self.file) };
    }
}

impl File {
    pub fn open(path: &Path, number: u32) -> Result<File, Error> {
        let path = CString::new(path.as_os_str().as_bytes()).map_err(|_| Error::BadPath)?;
        let mut file = File {
            file: ptr::null_mut(),
        };
        // SAFETY: the path is ended by a 0, and the pointer is null.
        let status = unsafe { jdoc_file_open(&mut file.file, path.as_ptr(), number) };
        file.checked(status)?;
        Ok(file)
    }

    /// Closes it. What couldn't be saved is lost.
    pub fn close(mut self) -> Result<(), Error> {
        // SAFETY: no call is under way. The file is null afterwards, so that it isn't closed again.
        let status = unsafe { jdoc_file_close(&mut self.file) };
        self.checked(status)
    }

    /// The reply without its line feed.
    pub fn call(&mut self, line: &str) -> Result<String, Error> {
        let mut reply = ptr::null();
        let mut length = 0;
        // SAFETY: the pointer and the length are those of one slice, which isn't null.
        let status = unsafe {
            jdoc_file_call(
                self.file,
                line.as_ptr(),
                line.len(),
                &mut reply,
                &mut length,
            )
        };
        if status != UNSAVED || length == 0 {
            self.checked(status)?;
        }
        // SAFETY: the reply has this many bytes until the next call.
        let reply = unsafe { std::slice::from_raw_parts(reply, length) };
        let reply = reply.strip_suffix(b"\n").unwrap_or(reply);
        Ok(String::from_utf8(reply.to_vec()).expect("replies are UTF-8"))
    }

    pub fn reader(&mut self, room: usize) -> Result<Handle, Error> {
        let mut reader = Handle::closed();
        // SAFETY: the file is open, and the reader is closed.
        let status = unsafe { jdoc_file_reader(self.file, reader.parts(), room) };
        self.checked(status)?;
        Ok(reader)
    }

    pub fn feed(&mut self) -> Result<(), Error> {
        // SAFETY: the file is open.
        let status = unsafe { jdoc_file_feed(self.file) };
        self.checked(status)
    }

    /// What the number of a status means.
    fn checked(&self, status: u32) -> Result<(), Error> {
        // SAFETY: these take a file that is open, or one that couldn't be opened, or null.
        let (number, line, system) = unsafe {
            (
                jdoc_file_number(self.file),
                jdoc_file_line(self.file),
                jdoc_file_error(self.file),
            )
        };
        Err(match status {
            DONE => return Ok(()),
            1 => Error::NoMemory,
            UNSAVED => Error::Unsaved,
            17 => Error::Lost,
            18 => Error::Gone,
            19 => Error::OtherProcess,
            21 => Error::Locked,
            22 => Error::NotFound,
            23 => Error::NoAccess,
            24 => Error::NotRegular,
            25 => Error::TooLarge,
            26 => Error::Damaged { line },
            27 => Error::WrongNumber { number },
            28 => Error::System { errno: system },
            _ => unreachable!("a call that this crate doesn't make"),
        })
    }
}
