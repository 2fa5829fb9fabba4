//! A safe owner of a handle of the library: a server's or a client's.
use crate::ffi::{self, code, done};
use crate::model::code::Code;
use std::ptr;

/// The frames that wait after a call seldom have more bytes.
const FRAMES: usize = 256;

/// A handle. It stays in its place: the library's caller may not copy it.
pub(crate) struct Handle(Box<ffi::Handle>);

// SAFETY: what a handle keeps may go to another thread, by the library's proof. A handle serves one
// call at a time, since each call takes it by `&mut`; a lock makes each thread see what the one
// before it did.
unsafe impl Send for Handle {}

// SAFETY: a `&` gives only readers. By the library's proof, several threads may call it at once,
// each by its own reader, while no call runs that takes the handle; and a `&mut` is needed for such
// a call.
unsafe impl Sync for Handle {}

impl Handle {
    pub fn closed() -> Handle {
        Handle(Box::new(ffi::Handle { is_open: false, at: ptr::null_mut() }))
    }

    pub fn raw(&mut self) -> *mut ffi::Handle {
        &raw mut *self.0
    }

    /// A reader of what the handle keeps, as `krl_reader_of` makes it. It may be used as long as
    /// the `&` lives.
    pub fn reader(&self) -> ffi::Reader {
        ffi::Reader { is_open: self.0.is_open, at: self.0.at }
    }

    /// Confirms that the first `count` notes are on the host's disk, and returns how many the
    /// library has reported.
    pub fn confirm(&mut self, count: u64) -> Result<u64, Code> {
        // SAFETY: the handle stays in its place, and `&mut` gives it to this call only.
        done(unsafe { ffi::krl_confirm(self.raw(), count) })
    }

    /// Appends what waits to be sent, as frames: of each message its length in eight bytes, and the
    /// message.
    pub fn take(&mut self, frames: &mut Vec<u8>) -> Result<(), Code> {
        let old = frames.len();
        frames.resize(old + FRAMES, 0);
        let taken = self.append_taken(old, frames);
        frames.truncate(old + taken.unwrap_or(0));
        taken.map(drop)
    }

    /// Takes the same into the room after the old bytes, and returns how long it is. The room grows
    /// as it has to.
    pub fn append_taken(&mut self, old: usize, frames: &mut Vec<u8>) -> Result<usize, Code> {
        loop {
            let room = &mut frames[old..];
            // SAFETY: as for any handle, and there is this much room to be written to.
            let reply = unsafe { ffi::krl_take(self.raw(), room.as_mut_ptr(), room.len()) };
            let length = usize::try_from(reply.detail).map_err(|_| Code::OutOfMemory)?;
            match code(reply) {
                Code::Done => return Ok(length),
                Code::TooShort => frames.resize(old + length, 0),
                refused => return Err(refused),
            }
        }
    }
}

impl Drop for Handle {
    fn drop(&mut self) {
        // SAFETY: the handle stays in its place, and `&mut` gives it to this call only.
        unsafe { ffi::krl_close(self.raw()) }
    }
}
