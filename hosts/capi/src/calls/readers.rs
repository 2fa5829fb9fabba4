//! The calls that read what is not kept: those of readers, which are no clients, and one of clients.
use super::room::emptied;
use super::{Client, Rows, open, own};
use crate::code::Code;
use crate::fault::{ErrorRoom, Fault, answer};
use crate::input::{self, range};
use crate::options::Options;
use krl::Row;
use krl_ffi::{Handle, Kind, put_out, quiet};
use std::sync::{Mutex, MutexGuard, PoisonError};

type Reader = Handle<Mutex<krl::Reader>>;

static READERS: Kind<Mutex<krl::Reader>> = Kind::new("reader");

/// A reader of this process. Threads that read by it take turns.
///
/// # Safety
///
/// `reader` is null or a reader's handle, which no other call frees as long as the answer lives.
unsafe fn own_reader<'a>(reader: *mut Reader) -> Result<MutexGuard<'a, krl::Reader>, Fault> {
    // SAFETY: the caller vouches for the handle.
    let reader = unsafe { READERS.own_value(reader) }?;
    Ok(reader.lock().unwrap_or_else(PoisonError::into_inner))
}

#[unsafe(no_mangle)]
pub unsafe extern "C" fn krlc_reader_connect(
    options: *const Options,
    reader: *mut *mut Reader,
    error: *mut ErrorRoom,
) -> u32 {
    let room = ("a reader", reader);
    // SAFETY: the caller vouches for the room, the options and their texts.
    unsafe { open(&READERS, room, options, error, |wish| Ok(Mutex::new(wish.reader()?))) }
}

#[unsafe(no_mangle)]
pub unsafe extern "C" fn krlc_reader_read(
    reader: *mut Reader,
    lo: u64,
    hi: u64,
    rows: *mut Rows,
    error: *mut ErrorRoom,
) -> u32 {
    let read = || {
        // SAFETY: the caller frees both after this call, and uses the rows in no other one.
        let (mut reader, rows) = unsafe { (own_reader(reader)?, emptied(rows)?) };
        *rows = reader.read(range(lo, hi)?)?;
        Ok(Code::Ok)
    };
    // SAFETY: the caller vouches for the room of the error.
    unsafe { answer(error, read) }
}

#[unsafe(no_mangle)]
pub unsafe extern "C" fn krlc_reader_get(
    reader: *mut Reader,
    key: u64,
    row: *mut Row,
    error: *mut ErrorRoom,
) -> u32 {
    let get = || {
        // SAFETY: the caller frees the reader after this call.
        let mut reader = unsafe { own_reader(reader) }?;
        let Some(found) = reader.read(input::key(key)?)?.pop() else { return Ok(Code::Absent) };
        // SAFETY: the caller vouches for the room.
        unsafe { put_out("a row", row, found) }?;
        Ok(Code::Ok)
    };
    // SAFETY: the caller vouches for the room of the error.
    unsafe { answer(error, get) }
}

#[unsafe(no_mangle)]
pub unsafe extern "C" fn krlc_reader_free(reader: *mut Reader) {
    // SAFETY: the caller makes no other call with the reader.
    quiet(|| unsafe { READERS.free(reader, drop) });
}

#[unsafe(no_mangle)]
pub unsafe extern "C" fn krlc_read_once(
    client: *mut Client,
    lo: u64,
    hi: u64,
    rows: *mut Rows,
    timeout_ms: u64,
    error: *mut ErrorRoom,
) -> u32 {
    let read = || {
        // SAFETY: the caller frees both after this call, and uses the rows in no other one.
        let (joined, rows) = unsafe { (own(client)?, emptied(rows)?) };
        *rows = joined.within(timeout_ms).read_once(range(lo, hi)?)?;
        Ok(Code::Ok)
    };
    // SAFETY: the caller vouches for the room of the error.
    unsafe { answer(error, read) }
}
