//! The calls of the header, which describes what each does and what its caller has to see to: these
//! are the conditions under which each is safe. Each examines what C gives it, and hands on values.
#![allow(clippy::missing_safety_doc, reason = "the header has it")]
#![allow(missing_docs, reason = "the header has it")]

/// Defines a call by which this owner, a client or a pin, writes a row.
macro_rules! row_call {
    ($row_call:ident, $owner:ty, $write:ident) => {
        #[unsafe(no_mangle)]
        pub unsafe extern "C" fn $row_call(
            owner: *mut $owner,
            key: u64,
            bytes: *const c_void,
            length: usize,
            timeout_ms: u64,
            error: *mut ErrorRoom,
        ) -> u32 {
            // SAFETY: the caller vouches for this many bytes.
            let value = || unsafe { input::value(bytes.cast(), length) };
            // SAFETY: the caller vouches for the owner and the room.
            unsafe { write(owner, timeout_ms, error, |owner| Ok(owner.$write(key, value()?)?)) }
        }
    };
}

mod pins;
mod readers;
mod room;

pub use pins::*;
pub use readers::*;
use room::emptied;
pub use room::*;

use crate::client::Joined;
use crate::code::Code;
use crate::fault::{ErrorRoom, Fault, answer};
use crate::input::{self, GivenRow, range};
use crate::options::{NUMBERS, Options, Wish};
use crate::status::Status;
use crate::writes::{GivenWrite, write_all, writes};
use krl::{ErrorKind, Outcome, Row, Waited};
use krl_ffi::{Handle, Kind, fork, options_at, put_out, quiet};
use std::ffi::{c_char, c_void};
use std::ptr;
use std::time::Duration;

type Client = Handle<Joined>;
type Rows = Handle<Vec<Row>>;

static CLIENTS: Kind<Joined> = Kind::new("client");

/// A client of this process.
///
/// # Safety
///
/// `client` is null or a client's handle, which no other call frees as long as the answer lives.
unsafe fn own<'a>(client: *const Client) -> Result<&'a Joined, Fault> {
    // SAFETY: the caller vouches for the handle.
    Ok(unsafe { CLIENTS.own_value(client) }?)
}

/// Makes a call of a client.
///
/// # Safety
///
/// As the header requires of the calls below.
unsafe fn by(
    client: *const Client,
    error: *mut ErrorRoom,
    call: impl FnOnce(&Joined) -> Result<Code, Fault>,
) -> u32 {
    // SAFETY: the caller frees the client after this call, and vouches for the room of the error.
    unsafe { answer(error, || call(own(client)?)) }
}

/// Opens what is made by these options, under this name, and hands its handle out.
///
/// # Safety
///
/// As the header requires of the calls below.
unsafe fn open<'o, V: Send + Sync>(
    kind: &'static Kind<V>,
    (name, out): (&'static str, *mut *mut Handle<V>),
    options: *const Options,
    error: *mut ErrorRoom,
    make: impl FnOnce(Wish<'o>) -> Result<V, Fault>,
) -> u32 {
    let open = || {
        // SAFETY: the caller vouches for the room, the options and their texts.
        unsafe { put_out(name, out, ptr::null_mut()) }?;
        // SAFETY: as above.
        let options = unsafe { options_at(options) }?;
        // SAFETY: as above.
        let wish = unsafe { options.wish() }?;
        fork::watch()?;
        let opened = kind.open(make(wish)?)?;
        // SAFETY: as above.
        unsafe { put_out(name, out, opened) }?;
        Ok(Code::Ok)
    };
    // SAFETY: the caller vouches for the room of the error.
    unsafe { answer(error, open) }
}

#[unsafe(no_mangle)]
pub extern "C" fn krlc_version() -> u32 {
    let part = |text: &str| text.parse::<u32>().unwrap_or(0);
    let (major, minor) = (env!("CARGO_PKG_VERSION_MAJOR"), env!("CARGO_PKG_VERSION_MINOR"));
    part(major) * 1_000_000 + part(minor) * 1000 + part(env!("CARGO_PKG_VERSION_PATCH"))
}

#[unsafe(no_mangle)]
pub extern "C" fn krlc_code_name(code: u32) -> *const c_char {
    Code::of(code).map_or(c"?", Code::name).as_ptr()
}

#[unsafe(no_mangle)]
pub extern "C" fn krlc_is_unknown_outcome(code: u32) -> bool {
    Code::of(code).is_some_and(Code::is_unknown_outcome)
}

#[unsafe(no_mangle)]
pub unsafe extern "C" fn krlc_join(
    options: *const Options,
    client: *mut *mut Client,
    error: *mut ErrorRoom,
) -> u32 {
    let room = ("a client", client);
    // SAFETY: the caller vouches for the room, the options and their texts.
    unsafe { open(&CLIENTS, room, options, error, Wish::join) }
}

#[unsafe(no_mangle)]
pub unsafe extern "C" fn krlc_evict(options: *const Options, error: *mut ErrorRoom) -> u32 {
    let evict = || {
        // SAFETY: the caller vouches for the options and their texts.
        let options = unsafe { options_at(options) }?;
        // SAFETY: as above.
        unsafe { options.wish() }?.evict()?;
        Ok(Code::Ok)
    };
    // SAFETY: the caller vouches for the room of the error.
    unsafe { answer(error, evict) }
}

#[unsafe(no_mangle)]
pub unsafe extern "C" fn krlc_leave(
    client: *mut Client,
    timeout_ms: u64,
    error: *mut ErrorRoom,
) -> u32 {
    let leave = |joined: &Joined| Ok(joined.within(timeout_ms).leave().map(|()| Code::Ok)?);
    // SAFETY: the caller vouches for the client and the room.
    unsafe { by(client, error, leave) }
}

#[unsafe(no_mangle)]
pub unsafe extern "C" fn krlc_free(client: *mut Client) {
    // SAFETY: the caller makes no other call with the client.
    quiet(|| unsafe { CLIENTS.free(client, Joined::end) });
}

#[unsafe(no_mangle)]
pub unsafe extern "C" fn krlc_set_timeout(
    client: *mut Client,
    timeout_ms: u64,
    error: *mut ErrorRoom,
) -> u32 {
    let set = |joined: &Joined| {
        if timeout_ms == 0 {
            return Err(Fault::misuse("a timeout is at least 1 millisecond"));
        }
        joined.client().set_timeout(Duration::from_millis(timeout_ms));
        Ok(Code::Ok)
    };
    // SAFETY: the caller vouches for the client and the room.
    unsafe { by(client, error, set) }
}

#[unsafe(no_mangle)]
pub unsafe extern "C" fn krlc_keep_all(client: *mut Client, error: *mut ErrorRoom) -> u32 {
    let keep = |joined: &Joined| {
        joined.client().keep_all();
        Ok(Code::Ok)
    };
    // SAFETY: the caller vouches for the client and the room.
    unsafe { by(client, error, keep) }
}

#[unsafe(no_mangle)]
pub unsafe extern "C" fn krlc_follow(client: *mut Client, error: *mut ErrorRoom) -> u32 {
    // SAFETY: the caller vouches for the client and the room.
    unsafe { by(client, error, |joined| joined.follow().map(|()| Code::Ok)) }
}

#[unsafe(no_mangle)]
pub unsafe extern "C" fn krlc_reload_tls(client: *mut Client, error: *mut ErrorRoom) -> u32 {
    // SAFETY: the caller vouches for the client and the room.
    unsafe { by(client, error, |joined| joined.reload_tls().map(|()| Code::Ok)) }
}

#[unsafe(no_mangle)]
pub unsafe extern "C" fn krlc_number(client: *mut Client) -> u32 {
    // SAFETY: the caller frees the client after this call.
    let number = || unsafe { own(client) }.map_or(NUMBERS, |it| it.client().number().into());
    quiet(number).unwrap_or(NUMBERS)
}

#[unsafe(no_mangle)]
pub unsafe extern "C" fn krlc_joined(client: *mut Client) -> usize {
    // SAFETY: the caller frees the client after this call.
    let joined = || unsafe { own(client) }.map_or(0, |it| it.client().status().len());
    quiet(joined).unwrap_or(0)
}

#[unsafe(no_mangle)]
pub unsafe extern "C" fn krlc_status_at(
    client: *mut Client,
    place: usize,
    status: *mut Status,
    error: *mut ErrorRoom,
) -> u32 {
    let show = |joined: &Joined| {
        let shown = Status::at(joined.client(), place)?;
        // SAFETY: the caller vouches for the room.
        unsafe { put_out("a status", status, shown) }?;
        Ok(Code::Ok)
    };
    // SAFETY: the caller vouches for the client and the room.
    unsafe { by(client, error, show) }
}

#[unsafe(no_mangle)]
pub unsafe extern "C" fn krlc_cached(
    client: *mut Client,
    lo: u64,
    hi: u64,
    rows: *mut Rows,
) -> u32 {
    let read = || {
        // SAFETY: the caller frees both after this call, and uses the rows in no other one.
        let (joined, rows) = unsafe { (own(client)?, emptied(rows)?) };
        let is_cached = joined.client().cached_into(range(lo, hi)?, rows)?;
        if !is_cached {
            rows.clear();
        }
        Ok(if is_cached { Code::Ok } else { Code::Miss })
    };
    // SAFETY: there is no room for an error.
    unsafe { answer(ptr::null_mut(), read) }
}

#[unsafe(no_mangle)]
pub unsafe extern "C" fn krlc_cached_into(
    client: *mut Client,
    lo: u64,
    hi: u64,
    at: *mut Row,
    room: usize,
    count: *mut usize,
) -> u32 {
    let read = || {
        // SAFETY: the caller frees the client after this call.
        let joined = unsafe { own(client) }?;
        if at.is_null() && room > 0 {
            return Err(Fault::misuse("the pointer to room for rows is null"));
        }
        let mut found = 0;
        let copy = |row: &Row| {
            if found < room {
                // SAFETY: the caller vouches for this much room. Nothing of it is read.
                unsafe { at.add(found).write(*row) };
            }
            found += 1;
        };
        if !joined.client().for_each_cached(range(lo, hi)?, copy)? {
            return Ok(Code::Miss);
        }
        // SAFETY: the caller vouches for the room.
        unsafe { put_out("a count", count, found) }?;
        Ok(if found <= room { Code::Ok } else { Code::TooShort })
    };
    // SAFETY: there is no room for an error.
    unsafe { answer(ptr::null_mut(), read) }
}

#[unsafe(no_mangle)]
pub unsafe extern "C" fn krlc_cached_row(client: *mut Client, key: u64, row: *mut Row) -> u32 {
    let read = || {
        // SAFETY: the caller frees the client after this call.
        let joined = unsafe { own(client) }?;
        let mut found = None;
        // A range of one key is none only if its shard is not joined.
        let is_cached = joined.client().for_each_cached(input::key(key)?, |row| found = Some(*row));
        if !is_cached.map_err(|_| ErrorKind::BadKey)? {
            return Ok(Code::Miss);
        }
        let Some(found) = found else { return Ok(Code::Absent) };
        // SAFETY: the caller vouches for the room.
        unsafe { put_out("a row", row, found) }?;
        Ok(Code::Ok)
    };
    // SAFETY: there is no room for an error.
    unsafe { answer(ptr::null_mut(), read) }
}

#[unsafe(no_mangle)]
pub unsafe extern "C" fn krlc_tenure(
    client: *mut Client,
    lo: u64,
    hi: u64,
    tenure: *mut u64,
) -> u32 {
    let find = |joined: &Joined| {
        let Some(found) = joined.client().tenure(range(lo, hi)?)? else { return Ok(Code::Miss) };
        // SAFETY: the caller vouches for the room.
        unsafe { put_out("a tenure", tenure, found.into()) }?;
        Ok(Code::Ok)
    };
    // SAFETY: the caller vouches for the client, and there is no room for an error.
    unsafe { by(client, ptr::null_mut(), find) }
}

#[unsafe(no_mangle)]
pub unsafe extern "C" fn krlc_read(
    client: *mut Client,
    lo: u64,
    hi: u64,
    rows: *mut Rows,
    timeout_ms: u64,
    error: *mut ErrorRoom,
) -> u32 {
    let read = || {
        // SAFETY: the caller frees both after this call, and uses the rows in no other one.
        let (joined, rows) = unsafe { (own(client)?, emptied(rows)?) };
        let keys = range(lo, hi)?;
        if !joined.client().cached_into(keys.clone(), rows)? {
            rows.clear();
            *rows = joined.within(timeout_ms).read(keys)?;
        }
        Ok(Code::Ok)
    };
    // SAFETY: the caller vouches for the room of the error.
    unsafe { answer(error, read) }
}

#[unsafe(no_mangle)]
pub unsafe extern "C" fn krlc_get(
    client: *mut Client,
    key: u64,
    row: *mut Row,
    timeout_ms: u64,
    error: *mut ErrorRoom,
) -> u32 {
    let get = |joined: &Joined| {
        input::key(key)?;
        let found = joined.within(timeout_ms).get(key)?;
        let Some(value) = found else { return Ok(Code::Absent) };
        // SAFETY: the caller vouches for the room.
        unsafe { put_out("a row", row, Row { key, value }) }?;
        Ok(Code::Ok)
    };
    // SAFETY: the caller vouches for the client and the room.
    unsafe { by(client, error, get) }
}

#[unsafe(no_mangle)]
pub unsafe extern "C" fn krlc_wait_for_change(
    client: *mut Client,
    lo: u64,
    hi: u64,
    rows: *const GivenRow,
    count: usize,
    timeout_ms: u64,
    error: *mut ErrorRoom,
) -> u32 {
    let wait = || {
        // SAFETY: the caller frees the client after this call, and vouches for this many rows.
        let (joined, rows) = unsafe { (own(client)?, input::rows(rows, count)?) };
        let timeout = Duration::from_millis(timeout_ms);
        Ok(match joined.client().wait_for_change(range(lo, hi)?, &rows, timeout)? {
            Waited::Changed => Code::Ok,
            Waited::Unchanged => Code::Unchanged,
        })
    };
    // SAFETY: the caller vouches for the room of the error.
    unsafe { answer(error, wait) }
}

#[unsafe(no_mangle)]
pub unsafe extern "C" fn krlc_forget(
    client: *mut Client,
    lo: u64,
    hi: u64,
    timeout_ms: u64,
    error: *mut ErrorRoom,
) -> u32 {
    let forget = |joined: &Joined| {
        joined.within(timeout_ms).forget(range(lo, hi)?)?;
        Ok(Code::Ok)
    };
    // SAFETY: the caller vouches for the client and the room.
    unsafe { by(client, error, forget) }
}

/// Makes a write by a client.
///
/// # Safety
///
/// As the header requires of the calls below.
unsafe fn write(
    client: *mut Client,
    timeout_ms: u64,
    error: *mut ErrorRoom,
    write: impl FnOnce(&krl::Client) -> Result<Outcome, Fault>,
) -> u32 {
    // SAFETY: the caller vouches for the client and the room.
    unsafe { by(client, error, |joined| Ok(write(&joined.within(timeout_ms))?.into())) }
}

row_call!(krlc_insert, Client, insert);
row_call!(krlc_put, Client, put);
row_call!(krlc_set, Client, set);

#[unsafe(no_mangle)]
pub unsafe extern "C" fn krlc_delete(
    client: *mut Client,
    key: u64,
    timeout_ms: u64,
    error: *mut ErrorRoom,
) -> u32 {
    // SAFETY: the caller vouches for the client and the room.
    unsafe { write(client, timeout_ms, error, |client| Ok(client.delete(key)?)) }
}

#[unsafe(no_mangle)]
pub unsafe extern "C" fn krlc_write_all(
    client: *mut Client,
    at: *mut GivenWrite,
    count: usize,
    timeout_ms: u64,
    error: *mut ErrorRoom,
) -> u32 {
    let write = || {
        // SAFETY: the caller vouches for this many writes, and frees the client after this call.
        let (given, joined) = unsafe { (writes(at, count)?, own(client)?) };
        write_all(given, |wanted| joined.within(timeout_ms).write_all(wanted))
    };
    // SAFETY: the caller vouches for the room of the error.
    unsafe { answer(error, write) }
}
