//! The calls of the header, which describes what each does and what its caller has to see to: these
//! are the conditions under which each is safe. Each examines what C gives it, and hands on values.
#![allow(clippy::missing_safety_doc, reason = "the header has it")]
#![allow(missing_docs, reason = "the header has it")]
mod reads;
mod rows;

pub use reads::*;
pub use rows::*;

use crate::code::Code;
use crate::fault::{ErrorRoom, Fault, answer};
use crate::options::Options;
use crate::statistics::Statistics;
use krl_ffi::{AtExit, Handle, Kind, fork, options_at, put_out, quiet, text};
use std::ffi::c_char;
use std::ptr;

type Cache = Handle<Opened>;
type Table = Handle<krl_cache::Table>;

static CACHES: Kind<Opened> = Kind::new("cache");
static TABLES: Kind<krl_cache::Table> = Kind::new("table");

/// A cache, which gives back what it holds if the process ends.
#[derive(Debug)]
pub struct Opened {
    cache: krl_cache::Cache,
    _at_exit: AtExit,
}

impl Opened {
    fn new(cache: krl_cache::Cache) -> Opened {
        Opened { _at_exit: AtExit::call(cache.give_back()), cache }
    }
}

/// A table of this process.
///
/// # Safety
///
/// `table` is null or a table's handle, which no other call frees as long as the answer lives.
unsafe fn own<'a>(table: *const Table) -> Result<&'a krl_cache::Table, Fault> {
    // SAFETY: the caller vouches for the handle.
    Ok(unsafe { TABLES.own_value(table) }?)
}

#[unsafe(no_mangle)]
pub extern "C" fn krlcache_version() -> u32 {
    let part = |text: &str| text.parse::<u32>().unwrap_or(0);
    let (major, minor) = (env!("CARGO_PKG_VERSION_MAJOR"), env!("CARGO_PKG_VERSION_MINOR"));
    part(major) * 1_000_000 + part(minor) * 1000 + part(env!("CARGO_PKG_VERSION_PATCH"))
}

#[unsafe(no_mangle)]
pub extern "C" fn krlcache_code_name(code: u32) -> *const c_char {
    Code::of(code).map_or(c"?", Code::name).as_ptr()
}

#[unsafe(no_mangle)]
pub unsafe extern "C" fn krlcache_open(
    options: *const Options,
    cache: *mut *mut Cache,
    error: *mut ErrorRoom,
) -> u32 {
    let open = || {
        // SAFETY: the caller vouches for the room, the options and their texts. All bytes make
        // options, since their members are numbers and pointers.
        unsafe { put_out("a cache", cache, ptr::null_mut()) }?;
        // SAFETY: as above.
        let options = unsafe { options_at(options) }?;
        // SAFETY: as above.
        let builder = unsafe { options.builder() }?;
        fork::watch()?;
        let opened = CACHES.open(Opened::new(builder.open()?))?;
        // SAFETY: as above.
        unsafe { put_out("a cache", cache, opened) }?;
        Ok(Code::Ok)
    };
    // SAFETY: the caller vouches for the room of the error.
    unsafe { answer(error, open) }
}

#[unsafe(no_mangle)]
pub unsafe extern "C" fn krlcache_close(cache: *mut Cache) {
    // SAFETY: the caller makes no other call with the cache.
    quiet(|| unsafe { CACHES.free(cache, |opened| opened.cache.close()) });
}

#[unsafe(no_mangle)]
pub unsafe extern "C" fn krlcache_fault(cache: *mut Cache, error: *mut ErrorRoom) -> u32 {
    let fault = || {
        // SAFETY: the caller frees the cache after this call.
        let cache = &unsafe { CACHES.own_value(cache) }?.cache;
        unless_away(cache.fault())
    };
    // SAFETY: the caller vouches for the room of the error.
    unsafe { answer(error, fault) }
}

fn unless_away(fault: Option<String>) -> Result<Code, Fault> {
    fault.map_or(Ok(Code::Ok), |why| Err(Fault::new(Code::Away, why)))
}

#[unsafe(no_mangle)]
pub unsafe extern "C" fn krlcache_table_open(
    cache: *mut Cache,
    name: *const c_char,
    table: *mut *mut Table,
    error: *mut ErrorRoom,
) -> u32 {
    let open = || {
        // SAFETY: the caller vouches for the room.
        unsafe { put_out("a table", table, ptr::null_mut()) }?;
        // SAFETY: the caller frees the cache after this call, and vouches for the name.
        let (cache, name) = unsafe { (&CACHES.own_value(cache)?.cache, text("name", name)?) };
        let name = name.ok_or_else(|| Fault::misuse("the name of the table is null"))?;
        let opened = TABLES.open(cache.table(name)?)?;
        // SAFETY: as above.
        unsafe { put_out("a table", table, opened) }?;
        Ok(Code::Ok)
    };
    // SAFETY: the caller vouches for the room of the error.
    unsafe { answer(error, open) }
}

#[unsafe(no_mangle)]
pub unsafe extern "C" fn krlcache_table_free(table: *mut Table) {
    // SAFETY: the caller makes no other call with the table.
    quiet(|| unsafe { TABLES.free(table, drop) });
}

#[unsafe(no_mangle)]
pub unsafe extern "C" fn krlcache_table_fault(table: *mut Table, error: *mut ErrorRoom) -> u32 {
    // SAFETY: the caller frees the table after this call.
    let fault = || unless_away(unsafe { own(table) }?.fault());
    // SAFETY: the caller vouches for the room of the error.
    unsafe { answer(error, fault) }
}

#[unsafe(no_mangle)]
pub unsafe extern "C" fn krlcache_statistics_of(
    table: *mut Table,
    statistics: *mut Statistics,
    error: *mut ErrorRoom,
) -> u32 {
    let count = || {
        // SAFETY: the caller frees the table after this call.
        let counted = unsafe { own(table) }?.statistics();
        // SAFETY: the caller vouches for the room.
        unsafe { put_out("statistics", statistics, counted.into()) }?;
        Ok(Code::Ok)
    };
    // SAFETY: the caller vouches for the room of the error.
    unsafe { answer(error, count) }
}
