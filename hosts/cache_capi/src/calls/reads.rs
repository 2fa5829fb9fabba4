//! The calls that read a table.
use super::rows::{emptied, put_packed};
use super::{Rows, Table, own};
use crate::code::Code;
use crate::fault::{ErrorRoom, Fault, answer};
use crate::key::{self, GivenValue};
use crate::room::Room;
use krl_cache::Key;
use std::ffi::c_void;
use std::ptr;

/// Reads rows of a table into room.
///
/// # Safety
///
/// As the header requires of the calls below.
unsafe fn read(
    table: *mut Table,
    rows: *mut Rows,
    error: *mut ErrorRoom,
    read: impl FnOnce(&krl_cache::Table, &mut Room) -> Result<Code, Fault>,
) -> u32 {
    let read = || {
        // SAFETY: the caller frees both after this call, and uses the rows in no other one.
        let (rows, table) = unsafe { (emptied(rows)?, own(table)?) };
        read(table, rows)
    };
    // SAFETY: the caller vouches for the room of the error.
    unsafe { answer(error, read) }
}

#[unsafe(no_mangle)]
pub unsafe extern "C" fn krlcache_get(
    table: *mut Table,
    at: *const GivenValue,
    columns: usize,
    rows: *mut Rows,
    error: *mut ErrorRoom,
) -> u32 {
    // SAFETY: the caller vouches for the key.
    let key = || unsafe { key::key(at, columns) };
    // SAFETY: the caller vouches for the handles and the room.
    unsafe { read(table, rows, error, |table, rows| Ok(rows.put_one(table.get(key()?)?))) }
}

#[unsafe(no_mangle)]
pub unsafe extern "C" fn krlcache_cached_get(
    table: *mut Table,
    at: *const GivenValue,
    columns: usize,
    rows: *mut Rows,
    error: *mut ErrorRoom,
) -> u32 {
    // SAFETY: the caller vouches for the key.
    let key = || unsafe { key::key(at, columns) };
    // SAFETY: the caller vouches for the handles and the room.
    unsafe { read(table, rows, error, |table, rows| cached_one(table, rows, key()?)) }
}

fn cached_one(table: &krl_cache::Table, rows: &mut Room, key: Key) -> Result<Code, Fault> {
    let Some(mut found) = table.cached([key])? else { return Ok(Code::Miss) };
    Ok(rows.put_one(found.pop().flatten()))
}

#[unsafe(no_mangle)]
pub unsafe extern "C" fn krlcache_cached_packed(
    table: *mut Table,
    at: *const GivenValue,
    columns: usize,
    rows: *mut Rows,
    packed: *mut *const c_void,
    length: *mut usize,
    layout: *mut *const c_void,
) -> u32 {
    let cached = |table: &krl_cache::Table, rows: &mut Room| {
        // SAFETY: the caller vouches for the key.
        let code = cached_one(table, rows, unsafe { key::key(at, columns) }?)?;
        if let Some(row) = rows.row(0) {
            // SAFETY: the caller vouches for the room.
            unsafe { put_packed(row, packed, length, layout) }?;
        }
        Ok(code)
    };
    // SAFETY: the caller vouches for the handles. There is no room for an error.
    unsafe { read(table, rows, ptr::null_mut(), cached) }
}

#[unsafe(no_mangle)]
pub unsafe extern "C" fn krlcache_get_many(
    table: *mut Table,
    at: *const GivenValue,
    count: usize,
    columns: usize,
    rows: *mut Rows,
    error: *mut ErrorRoom,
) -> u32 {
    // SAFETY: the caller vouches for the keys.
    let keys = || unsafe { key::keys(at, count, columns) };
    // SAFETY: the caller vouches for the handles and the room.
    unsafe {
        read(table, rows, error, |table, rows| Ok(rows.put_of_keys(table.get_many(keys()?)?)))
    }
}

#[unsafe(no_mangle)]
pub unsafe extern "C" fn krlcache_cached_get_many(
    table: *mut Table,
    at: *const GivenValue,
    count: usize,
    columns: usize,
    rows: *mut Rows,
    error: *mut ErrorRoom,
) -> u32 {
    // SAFETY: the caller vouches for the keys.
    let keys = || unsafe { key::keys(at, count, columns) };
    let cached = |table: &krl_cache::Table, rows: &mut Room| {
        let Some(found) = table.cached(keys()?)? else { return Ok(Code::Miss) };
        Ok(rows.put_of_keys(found))
    };
    // SAFETY: the caller vouches for the handles and the room.
    unsafe { read(table, rows, error, cached) }
}

#[unsafe(no_mangle)]
pub unsafe extern "C" fn krlcache_get_all(
    table: *mut Table,
    at: *const GivenValue,
    columns: usize,
    rows: *mut Rows,
    error: *mut ErrorRoom,
) -> u32 {
    // SAFETY: the caller vouches for the key.
    let key = || unsafe { key::key(at, columns) };
    // SAFETY: the caller vouches for the handles and the room.
    unsafe { read(table, rows, error, |table, rows| Ok(rows.put_all(table.rows(key()?)?))) }
}

#[unsafe(no_mangle)]
pub unsafe extern "C" fn krlcache_range(
    table: *mut Table,
    first: i64,
    last: i64,
    rows: *mut Rows,
    error: *mut ErrorRoom,
) -> u32 {
    // SAFETY: the caller vouches for the handles and the room.
    unsafe { read(table, rows, error, |table, rows| Ok(rows.put_all(table.range(first..=last)?))) }
}

#[unsafe(no_mangle)]
pub unsafe extern "C" fn krlcache_cached_range(
    table: *mut Table,
    first: i64,
    last: i64,
    rows: *mut Rows,
    error: *mut ErrorRoom,
) -> u32 {
    let cached = |table: &krl_cache::Table, rows: &mut Room| {
        let Some(found) = table.cached_range(first..=last)? else { return Ok(Code::Miss) };
        Ok(rows.put_all(found))
    };
    // SAFETY: the caller vouches for the handles and the room.
    unsafe { read(table, rows, error, cached) }
}
