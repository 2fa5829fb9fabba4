//! Room for rows.
use super::Rows;
use crate::fault::Fault;
use krl::Row;
use krl_ffi::{Kind, quiet};
use std::ptr;

static ROWS: Kind<Vec<Row>> = Kind::new("room for rows");

/// The rows of a handle, to be filled: those of the last answer are gone, also if this call fails.
///
/// # Safety
///
/// `rows` is null or a handle of rows, which no other call uses as long as the answer lives.
pub(super) unsafe fn emptied<'a>(rows: *mut Rows) -> Result<&'a mut Vec<Row>, Fault> {
    // SAFETY: the caller vouches for the handle.
    let rows = unsafe { ROWS.value_mut(rows) }?;
    rows.clear();
    Ok(rows)
}

#[unsafe(no_mangle)]
pub extern "C" fn krlc_rows_new() -> *mut Rows {
    quiet(|| ROWS.open(Vec::new()).unwrap_or(ptr::null_mut())).unwrap_or(ptr::null_mut())
}

#[unsafe(no_mangle)]
pub unsafe extern "C" fn krlc_rows_get(rows: *const Rows, count: *mut usize) -> *const Row {
    // SAFETY: the caller makes no other call with the rows.
    let rows = quiet(|| unsafe { ROWS.value(rows) }.ok()).flatten();
    let (at, found) = rows.map_or((ptr::null(), 0), |rows| (rows.as_ptr(), rows.len()));
    if !count.is_null() {
        // SAFETY: the caller vouches for the room.
        unsafe { count.write(found) };
    }
    at
}

#[unsafe(no_mangle)]
pub unsafe extern "C" fn krlc_rows_free(rows: *mut Rows) {
    // SAFETY: the caller makes no other call with the rows.
    quiet(|| unsafe { ROWS.free(rows, drop) });
}
