//! Room for rows, and the calls that look at them.
use crate::code::Code;
use crate::fault::{ErrorRoom, Fault, answer};
use crate::room::Room;
use krl_cache::Row;
use krl_cache::tokio_postgres::types::{FromSql, Kind as TypeKind, Type};
use krl_ffi::{Handle, Kind, Misuse, put_out, quiet};
use std::ffi::{CStr, c_char, c_void};
use std::ptr;

pub(super) type Rows = Handle<Room>;

static ROWS: Kind<Room> = Kind::new("room for rows");

/// The place of a column that a row does not have.
pub(crate) const NO_COLUMN: usize = usize::MAX;

/// Why a column is not read: it is NULL or its row is not there, or there is a fault.
type Unread = Result<Code, Fault>;

/// The rows of a handle, to be filled: those of the last answer are gone, also if this call fails.
///
/// # Safety
///
/// `rows` is null or a handle of rows, which no other call uses as long as the answer lives.
pub(super) unsafe fn emptied<'a>(rows: *mut Rows) -> Result<&'a mut Room, Fault> {
    // SAFETY: the caller vouches for the handle.
    let rows = unsafe { ROWS.value_mut(rows) }?;
    rows.clear();
    Ok(rows)
}

/// Looks at rows, or returns what stands for nothing.
///
/// # Safety
///
/// `rows` is null or a handle of rows, which no other call fills or frees meanwhile.
unsafe fn look<T>(rows: *const Rows, nothing: T, look: impl FnOnce(&Room) -> Option<T>) -> T {
    // SAFETY: the caller vouches for the handle.
    let found = quiet(|| look(unsafe { ROWS.value(rows) }.ok()?));
    found.flatten().unwrap_or(nothing)
}

#[unsafe(no_mangle)]
pub extern "C" fn krlcache_rows_new() -> *mut Rows {
    quiet(|| ROWS.open(Room::default()).ok()).flatten().unwrap_or(ptr::null_mut())
}

#[unsafe(no_mangle)]
pub unsafe extern "C" fn krlcache_rows_share(rows: *const Rows) -> *mut Rows {
    // SAFETY: the caller makes no call meanwhile that fills or frees the rows.
    unsafe { look(rows, ptr::null_mut(), |rows| ROWS.open(rows.clone()).ok()) }
}

#[unsafe(no_mangle)]
pub unsafe extern "C" fn krlcache_rows_free(rows: *mut Rows) {
    // SAFETY: the caller makes no other call with the rows.
    quiet(|| unsafe { ROWS.free(rows, drop) });
}

#[unsafe(no_mangle)]
pub unsafe extern "C" fn krlcache_rows_count(rows: *const Rows) -> usize {
    // SAFETY: the caller makes no call meanwhile that fills or frees the rows.
    unsafe { look(rows, 0, |rows| Some(rows.count())) }
}

#[unsafe(no_mangle)]
pub unsafe extern "C" fn krlcache_has_row(rows: *const Rows, row: usize) -> bool {
    // SAFETY: the caller makes no call meanwhile that fills or frees the rows.
    unsafe { look(rows, false, |rows| Some(rows.row(row).is_some())) }
}

#[unsafe(no_mangle)]
pub unsafe extern "C" fn krlcache_columns(rows: *const Rows, row: usize) -> usize {
    // SAFETY: the caller makes no call meanwhile that fills or frees the rows.
    unsafe { look(rows, 0, |rows| Some(rows.row(row)?.columns().len())) }
}

#[unsafe(no_mangle)]
pub unsafe extern "C" fn krlcache_find_column(
    rows: *const Rows,
    row: usize,
    name: *const c_char,
) -> usize {
    if name.is_null() {
        return NO_COLUMN;
    }
    // SAFETY: the caller vouches for the name.
    let name = unsafe { CStr::from_ptr(name) }.to_bytes();
    let find = |rows: &Room| {
        let mut columns = rows.row(row)?.columns().iter();
        columns.position(|column| column.name().as_bytes() == name)
    };
    // SAFETY: the caller makes no call meanwhile that fills or frees the rows.
    unsafe { look(rows, NO_COLUMN, find) }
}

#[unsafe(no_mangle)]
pub unsafe extern "C" fn krlcache_column_name(
    rows: *const Rows,
    row: usize,
    column: usize,
    length: *mut usize,
) -> *const c_char {
    let name = |rows: &Room| {
        let name = rows.row(row)?.columns().get(column)?.name();
        // SAFETY: the caller vouches for the room.
        unsafe { put_out("a length", length, name.len()) }.ok()?;
        Some(name.as_ptr().cast())
    };
    // SAFETY: the caller makes no call meanwhile that fills or frees the rows.
    unsafe { look(rows, ptr::null(), name) }
}

#[unsafe(no_mangle)]
pub unsafe extern "C" fn krlcache_column_type(rows: *const Rows, row: usize, column: usize) -> u32 {
    let find = |rows: &Room| Some(rows.row(row)?.columns().get(column)?.sql_type().oid());
    // SAFETY: the caller makes no call meanwhile that fills or frees the rows.
    unsafe { look(rows, 0, find) }
}

#[unsafe(no_mangle)]
pub unsafe extern "C" fn krlcache_packed(
    rows: *const Rows,
    row: usize,
    length: *mut usize,
    layout: *mut *const c_void,
) -> *const c_void {
    let packed = |rows: &Room| {
        let mut at = ptr::null();
        // SAFETY: the caller vouches for the room.
        unsafe { put_packed(rows.row(row)?, &raw mut at, length, layout) }.ok()?;
        Some(at)
    };
    // SAFETY: the caller makes no call meanwhile that fills or frees the rows.
    unsafe { look(rows, ptr::null(), packed) }
}

/// Puts out where all columns of a row are, how many bytes they are, and what distinguishes them.
///
/// # Safety
///
/// Each pointer is null or points to room.
pub(super) unsafe fn put_packed(
    row: &Row,
    at: *mut *const c_void,
    length: *mut usize,
    layout: *mut *const c_void,
) -> Result<(), Misuse> {
    // SAFETY: the caller vouches for the room.
    unsafe {
        put_span(row.packed(), at, length)?;
        put_out("a layout", layout, row.columns().as_ptr().cast())
    }
}

/// Reads a column, and puts out its value.
///
/// # Safety
///
/// As the header requires of the calls below. `put` is given what is borrowed from the rows.
unsafe fn read<'r, T>(
    rows: *const Rows,
    (row, column): (usize, usize),
    error: *mut ErrorRoom,
    convert: impl FnOnce(&'r Row, usize) -> Result<Option<T>, Fault>,
    put: impl FnOnce(T) -> Result<(), Misuse>,
) -> u32 {
    let read = || -> Unread {
        // SAFETY: the caller makes no call meanwhile that fills or frees the rows.
        let rows = unsafe { ROWS.value(rows) }?;
        let Some(found) = rows.row_of_key(row)? else { return Ok(Code::Absent) };
        if column >= found.columns().len() {
            return Err(no_column(found, column));
        }
        let Some(value) = convert(found, column)? else { return Ok(Code::IsNull) };
        put(value)?;
        Ok(Code::Ok)
    };
    // SAFETY: the caller vouches for the room of the error.
    unsafe { answer(error, read) }
}

fn no_column(row: &Row, column: usize) -> Fault {
    let count = row.columns().len();
    let sentence = match column {
        NO_COLUMN => "the row has no column of this name".to_string(),
        _ => format!("there is no column {column} in a row of {count}"),
    };
    Fault::new(Code::BadColumn, sentence)
}

fn get<'r, T: FromSql<'r>>(row: &'r Row, column: usize) -> Result<Option<T>, Fault> {
    let misfit = |_| {
        let (column, why) = (&row.columns()[column], "which this call does not read");
        let sentence =
            format!("the column \"{}\" is of type {}, {why}", column.name(), column.sql_type());
        Fault::new(Code::BadColumn, sentence)
    };
    row.get_at(column).map_err(misfit)
}

/// A text, or what PostgreSQL sends as one: the name of a value of an enum, and JSON.
fn text(row: &Row, column: usize) -> Result<Option<&str>, Fault> {
    let of_type = row.columns()[column].sql_type();
    let sent = match *of_type {
        Type::JSON | Type::XML => row.bytes(column),
        // The first byte is the version of the format.
        Type::JSONB => row.bytes(column).and_then(|bytes| bytes.get(1..)),
        _ if matches!(of_type.kind(), TypeKind::Enum(_)) => row.bytes(column),
        _ => return get(row, column),
    };
    let misfit = |_| Fault::new(Code::BadColumn, "the column is not sent in UTF-8");
    sent.map(std::str::from_utf8).transpose().map_err(misfit)
}

fn integer(row: &Row, column: usize) -> Result<Option<i64>, Fault> {
    match *row.columns()[column].sql_type() {
        Type::INT2 => Ok(get::<i16>(row, column)?.map(i64::from)),
        Type::INT4 => Ok(get::<i32>(row, column)?.map(i64::from)),
        _ => get(row, column),
    }
}

fn double(row: &Row, column: usize) -> Result<Option<f64>, Fault> {
    match *row.columns()[column].sql_type() {
        Type::FLOAT4 => Ok(get::<f32>(row, column)?.map(f64::from)),
        _ => get(row, column),
    }
}

#[unsafe(no_mangle)]
pub unsafe extern "C" fn krlcache_int64(
    rows: *const Rows,
    row: usize,
    column: usize,
    value: *mut i64,
    error: *mut ErrorRoom,
) -> u32 {
    // SAFETY: the caller vouches for the room.
    let put = |found| unsafe { put_out("a number", value, found) };
    // SAFETY: the caller vouches for the rows and the room of the error.
    unsafe { read(rows, (row, column), error, integer, put) }
}

#[unsafe(no_mangle)]
pub unsafe extern "C" fn krlcache_double(
    rows: *const Rows,
    row: usize,
    column: usize,
    value: *mut f64,
    error: *mut ErrorRoom,
) -> u32 {
    // SAFETY: the caller vouches for the room.
    let put = |found| unsafe { put_out("a number", value, found) };
    // SAFETY: the caller vouches for the rows and the room of the error.
    unsafe { read(rows, (row, column), error, double, put) }
}

#[unsafe(no_mangle)]
pub unsafe extern "C" fn krlcache_bool(
    rows: *const Rows,
    row: usize,
    column: usize,
    value: *mut bool,
    error: *mut ErrorRoom,
) -> u32 {
    // SAFETY: the caller vouches for the room.
    let put = |found| unsafe { put_out("a truth value", value, found) };
    // SAFETY: the caller vouches for the rows and the room of the error.
    unsafe { read(rows, (row, column), error, get::<bool>, put) }
}

#[unsafe(no_mangle)]
pub unsafe extern "C" fn krlcache_text(
    rows: *const Rows,
    row: usize,
    column: usize,
    value: *mut *const c_char,
    length: *mut usize,
    error: *mut ErrorRoom,
) -> u32 {
    // SAFETY: the caller vouches for the room.
    let put = |found: &str| unsafe { put_span(found.as_bytes(), value, length) };
    // SAFETY: the caller vouches for the rows and the room of the error.
    unsafe { read(rows, (row, column), error, text, put) }
}

#[unsafe(no_mangle)]
pub unsafe extern "C" fn krlcache_bytes(
    rows: *const Rows,
    row: usize,
    column: usize,
    value: *mut *const c_void,
    length: *mut usize,
    error: *mut ErrorRoom,
) -> u32 {
    // SAFETY: the caller vouches for the room.
    let put = |found: &[u8]| unsafe { put_span(found, value, length) };
    // SAFETY: the caller vouches for the rows and the room of the error.
    unsafe { read(rows, (row, column), error, |row, column| Ok(row.bytes(column)), put) }
}

/// Puts out where bytes are, and how many.
///
/// # Safety
///
/// Each pointer is null or points to room.
unsafe fn put_span<T>(bytes: &[u8], at: *mut *const T, length: *mut usize) -> Result<(), Misuse> {
    if at.is_null() {
        return Err(Misuse::Invalid("the pointer to room for a value is null".into()));
    }
    // SAFETY: the caller vouches for the room.
    unsafe {
        put_out("a length", length, bytes.len())?;
        put_out("a value", at, bytes.as_ptr().cast())
    }
}
