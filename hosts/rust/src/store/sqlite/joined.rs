//! A layer of files for SQLite that joins the writes to the log.
//!
//! SQLite writes each page of a commit, and the header in front of it, to the log by a call of its
//! own: a commit of three pages takes six. Nobody else reads the log between these calls and the
//! sync that ends them. So this layer keeps what is written to the log as long as each write begins
//! where the one before has ended, and hands it to the layer below by one call: before the log is
//! synced, read, measured, cut or closed, and when much is kept.
//!
//! **Why no commit is lost.** With `synchronous = FULL` a commit returns only after a sync of the
//! log, and a sync writes what is kept first. What a crash takes away was not synced, and no commit
//! has returned for it. A crash that leaves a part of one long write leaves what a crash between two
//! of SQLite's own writes does: SQLite reads the log up to the last commit whose checksums match. A
//! write or a sync that fails fails every later call on this log, so nothing is written after a hole.
use rusqlite::ffi;
use std::ffi::{CStr, c_char, c_int, c_void};
use std::mem;
use std::ptr;
use std::slice;
use std::sync::OnceLock;

/// The name of the layer, as SQLite knows it.
const NAME: &CStr = c"krl-joined";

/// This many bytes are kept at most. SQLite's layer for Unix masks a length by 0x1ffff, so that a
/// write of 131,072 bytes would write nothing.
const MOST_BYTES: usize = 1 << 16;

/// The flag by which SQLite opens the log of a database. Not each version of the bindings has it.
const OPENS_LOG: c_int = 0x0008_0000;

/// A log, as SQLite has it. The file of the layer below comes after it.
#[repr(C)]
struct Log {
    methods: *const ffi::sqlite3_io_methods,
    kept: Option<Box<Kept>>,
}

/// SQLite aligns a file to 8 bytes, so the one after it is aligned as well.
const _: () = assert!(size_of::<Log>().is_multiple_of(8) && align_of::<Log>() <= 8);

/// What was written to the log and not handed on.
#[derive(Debug, Default)]
struct Kept {
    bytes: Vec<u8>,
    /// Where they begin in the log.
    start: i64,
    /// The first failure of a call of the layer below: nothing is written after it.
    failed: Option<c_int>,
}

impl Kept {
    /// Whether a write of this many bytes there continues what is kept.
    fn takes(&self, length: usize, at: i64) -> bool {
        let end =
            i64::try_from(self.bytes.len()).ok().and_then(|kept| self.start.checked_add(kept));
        self.bytes.is_empty() || end == Some(at) && self.bytes.len() + length <= MOST_BYTES
    }

    /// Keeps a write, which [`Kept::takes`].
    fn put(&mut self, bytes: &[u8], at: i64) -> c_int {
        if let Some(failed) = self.failed {
            return failed;
        }
        if self.bytes.try_reserve(bytes.len()).is_err() {
            return ffi::SQLITE_NOMEM;
        }
        if self.bytes.is_empty() {
            self.start = at;
        }
        self.bytes.extend_from_slice(bytes);
        ffi::SQLITE_OK
    }

    /// Hands what is kept to `write`, if there is any.
    fn flush(&mut self, write: impl FnOnce(&[u8], i64) -> c_int) -> c_int {
        if let Some(failed) = self.failed {
            return failed;
        }
        if self.bytes.is_empty() {
            return ffi::SQLITE_OK;
        }
        let code = write(&self.bytes, self.start);
        self.bytes.clear();
        self.ends(code)
    }

    /// Notes how a call of the layer below has ended.
    fn ends(&mut self, code: c_int) -> c_int {
        if code != ffi::SQLITE_OK {
            self.failed = self.failed.or(Some(code));
        }
        code
    }
}

/// The layer, and the one below it. SQLite has a pointer to it for as long as the process lives.
#[repr(C)]
struct Layer {
    vfs: ffi::sqlite3_vfs,
    below: *mut ffi::sqlite3_vfs,
}

/// The name by which a connection is opened over this layer; none if SQLite refuses it.
pub(super) fn name() -> Option<&'static str> {
    static IS_REGISTERED: OnceLock<bool> = OnceLock::new();
    let is_registered = *IS_REGISTERED.get_or_init(register);
    NAME.to_str().ok().filter(|_| is_registered)
}

fn register() -> bool {
    // SAFETY: a null name asks for the default layer.
    let below = unsafe { ffi::sqlite3_vfs_find(ptr::null()) };
    let Ok(own_bytes) = c_int::try_from(size_of::<Log>()) else { return false };
    if below.is_null() {
        return false;
    }
    // SAFETY: a registered layer stays where it is. Its other methods take no state from the copy
    // but the fields that are copied.
    let mut vfs = unsafe { ptr::read(below) };
    // The bindings may lack the fields of later versions.
    vfs.iVersion = 1;
    vfs.zName = NAME.as_ptr();
    vfs.pNext = ptr::null_mut();
    vfs.szOsFile += own_bytes;
    vfs.xOpen = Some(open);
    let layer = Box::into_raw(Box::new(Layer { vfs, below }));
    // SAFETY: the box is never freed, and `vfs` is the first field of a `repr(C)` structure.
    unsafe { ffi::sqlite3_vfs_register(layer.cast(), 0) == ffi::SQLITE_OK }
}

fn methods() -> *const ffi::sqlite3_io_methods {
    static METHODS: OnceLock<ffi::sqlite3_io_methods> = OnceLock::new();
    METHODS.get_or_init(|| {
        // SAFETY: each field is a number, or a function that may be missing.
        let mut methods: ffi::sqlite3_io_methods = unsafe { mem::zeroed() };
        // A log has no shared memory and no mapped pages: those are of later versions.
        methods.iVersion = 1;
        methods.xClose = Some(close);
        methods.xRead = Some(read);
        methods.xWrite = Some(write);
        methods.xTruncate = Some(truncate);
        methods.xSync = Some(sync);
        methods.xFileSize = Some(file_size);
        methods.xLock = Some(lock);
        methods.xUnlock = Some(unlock);
        methods.xCheckReservedLock = Some(check_reserved_lock);
        methods.xFileControl = Some(file_control);
        methods.xSectorSize = Some(sector_size);
        methods.xDeviceCharacteristics = Some(device_characteristics);
        methods
    })
}

unsafe extern "C" fn open(
    vfs: *mut ffi::sqlite3_vfs,
    name: *const c_char,
    file: *mut ffi::sqlite3_file,
    flags: c_int,
    out: *mut c_int,
) -> c_int {
    // SAFETY: SQLite calls it with the layer that was registered, which is never freed.
    let below = unsafe { (*vfs.cast::<Layer>()).below };
    // SAFETY: the layer below stays registered.
    let Some(open) = (unsafe { (*below).xOpen }) else { return ffi::SQLITE_CANTOPEN };
    if flags & OPENS_LOG == 0 {
        // SAFETY: SQLite has given more room than the layer below asks for.
        return unsafe { open(below, name, file, flags, out) };
    }
    let log = file.cast::<Log>();
    // SAFETY: SQLite has given room for a `Log` and the file of the layer below after it. Without
    // methods SQLite does not close it.
    unsafe { log.write(Log { methods: ptr::null(), kept: None }) };
    // SAFETY: as above.
    let code = unsafe { open(below, name, file_below(file), flags, out) };
    if code == ffi::SQLITE_OK {
        // SAFETY: as above.
        unsafe { log.write(Log { methods: methods(), kept: Some(Box::default()) }) };
    }
    code
}

/// The file of the layer below.
///
/// # Safety
///
/// SQLite has given room for a `Log` and that file.
unsafe fn file_below(file: *mut ffi::sqlite3_file) -> *mut ffi::sqlite3_file {
    // SAFETY: as the caller promises.
    unsafe { file.cast::<Log>().add(1).cast() }
}

/// Calls a method of the layer below.
macro_rules! call_below {
    ($file:expr, $method:ident $(, $argument:expr)*) => {{
        // SAFETY: `open` has opened the file of the layer below, and SQLite closes it once, last.
        unsafe {
            let file = file_below($file);
            match (*(*file).pMethods).$method {
                Some(method) => method(file $(, $argument)*),
                None => ffi::SQLITE_ERROR,
            }
        }
    }};
}

/// Hands on what is kept, and then calls a method of the layer below.
macro_rules! flush_and_call {
    ($file:expr, $method:ident $(, $argument:expr)*) => {{
        // SAFETY: SQLite calls it with an open log.
        match unsafe { flush($file) } {
            ffi::SQLITE_OK => call_below!($file, $method $(, $argument)*),
            code => code,
        }
    }};
}

/// What is kept of a log.
///
/// # Safety
///
/// The file is an open log, and SQLite makes one call of it at a time.
unsafe fn kept<'f>(file: *mut ffi::sqlite3_file) -> Option<&'f mut Kept> {
    // SAFETY: as the caller promises, `open` has written the `Log`, and nobody else has it.
    unsafe { (*file.cast::<Log>()).kept.as_deref_mut() }
}

/// Hands on what is kept.
///
/// # Safety
///
/// As [`kept`].
unsafe fn flush(file: *mut ffi::sqlite3_file) -> c_int {
    // SAFETY: as the caller promises.
    let Some(kept) = (unsafe { kept(file) }) else { return ffi::SQLITE_MISUSE };
    kept.flush(|bytes, at| {
        let Ok(length) = c_int::try_from(bytes.len()) else { return ffi::SQLITE_TOOBIG };
        match fault() {
            ffi::SQLITE_OK => call_below!(file, xWrite, bytes.as_ptr().cast(), length, at),
            code => code,
        }
    })
}

unsafe extern "C" fn write(
    file: *mut ffi::sqlite3_file,
    bytes: *const c_void,
    length: c_int,
    at: ffi::sqlite3_int64,
) -> c_int {
    let Ok(length) = usize::try_from(length) else { return ffi::SQLITE_MISUSE };
    // SAFETY: SQLite calls it with an open log.
    if unsafe { kept(file) }.is_some_and(|kept| !kept.takes(length, at)) {
        // SAFETY: as above. If it fails, the write below fails as well.
        let _ = unsafe { flush(file) };
    }
    // SAFETY: SQLite has this many bytes there.
    let bytes = unsafe { slice::from_raw_parts(bytes.cast::<u8>(), length) };
    // SAFETY: SQLite calls it with an open log.
    unsafe { kept(file) }.map_or(ffi::SQLITE_MISUSE, |kept| kept.put(bytes, at))
}

unsafe extern "C" fn read(
    file: *mut ffi::sqlite3_file,
    into: *mut c_void,
    length: c_int,
    at: ffi::sqlite3_int64,
) -> c_int {
    flush_and_call!(file, xRead, into, length, at)
}

unsafe extern "C" fn truncate(file: *mut ffi::sqlite3_file, size: ffi::sqlite3_int64) -> c_int {
    flush_and_call!(file, xTruncate, size)
}

unsafe extern "C" fn sync(file: *mut ffi::sqlite3_file, flags: c_int) -> c_int {
    let code = flush_and_call!(file, xSync, flags);
    let code = if code == ffi::SQLITE_OK { fault() } else { code };
    // SAFETY: SQLite calls it with an open log.
    unsafe { kept(file) }.map_or(ffi::SQLITE_MISUSE, |kept| kept.ends(code))
}

unsafe extern "C" fn file_size(
    file: *mut ffi::sqlite3_file,
    size: *mut ffi::sqlite3_int64,
) -> c_int {
    flush_and_call!(file, xFileSize, size)
}

unsafe extern "C" fn close(file: *mut ffi::sqlite3_file) -> c_int {
    // SAFETY: SQLite calls it with an open log.
    let flushed = unsafe { flush(file) };
    let closed = call_below!(file, xClose);
    // SAFETY: SQLite closes a log once, and makes no call of it after that.
    drop(unsafe { (*file.cast::<Log>()).kept.take() });
    if flushed == ffi::SQLITE_OK { closed } else { flushed }
}

unsafe extern "C" fn lock(file: *mut ffi::sqlite3_file, kind: c_int) -> c_int {
    call_below!(file, xLock, kind)
}

unsafe extern "C" fn unlock(file: *mut ffi::sqlite3_file, kind: c_int) -> c_int {
    call_below!(file, xUnlock, kind)
}

unsafe extern "C" fn check_reserved_lock(
    file: *mut ffi::sqlite3_file,
    is_locked: *mut c_int,
) -> c_int {
    call_below!(file, xCheckReservedLock, is_locked)
}

unsafe extern "C" fn file_control(
    file: *mut ffi::sqlite3_file,
    kind: c_int,
    argument: *mut c_void,
) -> c_int {
    flush_and_call!(file, xFileControl, kind, argument)
}

unsafe extern "C" fn sector_size(file: *mut ffi::sqlite3_file) -> c_int {
    call_below!(file, xSectorSize)
}

unsafe extern "C" fn device_characteristics(file: *mut ffi::sqlite3_file) -> c_int {
    call_below!(file, xDeviceCharacteristics)
}

/// The failure of a call of the layer below that a test asks for.
#[cfg(not(test))]
fn fault() -> c_int {
    ffi::SQLITE_OK
}

#[cfg(test)]
use tests::fault;

#[cfg(test)]
mod tests;
