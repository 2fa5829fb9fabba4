//! What comes from C: texts and options.
use crate::misuse::Misuse;
use std::ffi::{CStr, c_char};
use std::mem::MaybeUninit;
use std::ptr;
use std::slice;

/// No later version has more bytes of options: a greater size was never set.
const MAX_SIZE: usize = 4096;

fn invalid<T>(why: impl Into<String>) -> Result<T, Misuse> {
    Err(Misuse::Invalid(why.into()))
}

/// A text that may be missing.
///
/// # Safety
///
/// `at` is null, or points to bytes that end by a zero and stay as long as the answer lives.
pub unsafe fn text<'a>(what: &str, at: *const c_char) -> Result<Option<&'a str>, Misuse> {
    if at.is_null() {
        return Ok(None);
    }
    // SAFETY: the caller vouches for the bytes.
    let text = unsafe { CStr::from_ptr(at) };
    let is_not = |_| Misuse::Invalid(format!("`{what}` is not UTF-8"));
    text.to_str().map(Some).map_err(is_not)
}

/// Options that begin with their size, and get more members in later versions of the header.
pub trait Versioned {
    /// The sizes that they had in the versions that were released before this one.
    const EARLIER: &'static [usize];
}

/// Whether a version of the options has this size: an earlier one, this one, or one to come.
fn is_of_a_version<T: Versioned>(size: usize) -> bool {
    let later = size_of::<T>()..=MAX_SIZE;
    T::EARLIER.contains(&size) || later.contains(&size) && size.is_multiple_of(align_of::<T>())
}

/// Options that begin with their size, of any version of the header. The members that the caller
/// does not have are zero.
///
/// # Safety
///
/// `at` is null, or points to a size and that many bytes altogether, of which none is written
/// meanwhile. `T` begins with the size, and all bytes make one.
pub unsafe fn options_at<T: Versioned>(at: *const T) -> Result<T, Misuse> {
    if at.is_null() {
        return invalid("the pointer to the options is null");
    }
    // SAFETY: each version begins with the size.
    let size = unsafe { at.cast::<usize>().read() };
    if !is_of_a_version::<T>(size) {
        let own = size_of::<T>();
        let why =
            format!("`size` of the options is {size}, as in no version: it is {own} in this one");
        return invalid(why);
    }
    // SAFETY: the caller vouches for this many bytes.
    let bytes = unsafe { slice::from_raw_parts(at.cast::<u8>(), size) };
    let known = size.min(size_of::<T>());
    if bytes[known..].iter().any(|byte| *byte != 0) {
        return invalid("the options have members that this library does not know");
    }
    let mut options = MaybeUninit::<T>::zeroed();
    // SAFETY: that many bytes are there, and there is room for them. All bytes make options.
    unsafe {
        ptr::copy_nonoverlapping(at.cast::<u8>(), options.as_mut_ptr().cast(), known);
        Ok(options.assume_init())
    }
}

#[cfg(test)]
mod tests {
    use super::*;

    #[derive(Clone, Copy, Debug, PartialEq)]
    #[repr(C)]
    struct Options {
        size: usize,
        number: u64,
        later: u64,
    }

    impl Versioned for Options {
        const EARLIER: &'static [usize] = &[16];
    }

    const ALL: Options = Options { size: size_of::<Options>(), number: 7, later: 8 };

    fn read<T>(options: &T) -> Result<Options, Misuse> {
        // SAFETY: no size of a test is greater than what is there.
        unsafe { options_at(ptr::from_ref(options).cast()) }
    }

    #[test]
    fn options_of_each_version_are_read() {
        assert_eq!(read(&ALL), Ok(ALL));
        let earlier = Options { size: 16, ..ALL };
        assert_eq!(read(&earlier), Ok(Options { later: 0, ..earlier }));
        assert!(read(&(32_usize, 7_u64, 8_u64, 0_u64)).is_ok(), "nothing later is set");
        assert!(read(&(32_usize, 7_u64, 8_u64, 9_u64)).is_err());
        // A pointer among the members may be cut in half by such a size.
        for size in (0..16).chain(17..24).chain([25, 28, MAX_SIZE + 1, MAX_SIZE + 8]) {
            assert!(read(&Options { size, ..ALL }).is_err(), "{size}");
        }
    }

    #[test]
    fn a_text_is_utf8_or_missing() {
        // SAFETY: each text ends by a zero, or is null.
        unsafe {
            assert_eq!(text("name", ptr::null()), Ok(None));
            assert_eq!(text("name", c"lamp".as_ptr()), Ok(Some("lamp")));
            assert!(text("name", c"\xff".as_ptr()).is_err());
        }
    }
}
