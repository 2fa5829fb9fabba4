//! How C learns what a call returns, and why it failed.
use crate::misuse::Misuse;
use std::mem;
use std::panic::{AssertUnwindSafe, catch_unwind};

/// Why a call of a library failed.
pub trait Fault {
    /// What a call returns.
    type Code: Into<u32>;
    /// The error of the header.
    type Room;

    /// A fault of the library itself.
    fn internal() -> Self;
    /// The code that the call returns.
    fn code(&self) -> Self::Code;
    /// The error as C reads it.
    fn written(&self) -> Self::Room;
}

/// Makes a call, and returns its code to C. No panic passes it.
///
/// # Safety
///
/// `error` is null or points to room for an error that nothing else uses meanwhile.
pub unsafe fn answer<F: Fault>(
    error: *mut F::Room,
    call: impl FnOnce() -> Result<F::Code, F>,
) -> u32 {
    let fault = match catch_unwind(AssertUnwindSafe(call)) {
        Ok(Ok(code)) => return code.into(),
        Ok(Err(fault)) => fault,
        Err(panic) => {
            // Its own end could panic again.
            mem::forget(panic);
            F::internal()
        }
    };
    if !error.is_null() {
        // SAFETY: the caller vouches for the room. Nothing of it is read.
        unsafe { error.write(fault.written()) };
    }
    fault.code().into()
}

/// Makes a call that has no code to return. No panic passes it.
pub fn quiet<T>(call: impl FnOnce() -> T) -> Option<T> {
    catch_unwind(AssertUnwindSafe(call)).map_err(mem::forget).ok()
}

/// Writes an output parameter.
///
/// # Safety
///
/// `at` is null or points to room for the value.
pub unsafe fn put_out<T>(what: &str, at: *mut T, value: T) -> Result<(), Misuse> {
    if at.is_null() {
        return Err(Misuse::Invalid(format!("the pointer to room for {what} is null")));
    }
    // SAFETY: the caller vouches for the room. Nothing of it is read.
    unsafe { at.write(value) };
    Ok(())
}

/// A text of an error, which ends by a zero: as much of it as there is room for.
#[must_use]
pub fn sentence<const ROOM: usize>(text: &str) -> [u8; ROOM] {
    let mut sentence = [0; ROOM];
    let most = text.len().min(ROOM.saturating_sub(1));
    let end = (0..=most).rev().find(|end| text.is_char_boundary(*end)).unwrap_or(0);
    sentence[..end].copy_from_slice(&text.as_bytes()[..end]);
    sentence
}

#[cfg(test)]
mod tests {
    use super::*;
    use std::ptr;

    /// A fault whose code is its number.
    #[derive(Debug)]
    struct Number(u32);

    impl Fault for Number {
        type Code = u32;
        type Room = u64;

        fn internal() -> Number {
            Number(45)
        }

        fn code(&self) -> u32 {
            self.0
        }

        fn written(&self) -> u64 {
            self.0.into()
        }
    }

    #[test]
    fn a_call_has_a_code_and_an_error_only_if_it_failed() {
        let mut room = 0;
        // SAFETY: the room is this test's own.
        let ended = |room: &mut u64, ended| unsafe { answer::<Number>(room, || ended) };
        assert_eq!((ended(&mut room, Ok(3)), room), (3, 0));
        assert_eq!((ended(&mut room, Err(Number(16))), room), (16, 16));
    }

    #[test]
    fn no_panic_passes() {
        let mut room = 0;
        // SAFETY: the room is this test's own.
        let code = unsafe { answer::<Number>(&raw mut room, || panic!("on purpose")) };
        assert_eq!((code, room), (45, 45));
        // SAFETY: the room may be null.
        let code = unsafe { answer::<Number>(ptr::null_mut(), || panic!("on purpose")) };
        assert_eq!(code, 45);
        assert_eq!(quiet(|| panic!("on purpose")), None::<()>);
    }

    #[test]
    fn a_sentence_ends_between_characters() {
        let long: [u8; 500] = sentence(&"é".repeat(500));
        let end = long.iter().position(|byte| *byte == 0).unwrap();
        assert_eq!(end, 498);
        assert!(std::str::from_utf8(&long[..end]).is_ok());
        assert_eq!(sentence::<500>("short")[..6], *b"short\0");
    }

    #[test]
    fn an_output_parameter_is_not_null() {
        let mut number = 0;
        // SAFETY: the room is this test's own, or null.
        unsafe {
            assert_eq!(put_out("a number", &raw mut number, 7), Ok(()));
            assert!(matches!(put_out("a number", ptr::null_mut(), 7), Err(Misuse::Invalid(_))));
        }
        assert_eq!(number, 7);
    }
}
