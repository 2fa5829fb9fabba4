//! Why a call failed, and how C learns it.
use crate::code::Code;
use crate::reason::{self, NO_REASON};
use krl::{Error, ErrorKind, JoinError};
use krl_ffi::{Misuse, sentence};
use std::borrow::Cow;
use std::fmt::Display;

/// The most bytes of a sentence, with the zero that ends it.
pub const MAX_SENTENCE_BYTES: usize = 500;

/// Why a call failed.
#[derive(Debug)]
pub struct Fault {
    pub code: Code,
    shard: Option<u8>,
    reason: i32,
    sentence: Cow<'static, str>,
}

/// A `krlc_error` of the header.
#[derive(Debug)]
#[repr(C)]
#[allow(missing_docs, reason = "the header has it")]
pub struct ErrorRoom {
    pub code: u32,
    pub shard: i32,
    pub reason: i32,
    pub sentence: [u8; MAX_SENTENCE_BYTES],
}

impl Fault {
    pub fn new(code: Code, sentence: impl Into<Cow<'static, str>>) -> Fault {
        Fault { code, shard: None, reason: NO_REASON, sentence: sentence.into() }
    }

    pub fn misuse(sentence: impl Into<Cow<'static, str>>) -> Fault {
        Fault::new(Code::Misuse, sentence)
    }

    /// A sentence that begins with these words and ends with the error.
    pub fn about(code: Code, what: &str, error: &impl Display) -> Fault {
        Fault::new(code, format!("{what}: {error}"))
    }
}

impl krl_ffi::Fault for Fault {
    type Code = Code;
    type Room = ErrorRoom;

    fn internal() -> Fault {
        Fault::new(Code::Internal, "a fault of the library, which standard error shows")
    }

    fn code(&self) -> Code {
        self.code
    }

    fn written(&self) -> ErrorRoom {
        ErrorRoom {
            code: self.code as u32,
            shard: self.shard.map_or(-1, i32::from),
            reason: self.reason,
            sentence: sentence(&self.sentence),
        }
    }
}

impl From<Misuse> for Fault {
    fn from(misuse: Misuse) -> Fault {
        let code = match misuse {
            Misuse::Invalid(_) => Code::Misuse,
            Misuse::Forked(_) => Code::Forked,
            Misuse::OutOfMemory => Code::OutOfMemory,
        };
        Fault::new(code, misuse.to_string())
    }
}

impl From<ErrorKind> for Fault {
    fn from(refused: ErrorKind) -> Fault {
        Error::from(refused).into()
    }
}

impl From<Error> for Fault {
    fn from(refused: Error) -> Fault {
        let code = Code::from(&refused.kind);
        let sentence = match code {
            Code::Left => Cow::Borrowed("the client has left"),
            _ => Cow::Owned(refused.to_string()),
        };
        Fault { code, shard: refused.shard, reason: reason::of_call(&refused.kind), sentence }
    }
}

impl From<JoinError> for Fault {
    fn from(error: JoinError) -> Fault {
        let (code, reason) = (Code::from(&error.kind), reason::of_join(&error.kind));
        Fault { code, shard: error.shard, reason, sentence: Cow::Owned(error.to_string()) }
    }
}

/// Makes a call, and returns its code to C. No panic passes it.
///
/// # Safety
///
/// `error` is null or points to room for an error that nothing else uses meanwhile.
pub unsafe fn answer(error: *mut ErrorRoom, call: impl FnOnce() -> Result<Code, Fault>) -> u32 {
    // SAFETY: the caller vouches for the room.
    unsafe { krl_ffi::answer(error, call) }
}

#[cfg(test)]
mod tests {
    use super::*;
    use krl::JoinErrorKind;
    use krl_ffi::Fault as _;

    #[test]
    fn a_fault_names_its_shard() {
        let refused = ErrorKind::TimedOut;
        assert_eq!(Fault::from(refused).written().shard, -1);
        let fault = Fault { shard: Some(3), ..Fault::from(refused) };
        assert_eq!(fault.written().shard, 3);
    }

    #[test]
    fn a_fault_has_the_reason_of_the_server() {
        let of_join = |kind: JoinErrorKind| Fault::from(JoinError::from(kind));
        let unserved = ErrorKind::Unserved(krl::error::Refusal::Denied);
        assert_eq!(Fault::from(unserved).written().reason, 6);
        assert_eq!(of_join(JoinErrorKind::Refused(unserved)).written().reason, 6);
        let full = krl::error::Refusal::Full { connections: 2 };
        assert_eq!(of_join(JoinErrorKind::Unserved(full)).written().reason, 3);
        assert_eq!(Fault::from(ErrorKind::TimedOut).written().reason, -1);
        assert_eq!(Fault::misuse("").written().reason, -1);
    }
}
