//! Why a call failed, and how C learns it.
use crate::code::Code;
use krl_cache::ReadError;
use krl_ffi::{Misuse, sentence};
use std::borrow::Cow;

/// The most bytes of a sentence, with the zero that ends it.
pub const MAX_SENTENCE_BYTES: usize = 500;

/// The bytes of a code of the database, with the zero that ends it.
const SQLSTATE_BYTES: usize = 6;

/// Why a call failed.
#[derive(Debug)]
pub struct Fault {
    pub code: Code,
    sentence: Cow<'static, str>,
    /// What the database reported, if it did.
    sqlstate: [u8; SQLSTATE_BYTES],
}

/// A `krlcache_error` of the header.
#[derive(Debug)]
#[repr(C)]
#[allow(missing_docs, reason = "the header has it")]
pub struct ErrorRoom {
    pub code: u32,
    pub sentence: [u8; MAX_SENTENCE_BYTES],
    pub sqlstate: [u8; SQLSTATE_BYTES],
}

impl Fault {
    pub fn new(code: Code, sentence: impl Into<Cow<'static, str>>) -> Fault {
        Fault { code, sentence: sentence.into(), sqlstate: [0; SQLSTATE_BYTES] }
    }

    pub fn misuse(sentence: impl Into<Cow<'static, str>>) -> Fault {
        Fault::new(Code::Misuse, sentence)
    }
}

impl krl_ffi::Fault for Fault {
    type Code = Code;
    type Room = ErrorRoom;

    fn internal() -> Fault {
        Fault::new(Code::Internal, "a fault of the library, which standard error shows")
    }

    fn code(&self) -> Code {
        self.code
    }

    fn written(&self) -> ErrorRoom {
        let Fault { code, sentence: text, sqlstate } = self;
        ErrorRoom { code: (*code).into(), sentence: sentence(text), sqlstate: *sqlstate }
    }
}

impl From<Misuse> for Fault {
    fn from(misuse: Misuse) -> Fault {
        let code = match misuse {
            Misuse::Invalid(_) => Code::Misuse,
            Misuse::Forked(_) => Code::Forked,
            Misuse::OutOfMemory => Code::OutOfMemory,
        };
        Fault::new(code, misuse.to_string())
    }
}

impl From<ReadError> for Fault {
    fn from(error: ReadError) -> Fault {
        let text = match &error {
            ReadError::SeveralRows(key) => {
                format!("the key {key} has several rows: krlcache_get_all reads all of them")
            }
            error => error.to_string(),
        };
        let sqlstate = sentence(error.sqlstate().unwrap_or_default());
        Fault { sqlstate, ..Fault::new(Code::from(&error), text) }
    }
}

/// Makes a call, and returns its code to C. No panic passes it.
///
/// # Safety
///
/// `error` is null or points to room for an error that nothing else uses meanwhile.
pub unsafe fn answer(error: *mut ErrorRoom, call: impl FnOnce() -> Result<Code, Fault>) -> u32 {
    // SAFETY: the caller vouches for the room.
    unsafe { krl_ffi::answer(error, call) }
}
