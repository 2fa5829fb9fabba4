//! What a reply of the library states.
use crate::ffi::declared::Reply;
use crate::model::code::Code;

pub(crate) fn code(reply: Reply) -> Code {
    Code::of(reply.code)
}

/// What was done, or why not. A call that could not send something has done what it should.
pub(crate) fn done(reply: Reply) -> Result<u64, Code> {
    match code(reply) {
        Code::Done | Code::ReplyLost => Ok(reply.detail),
        refused => Err(refused),
    }
}
