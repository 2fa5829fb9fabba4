//! What a socket is ready for, as the system reports it once, and what was not read of it since.
use crate::wire::frames::GULP;
use std::io::{self, ErrorKind};

/// What a connection is ready for. It is reported once when it begins: a caller that leaves
/// something unread or unwritten has to remember that.
#[derive(Clone, Copy, Debug, PartialEq, Eq)]
pub(crate) struct Readiness {
    /// Something came, or nothing more will.
    pub reads: bool,
    /// Nothing comes after what is there: a read that finds nothing finds the end.
    pub is_last: bool,
    /// It takes more bytes.
    pub writes: bool,
}

/// What a socket has that was not read.
#[derive(Clone, Copy, Debug, PartialEq, Eq)]
pub(crate) enum Unread {
    Nothing,
    Something,
    /// The last that there is, and then the end.
    Last,
}

impl Unread {
    /// Notes what the system has reported.
    pub fn report(&mut self, readiness: Readiness) {
        if readiness.is_last {
            *self = Unread::Last;
        } else if readiness.reads && *self == Unread::Nothing {
            *self = Unread::Something;
        }
    }

    /// Notes what one read of at most `GULP` bytes came to. Returns whether something came; the end
    /// is an error.
    pub fn note(&mut self, came: io::Result<usize>) -> io::Result<bool> {
        match came {
            Ok(0) => Err(ErrorKind::UnexpectedEof.into()),
            Ok(count) => {
                // A socket that gives less than it could has no more. The end is no byte: a
                // connection whose end was reported is read until it comes.
                if count < GULP && *self == Unread::Something {
                    *self = Unread::Nothing;
                }
                Ok(true)
            }
            Err(error) if error.kind() == ErrorKind::Interrupted => Ok(false),
            Err(error) if error.kind() == ErrorKind::WouldBlock => {
                *self = Unread::Nothing;
                Ok(false)
            }
            Err(error) => Err(error),
        }
    }
}

#[cfg(test)]
mod tests {
    use super::*;

    fn reported(is_last: bool) -> Unread {
        let mut unread = Unread::Nothing;
        unread.report(Readiness { reads: true, is_last, writes: false });
        unread
    }

    /// What is unread after a read that came to this, and whether something came.
    fn read(mut unread: Unread, came: io::Result<usize>) -> (Unread, Option<bool>) {
        let noted = unread.note(came).ok();
        (unread, noted)
    }

    fn failed(kind: ErrorKind) -> io::Result<usize> {
        Err(kind.into())
    }

    #[test]
    fn a_short_read_is_the_last_unless_the_end_was_reported() {
        let (something, last) = (reported(false), reported(true));
        assert_eq!(read(something, Ok(GULP)), (Unread::Something, Some(true)));
        assert_eq!(read(something, Ok(GULP - 1)), (Unread::Nothing, Some(true)));
        assert_eq!(read(last, Ok(1)), (Unread::Last, Some(true)));
        assert_eq!(read(last, Ok(0)), (Unread::Last, None));
        assert_eq!(read(something, failed(ErrorKind::WouldBlock)), (Unread::Nothing, Some(false)));
        let interrupted = read(something, failed(ErrorKind::Interrupted));
        assert_eq!(interrupted, (Unread::Something, Some(false)));
        assert_eq!(read(something, failed(ErrorKind::ConnectionReset)), (Unread::Something, None));
    }

    #[test]
    fn an_end_that_was_reported_stays() {
        let mut unread = reported(true);
        unread.report(Readiness { reads: true, is_last: false, writes: false });
        assert_eq!(unread, Unread::Last);
        let mut unread = Unread::Nothing;
        unread.report(Readiness { reads: false, is_last: false, writes: true });
        assert_eq!(unread, Unread::Nothing);
    }
}
