//! The socket that takes new connections, and when none can be taken.
use crate::log::event_log;
use crate::log::rate_limit::RateLimit;
use crate::net::stream::{Accepted, Listener};
use std::io::{self, ErrorKind};
use std::time::{Duration, Instant};

/// How long to wait before another connection is taken if the system had no room for one.
const NO_ROOM: Duration = Duration::from_millis(50);

/// The socket that takes connections. It never waits.
pub(crate) struct Listening {
    listener: Listener,
    /// The system has reported a connection, and not yet that there is none.
    has_some: bool,
    /// None is taken before that.
    not_before: Option<Instant>,
    failed: RateLimit,
}

impl Listening {
    pub fn new(listener: Listener) -> io::Result<Listening> {
        listener.never_wait()?;
        let failed = RateLimit::default();
        Ok(Listening { listener, has_some: false, not_before: None, failed })
    }

    /// The system has reported that connections wait.
    pub fn has_some(&mut self) {
        self.has_some = true;
    }

    /// Whether connections may wait that can be taken now.
    pub fn is_ready(&self, now: Instant) -> bool {
        self.has_some && self.not_before.is_none_or(|then| then <= now)
    }

    /// Takes one connection, if there is one. It fails if none can be taken any more.
    pub fn take(&mut self, now: Instant) -> io::Result<Option<Accepted>> {
        match self.listener.accept() {
            Ok(accepted) => return Ok(Some(accepted)),
            Err(error) => self.has_failed(error, now)?,
        }
        Ok(None)
    }

    fn has_failed(&mut self, error: io::Error, now: Instant) -> io::Result<()> {
        match after(&error) {
            Next::AtOnce => {}
            Next::WhenReportedAgain => self.has_some = false,
            Next::Later => {
                self.not_taken(&error);
                self.not_before = Some(now + NO_ROOM);
            }
            Next::End => return Err(error),
        }
        Ok(())
    }

    /// A connection is closed, since the system has no room for it.
    pub fn not_taken(&mut self, error: &io::Error) {
        event_log::not_accepted(&mut self.failed, error);
    }
}

/// What to do after an `accept` that failed.
#[derive(Clone, Copy, Debug, PartialEq, Eq)]
enum Next {
    /// The connection is gone, and the next one may be there already.
    AtOnce,
    /// No connection waits.
    WhenReportedAgain,
    /// The system has no room for another connection just now, or the network is not there.
    Later,
    /// The socket takes no connection any more.
    End,
}

fn after(error: &io::Error) -> Next {
    const EBADF: i32 = 9;
    const EINVAL: i32 = 22;
    const ENOTSOCK: i32 = 88;
    match (error.kind(), error.raw_os_error()) {
        (ErrorKind::Interrupted | ErrorKind::ConnectionAborted, _) => Next::AtOnce,
        (ErrorKind::WouldBlock, _) => Next::WhenReportedAgain,
        (_, Some(EBADF | EINVAL | ENOTSOCK)) => Next::End,
        _ => Next::Later,
    }
}

#[cfg(test)]
mod tests {
    use super::*;

    #[test]
    fn a_failed_accept_is_no_end_unless_the_socket_is_gone() {
        const EINTR: i32 = 4;
        const EBADF: i32 = 9;
        const EAGAIN: i32 = 11;
        const ENOMEM: i32 = 12;
        const EINVAL: i32 = 22;
        const ENFILE: i32 = 23;
        const EMFILE: i32 = 24;
        const ECONNABORTED: i32 = 103;
        const ENOBUFS: i32 = 105;
        let next = |number| after(&io::Error::from_raw_os_error(number));
        assert_eq!(next(EAGAIN), Next::WhenReportedAgain);
        for number in [EINTR, ECONNABORTED] {
            assert_eq!(next(number), Next::AtOnce, "{number}");
        }
        for number in [ENOMEM, ENFILE, EMFILE, ENOBUFS] {
            assert_eq!(next(number), Next::Later, "{number}");
        }
        for number in [EBADF, EINVAL] {
            assert_eq!(next(number), Next::End, "{number}");
        }
    }
}
