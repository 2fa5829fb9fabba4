//! Which sockets are ready: the only place that asks the system.
use crate::net::readiness::Readiness;
use crate::net::stream::{Listener, Stream};
use mio::event::Event;
use mio::unix::SourceFd;
use mio::{Events, Interest, Poll, Registry, Token, Waker};
use nix::sys::epoll::{EpollEvent, EpollFlags, epoll_wait};
use std::io::{self, ErrorKind};
use std::os::fd::{AsRawFd, BorrowedFd, OwnedFd};
use std::sync::Arc;
use std::time::Duration;

/// The most sockets that are reported at once. Those left out are reported the next time.
const MAX_READY: usize = 256;

const LISTENER: Token = Token(usize::MAX);
const WAKER: Token = Token(usize::MAX - 1);

/// What is ready.
#[derive(Clone, Copy, Debug, PartialEq, Eq)]
pub(crate) enum Ready {
    /// Another thread has woken the poller.
    Woken,
    /// Connections wait to be taken.
    Listener,
    /// A connection.
    Connection(u64, Readiness),
}

/// What a connection is watched for.
#[derive(Clone, Copy, Debug, PartialEq, Eq)]
pub(crate) enum IoInterest {
    Reads,
    Writes,
    Both,
}

impl IoInterest {
    fn of_mio(self) -> Interest {
        match self {
            IoInterest::Reads => Interest::READABLE,
            IoInterest::Writes => Interest::WRITABLE,
            IoInterest::Both => Interest::READABLE.add(Interest::WRITABLE),
        }
    }
}

/// Waits until a socket is ready or another thread wakes it.
#[derive(Debug)]
pub(crate) struct Poller {
    poll: Poll,
    events: Events,
}

impl Poller {
    /// A poller that watches nothing yet, and what wakes it from other threads.
    pub fn new() -> io::Result<(Poller, Arc<Waker>)> {
        let poll = Poll::new()?;
        let waker = Waker::new(poll.registry(), WAKER)?;
        let events = Events::with_capacity(MAX_READY);
        Ok((Poller { poll, events }, Arc::new(waker)))
    }

    /// Watches the listener.
    pub fn listen(&self, listener: &Listener) -> io::Result<()> {
        let socket = listener.as_raw_fd();
        self.poll.registry().register(&mut SourceFd(&socket), LISTENER, Interest::READABLE)
    }

    /// Watches a new connection for reads.
    pub fn add(&self, connection: u64, stream: &Stream) -> io::Result<()> {
        let (token, socket) = (token_of(connection)?, stream.as_raw_fd());
        self.poll.registry().register(&mut SourceFd(&socket), token, Interest::READABLE)
    }

    /// Watches a connection for this from now on. What it is ready for already is reported again.
    pub fn watch(&self, connection: u64, stream: &Stream, interest: IoInterest) -> io::Result<()> {
        let (token, socket) = (token_of(connection)?, stream.as_raw_fd());
        self.poll.registry().reregister(&mut SourceFd(&socket), token, interest.of_mio())
    }

    /// No longer watches a connection.
    pub fn remove(&self, stream: &Stream) {
        // One that is not watched is not watched.
        let _ = self.poll.registry().deregister(&mut SourceFd(&stream.as_raw_fd()));
    }

    /// Waits until something is ready, but not longer than this; a fraction of a millisecond counts
    /// as one.
    pub fn wait(&mut self, longest: Duration) -> io::Result<()> {
        match self.poll.poll(&mut self.events, Some(whole_milliseconds(longest))) {
            Err(error) if error.kind() == ErrorKind::Interrupted => {
                self.events.clear();
                Ok(())
            }
            polled => polled,
        }
    }

    /// What was ready at the last wait.
    pub fn ready(&self) -> impl Iterator<Item = Ready> {
        self.events.iter().map(ready_of)
    }
}

/// Another thread's part of a poller: it may wait at the same time.
///
/// An event is for one of those who wait. Linux wakes the one that began to wait last.
#[derive(Debug)]
pub(crate) struct SecondPoller {
    registry: Registry,
    poll: OwnedFd,
}

impl SecondPoller {
    /// That of this poller.
    pub fn of(poller: &Poller) -> io::Result<SecondPoller> {
        let registry = poller.poll.registry().try_clone()?;
        // SAFETY: the descriptor is open as long as the poller, which is borrowed.
        let poll = unsafe { BorrowedFd::borrow_raw(poller.poll.as_raw_fd()) };
        Ok(SecondPoller { registry, poll: poll.try_clone_to_owned()? })
    }

    /// Waits until something is ready, but not longer than this; a fraction of a millisecond counts
    /// as one.
    pub fn wait(&self, longest: Duration) -> io::Result<Option<Ready>> {
        let mut events = [EpollEvent::empty()];
        let longest = isize::try_from(whole_milliseconds(longest).as_millis());
        let longest = longest.unwrap_or(isize::MAX);
        match epoll_wait(self.poll.as_raw_fd(), &mut events, longest) {
            Ok(0) | Err(nix::Error::EINTR) => Ok(None),
            Ok(_) => Ok(Some(ready_of_system(events[0]))),
            Err(error) => Err(error.into()),
        }
    }

    /// Watches a connection for this from now on. What it is ready for already is reported again.
    pub fn watch(&self, connection: u64, stream: &Stream, interest: IoInterest) -> io::Result<()> {
        let (token, socket) = (token_of(connection)?, stream.as_raw_fd());
        self.registry.reregister(&mut SourceFd(&socket), token, interest.of_mio())
    }
}

/// The time, or a little more. The system waits whole milliseconds, and a fraction that is cut off
/// would make the loop turn without a pause until it has passed.
fn whole_milliseconds(time: Duration) -> Duration {
    const ALMOST_ONE: Duration = Duration::from_nanos(999_999);
    let milliseconds = time.saturating_add(ALMOST_ONE).as_millis();
    Duration::from_millis(u64::try_from(milliseconds).unwrap_or(u64::MAX))
}

fn token_of(connection: u64) -> io::Result<Token> {
    usize::try_from(connection).map(Token).map_err(|_| ErrorKind::OutOfMemory.into())
}

fn ready_of(event: &Event) -> Ready {
    match event.token() {
        WAKER => Ready::Woken,
        LISTENER => Ready::Listener,
        Token(connection) => {
            let is_last = event.is_read_closed() || event.is_error();
            let reads = event.is_readable() || is_last;
            let writes = event.is_writable() || event.is_error();
            Ready::Connection(connection as u64, Readiness { reads, is_last, writes })
        }
    }
}

/// The same of an event as the system reports it.
fn ready_of_system(event: EpollEvent) -> Ready {
    let (token, flags) = (event.data(), event.events());
    if token == WAKER.0 as u64 {
        return Ready::Woken;
    }
    if token == LISTENER.0 as u64 {
        return Ready::Listener;
    }
    let is_last =
        flags.intersects(EpollFlags::EPOLLHUP | EpollFlags::EPOLLRDHUP | EpollFlags::EPOLLERR);
    let reads = flags.intersects(EpollFlags::EPOLLIN | EpollFlags::EPOLLPRI) || is_last;
    let writes = flags.intersects(EpollFlags::EPOLLOUT | EpollFlags::EPOLLERR);
    Ready::Connection(token, Readiness { reads, is_last, writes })
}

#[cfg(test)]
mod tests {
    use super::*;
    use std::io::Write;
    use std::os::unix::net::UnixStream;

    #[test]
    fn a_fraction_of_a_millisecond_counts_as_one() {
        for (nanoseconds, milliseconds) in [(0, 0), (1, 1), (999_999, 1), (1_000_000, 1)] {
            let time = whole_milliseconds(Duration::from_nanos(nanoseconds));
            assert_eq!(time, Duration::from_millis(milliseconds), "{nanoseconds}");
        }
        assert_eq!(whole_milliseconds(Duration::from_nanos(4_000_001)), Duration::from_millis(5));
    }

    #[test]
    fn a_second_poller_reports_the_same() {
        let (poller, waker) = Poller::new().unwrap();
        let (second, longest) = (SecondPoller::of(&poller).unwrap(), Duration::from_secs(30));
        waker.wake().unwrap();
        assert_eq!(second.wait(longest).unwrap(), Some(Ready::Woken));
        assert_eq!(second.wait(Duration::ZERO).unwrap(), None, "an event is reported once");
        let (ours, mut theirs) = UnixStream::pair().unwrap();
        let ours = Stream::from(ours);
        poller.add(7, &ours).unwrap();
        let next = || match second.wait(longest).unwrap() {
            Some(Ready::Connection(7, readiness)) => readiness,
            other => panic!("{other:?}"),
        };
        theirs.write_all(b"a").unwrap();
        assert_eq!(next(), Readiness { reads: true, is_last: false, writes: false });
        second.watch(7, &ours, IoInterest::Writes).unwrap();
        assert_eq!(next(), Readiness { reads: false, is_last: false, writes: true });
        second.watch(7, &ours, IoInterest::Reads).unwrap();
        drop(theirs);
        let last = next();
        assert!(last.reads && (last.is_last || next().is_last));
    }
}
