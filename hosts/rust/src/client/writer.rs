//! What a client writes to its connection. No caller waits for a server that takes nothing.
use crate::net::carrier::Carrier;
use crate::net::outbox::Outbox;
use std::io::{self, ErrorKind};
use std::sync::{Mutex, MutexGuard, PoisonError, TryLockError};
use std::time::Instant;

/// While this many bytes wait, what is put after them is lost. A report is shorter.
const MAX_PENDING: usize = 1 << 22;

/// The frames that wait, and the connection.
///
/// `connection` is taken before `pending` and never after it, and no stream is touched while
/// `pending` is held.
#[derive(Debug, Default)]
pub(crate) struct Writer {
    pending: Mutex<Pending>,
    connection: Mutex<Option<WriteHalf>>,
}

#[derive(Debug, Default)]
struct Pending {
    frames: Vec<u8>,
    is_connected: bool,
}

/// The connection, as it is written.
#[derive(Debug)]
struct WriteHalf {
    carrier: Carrier,
    /// What is being written, sealed if the carrier seals.
    sealed: Outbox,
}

/// What a writer has left.
#[derive(Clone, Copy, Debug, PartialEq, Eq)]
pub(crate) enum WriteState {
    /// A part waits until the connection takes it: somebody has to write again.
    Pending,
    /// Nothing that this thread has to write again.
    Idle,
}

impl Writer {
    /// From now on frames go to this connection, these before all others. What waited for another
    /// one is lost.
    pub fn open(&self, carrier: Carrier, first: Vec<u8>) {
        let mut connection = self.connection();
        *self.pending() = Pending { frames: first, is_connected: true };
        *connection = Some(WriteHalf { carrier, sealed: Outbox::default() });
    }

    /// Ends the connection. What waits is lost, and so is what is put before there is another one.
    pub fn close(&self) {
        close(&mut self.connection(), &mut self.pending());
    }

    /// Lets `put` append frames, in the order of these calls. It may take no stream.
    pub fn put(&self, put: impl FnOnce(&mut Vec<u8>)) {
        let mut pending = self.pending();
        let old = pending.frames.len();
        put(&mut pending.frames);
        if !pending.is_connected || old > MAX_PENDING {
            // A tick sends it again.
            pending.frames.truncate(old);
        }
    }

    /// Writes what waits, as far as the connection takes it at once, and returns how far it came. If
    /// another thread writes just now, that thread takes it along.
    pub fn write(&self) -> WriteState {
        loop {
            match self.write_some() {
                Some(WriteState::Pending) => return WriteState::Pending,
                Some(_) if !self.pending().frames.is_empty() => {}
                _ => return WriteState::Idle,
            }
        }
    }

    /// Writes what waits, unless there is no connection, another thread writes to it just now, or
    /// it has to be closed.
    fn write_some(&self) -> Option<WriteState> {
        let mut connection = match self.connection.try_lock() {
            Ok(connection) => connection,
            Err(TryLockError::Poisoned(poisoned)) => poisoned.into_inner(),
            Err(TryLockError::WouldBlock) => return None,
        };
        let written = connection.as_mut()?.write(self.pending(), Instant::now());
        if written.is_err() {
            close(&mut connection, &mut self.pending());
        }
        written.ok()
    }

    fn pending(&self) -> MutexGuard<'_, Pending> {
        self.pending.lock().unwrap_or_else(PoisonError::into_inner)
    }

    fn connection(&self) -> MutexGuard<'_, Option<WriteHalf>> {
        self.connection.lock().unwrap_or_else(PoisonError::into_inner)
    }
}

fn close(connection: &mut Option<WriteHalf>, pending: &mut Pending) {
    if let Some(open) = connection.take() {
        // Half a message may be on its way.
        open.carrier.shut();
    }
    *pending = Pending::default();
}

impl WriteHalf {
    /// Writes what the connection takes at once: what waits follows when all before it is written.
    /// A server that takes nothing for too long is an error.
    fn write(&mut self, pending: MutexGuard<'_, Pending>, now: Instant) -> io::Result<WriteState> {
        self.fill(pending)?;
        self.carrier.write(&mut self.sealed, now)?;
        match (self.sealed.is_empty(), self.sealed.is_stalled(now)) {
            (true, _) => Ok(WriteState::Idle),
            (false, false) => Ok(WriteState::Pending),
            (false, true) => Err(ErrorKind::TimedOut.into()),
        }
    }

    /// Takes what waits, if all before it is written.
    fn fill(&mut self, mut pending: MutexGuard<'_, Pending>) -> io::Result<()> {
        if !self.sealed.is_empty() {
            return Ok(());
        }
        let frames = self.sealed.bytes();
        std::mem::swap(frames, &mut pending.frames);
        drop(pending);
        self.carrier.seal(frames)
    }
}

#[cfg(test)]
mod tests {
    use super::*;
    use crate::net::outbox::MAX_STALL;
    use crate::net::stream::Stream;
    use std::io::Read;
    use std::os::unix::net::UnixStream;
    use std::time::Duration;

    /// A writer, and the end of its connection that reads.
    fn pair() -> (Writer, UnixStream) {
        let (ours, theirs) = UnixStream::pair().unwrap();
        let carrier = Carrier::over(Stream::from(ours), None).unwrap();
        theirs.set_read_timeout(Some(Duration::from_millis(200))).unwrap();
        let writer = Writer::default();
        writer.open(carrier, Vec::new());
        (writer, theirs)
    }

    fn put(writer: &Writer, bytes: &[u8]) {
        writer.put(|frames| frames.extend_from_slice(bytes));
    }

    #[test]
    fn what_is_put_is_written_in_order() {
        let (writer, mut theirs) = pair();
        put(&writer, b"one");
        put(&writer, b"two");
        writer.write();
        put(&writer, b"three");
        writer.write();
        let mut received = [0; 11];
        theirs.read_exact(&mut received).unwrap();
        assert_eq!(&received, b"onetwothree");
    }

    #[test]
    fn a_peer_that_takes_nothing_holds_nobody_up_and_loses_nothing_that_waits() {
        let (writer, mut theirs) = pair();
        let sent: Vec<u8> = (0..2_000_000u32).map(|place| (place % 251) as u8).collect();
        put(&writer, &sent);
        let begun = Instant::now();
        for _ in 0..20 {
            writer.write();
        }
        assert!(begun.elapsed() < MAX_STALL, "{:?}", begun.elapsed());
        let mut received = Vec::new();
        while received.len() < sent.len() {
            let mut bytes = [0; 1 << 14];
            let count = theirs.read(&mut bytes).unwrap();
            received.extend_from_slice(&bytes[..count]);
            writer.write();
        }
        assert!(received == sent, "it is another string");
    }

    #[test]
    fn a_connection_that_takes_nothing_for_long_is_ended() {
        let (writer, _theirs) = pair();
        put(&writer, &vec![7; 2_000_000]);
        let mut guard = writer.connection();
        let (open, start) = (guard.as_mut().unwrap(), Instant::now());
        let mut write = |after| open.write(writer.pending(), start + after);
        assert_eq!(write(Duration::ZERO).unwrap(), WriteState::Pending);
        assert_eq!(write(MAX_STALL / 2).unwrap(), WriteState::Pending);
        assert_eq!(write(MAX_STALL).unwrap_err().kind(), ErrorKind::TimedOut);
    }

    #[test]
    fn a_connection_that_fails_is_closed() {
        let (writer, theirs) = pair();
        drop(theirs);
        put(&writer, b"lost");
        assert_eq!(writer.write(), WriteState::Idle);
        assert!(writer.connection().is_none());
    }

    #[test]
    fn without_a_connection_nothing_piles_up() {
        let writer = Writer::default();
        put(&writer, b"lost");
        assert!(writer.pending().frames.is_empty());
        let (writer, _theirs) = pair();
        writer.close();
        put(&writer, b"lost");
        writer.write();
        assert!(writer.pending().frames.is_empty());
    }
}
