//! What waits to be written to a connection.
use std::io::{self, ErrorKind, Write};
use std::time::{Duration, Instant};

/// A peer that takes nothing for this long loses its connection.
pub(crate) const MAX_STALL: Duration = Duration::from_secs(5);

/// This much room is kept for what is put next when all is written.
const KEPT: usize = 1 << 14;

/// The bytes that a connection has not taken yet.
#[derive(Debug, Default)]
pub(crate) struct Outbox {
    bytes: Vec<u8>,
    written: usize,
    /// Since when the peer takes nothing of it.
    stalled: Option<Instant>,
}

impl Outbox {
    /// Puts the bytes after those that wait.
    pub fn put(&mut self, bytes: &[u8]) {
        self.bytes.extend_from_slice(bytes);
    }

    /// The buffer of the bytes that wait, for a caller that appends to it in place.
    pub fn bytes(&mut self) -> &mut Vec<u8> {
        &mut self.bytes
    }

    /// How many bytes wait.
    pub fn waits(&self) -> usize {
        self.bytes.len() - self.written
    }

    pub fn is_empty(&self) -> bool {
        self.waits() == 0
    }

    /// Whether the peer takes nothing for so long that it loses its connection.
    pub fn is_stalled(&self, now: Instant) -> bool {
        self.stalled.is_some_and(|since| now.saturating_duration_since(since) >= MAX_STALL)
    }

    /// Writes what the stream takes at once.
    pub fn write(&mut self, stream: &mut impl Write, now: Instant) -> io::Result<()> {
        while !self.is_empty() {
            match stream.write(&self.bytes[self.written..]) {
                Ok(0) => return Err(ErrorKind::WriteZero.into()),
                Ok(count) => {
                    self.written += count;
                    self.stalled = None;
                }
                Err(error) if error.kind() == ErrorKind::Interrupted => {}
                Err(error) if error.kind() == ErrorKind::WouldBlock => {
                    self.stalled.get_or_insert(now);
                    self.forget_written();
                    return Ok(());
                }
                Err(error) => return Err(error),
            }
        }
        self.bytes.clear();
        self.bytes.shrink_to(KEPT);
        self.written = 0;
        Ok(())
    }

    /// Gives back the room of what is written, if that is most of it.
    fn forget_written(&mut self) {
        if self.written > self.bytes.len() / 2 {
            self.bytes.drain(..self.written);
            self.written = 0;
        }
    }
}

#[cfg(test)]
mod tests {
    use super::*;

    /// Takes this many bytes at once, and then none until it is asked again.
    struct Narrow {
        takes: usize,
        took: Vec<u8>,
        is_blocked: bool,
    }

    impl Write for Narrow {
        fn write(&mut self, bytes: &[u8]) -> io::Result<usize> {
            self.is_blocked = !self.is_blocked;
            if !self.is_blocked || self.takes == 0 {
                return Err(ErrorKind::WouldBlock.into());
            }
            let count = bytes.len().min(self.takes);
            self.took.extend_from_slice(&bytes[..count]);
            Ok(count)
        }

        fn flush(&mut self) -> io::Result<()> {
            Ok(())
        }
    }

    fn narrow(takes: usize) -> Narrow {
        Narrow { takes, took: Vec::new(), is_blocked: false }
    }

    #[test]
    fn what_a_stream_takes_in_pieces_is_written_in_order() {
        let bytes: Vec<u8> = (0..=255).collect();
        for takes in [1, 7, 128, 200] {
            let (mut outbox, mut stream) = (Outbox::default(), narrow(takes));
            outbox.put(&bytes[..100]);
            outbox.write(&mut stream, Instant::now()).unwrap();
            outbox.put(&bytes[100..]);
            while !outbox.is_empty() {
                outbox.write(&mut stream, Instant::now()).unwrap();
            }
            assert_eq!(stream.took, bytes);
        }
    }

    #[test]
    fn a_peer_has_stalled_that_takes_nothing_for_its_time() {
        let (mut outbox, start) = (Outbox::default(), Instant::now());
        outbox.put(b"some bytes");
        outbox.write(&mut narrow(0), start).unwrap();
        outbox.write(&mut narrow(0), start + MAX_STALL / 2).unwrap();
        assert!(!outbox.is_stalled(start + MAX_STALL / 2));
        assert!(outbox.is_stalled(start + MAX_STALL));
        // Each byte that it takes gives it the whole time again.
        outbox.write(&mut narrow(1), start + MAX_STALL).unwrap();
        assert!(!outbox.is_stalled(start + MAX_STALL));
        assert!(outbox.is_stalled(start + 2 * MAX_STALL));
    }

    #[test]
    fn a_stream_that_fails_is_reported() {
        let mut outbox = Outbox::default();
        outbox.put(b"some bytes");
        let ended = outbox.write(&mut &mut [0u8; 0][..], Instant::now());
        assert_eq!(ended.unwrap_err().kind(), ErrorKind::WriteZero);
    }
}
