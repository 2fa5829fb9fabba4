//! A connection that sends a server what it likes.
#![allow(dead_code, reason = "each test uses what it needs")]
use krl::Server;
use std::io::{ErrorKind, Read, Write};
use std::net::TcpStream;
use std::path::Path;
use std::time::{Duration, Instant};

pub const HELLO: u8 = 0;
pub const BYE: u8 = 1;
pub const ACK: u8 = 8;

/// The Hello of a client's host, and the answer of a server's: each ends with the version.
pub const HOST_HELLO: [u8; 11] = [3, 0, 0, 0, 0, 0, 0, 0, 0, 0, 4];
pub const HOST_ANSWER: [u8; 12] = [4, 0, 0, 0, 0, 0, 0, 0, 0, 16, 1, 4];

/// The incarnation in a lock file.
pub fn incarnation(lock: &Path) -> u64 {
    let text = std::fs::read_to_string(lock).unwrap();
    text.split_whitespace().last().unwrap().parse().unwrap()
}

/// A message of a kind, of a client and its incarnation, in its frame.
pub fn frame(kind: u8, client: u64, incarnation: u64, fields: &[u64]) -> Vec<u8> {
    let mut message = vec![1, kind];
    for number in [client, incarnation].iter().chain(fields) {
        message.extend_from_slice(&number.to_le_bytes());
    }
    [&(message.len() as u64).to_le_bytes()[..], &message].concat()
}

/// A connection that sends what it likes.
pub struct Peer(TcpStream);

impl Peer {
    pub fn new(server: &Server) -> Peer {
        let stream = TcpStream::connect(server.address().to_string()).unwrap();
        stream.set_read_timeout(Some(Duration::from_millis(20))).unwrap();
        Peer(stream)
    }

    pub fn send(&mut self, frame: &[u8]) {
        self.0.write_all(frame).unwrap();
    }

    /// The bytes that come within the time.
    pub fn receive(&mut self, time: Duration) -> Vec<u8> {
        let (end, mut received) = (Instant::now() + time, Vec::new());
        while Instant::now() < end {
            let mut bytes = [0; 4096];
            match self.0.read(&mut bytes) {
                Ok(0) => break,
                Ok(count) => received.extend_from_slice(&bytes[..count]),
                Err(error) if error.kind() == ErrorKind::WouldBlock => {}
                Err(error) => panic!("{error}"),
            }
        }
        received
    }

    /// The messages that come within the time, without the frames of the server's host.
    pub fn receive_messages(&mut self, time: Duration) -> Vec<Vec<u8>> {
        let (received, mut messages) = (self.receive(time), Vec::new());
        let mut rest = &received[..];
        while let Some((length, more)) = rest.split_first_chunk() {
            let length = usize::try_from(u64::from_le_bytes(*length)).unwrap();
            let (message, more) = more.split_at(length);
            messages.push(message.to_vec());
            rest = more;
        }
        messages.retain(|message| message.first() != Some(&0));
        messages
    }
}
