//! As much of gRPC over HTTP/2 as one caller needs that waits for each answer.
//!
//! Header blocks of answers are not read: a call that fails has no message, and that is the error.
use crate::protobuf::Message;
use crate::system::{Found, tcp};
use std::io::{BufReader, Read, Write};
use std::net::TcpStream;

const PREFACE: &[u8] = b"PRI * HTTP/2.0\r\n\r\nSM\r\n\r\n";
/// The server may send as much as it likes before it learns that there is more room.
const WINDOW: u32 = (1 << 31) - 1;
const FIRST_WINDOW: u32 = (1 << 16) - 1;
const INITIAL_WINDOW_SIZE: u16 = 4;

const DATA: u8 = 0;
const HEADERS: u8 = 1;
const RST_STREAM: u8 = 3;
const SETTINGS: u8 = 4;
const PING: u8 = 6;
const GOAWAY: u8 = 7;
const WINDOW_UPDATE: u8 = 8;

/// Of DATA and HEADERS.
const END_STREAM: u8 = 1;
/// Of SETTINGS and PING.
const ACK: u8 = 1;
const END_HEADERS: u8 = 4;

/// A compression flag and a length are before each message.
const PREFIX: usize = 5;

pub struct Grpc {
    stream: BufReader<TcpStream>,
    next_stream: u32,
    out: Vec<u8>,
    payload: Vec<u8>,
    /// What came of the open stream and is no whole message yet, or after one.
    received: Vec<u8>,
    has_ended: bool,
}

impl Grpc {
    pub fn open(address: &str) -> Found<Grpc> {
        let stream = BufReader::with_capacity(1 << 16, tcp(address)?);
        let mut settings = INITIAL_WINDOW_SIZE.to_be_bytes().to_vec();
        settings.extend(WINDOW.to_be_bytes());
        let mut out = PREFACE.to_vec();
        push_frame(&mut out, SETTINGS, 0, 0, &settings);
        push_frame(&mut out, WINDOW_UPDATE, 0, 0, &(WINDOW - FIRST_WINDOW).to_be_bytes());
        let mut grpc = Grpc {
            stream,
            next_stream: 1,
            out,
            payload: Vec::new(),
            received: Vec::new(),
            has_ended: false,
        };
        grpc.send()?;
        Ok(grpc)
    }

    /// The socket, to end a thread that waits for a message.
    pub fn socket(&self) -> &TcpStream {
        self.stream.get_ref()
    }

    /// Calls a method that has one answer.
    pub fn call(&mut self, path: &str, message: &Message) -> Found<Vec<u8>> {
        self.begin(path, message, END_STREAM)?;
        let answer = self.message()?;
        while !self.has_ended {
            self.frame()?;
        }
        Ok(answer)
    }

    /// Calls a method whose answers come as messages, until the connection ends.
    pub fn subscribe(&mut self, path: &str, message: &Message) -> Found<()> {
        self.begin(path, message, 0)
    }

    fn begin(&mut self, path: &str, message: &Message, end: u8) -> Found<()> {
        let stream = self.next_stream;
        self.next_stream += 2;
        self.received.clear();
        self.has_ended = false;
        push_frame(&mut self.out, HEADERS, END_HEADERS, stream, &headers(path));
        let mut data = vec![0];
        data.extend(u32::try_from(message.0.len())?.to_be_bytes());
        data.extend(&message.0);
        push_frame(&mut self.out, DATA, end, stream, &data);
        self.send()
    }

    /// The next message of the open stream.
    pub fn message(&mut self) -> Found<Vec<u8>> {
        loop {
            if let Some(end) = whole_message(&self.received) {
                let message = self.received[PREFIX..end].to_vec();
                self.received.drain(..end);
                return Ok(message);
            }
            if self.has_ended {
                return Err("a call has failed: its answer has no message".into());
            }
            self.frame()?;
        }
    }

    /// Takes a frame, and answers it if HTTP/2 wants that.
    fn frame(&mut self) -> Found<()> {
        let mut head = [0; 9];
        self.stream.read_exact(&mut head)?;
        let length = u32::from_be_bytes([0, head[0], head[1], head[2]]);
        let (kind, flags) = (head[3], head[4]);
        self.payload.resize(usize::try_from(length)?, 0);
        self.stream.read_exact(&mut self.payload)?;
        match kind {
            DATA => self.received.extend(&self.payload),
            SETTINGS if flags & ACK == 0 => push_frame(&mut self.out, SETTINGS, ACK, 0, &[]),
            PING if flags & ACK == 0 => push_frame(&mut self.out, PING, ACK, 0, &self.payload),
            RST_STREAM | GOAWAY => return Err("the server ended a call".into()),
            _ => {}
        }
        self.has_ended |= matches!(kind, DATA | HEADERS) && flags & END_STREAM != 0;
        self.send()
    }

    fn send(&mut self) -> Found<()> {
        if !self.out.is_empty() {
            self.stream.get_mut().write_all(&self.out)?;
            self.out.clear();
        }
        Ok(())
    }
}

/// Where the first message ends, if it is whole.
fn whole_message(received: &[u8]) -> Option<usize> {
    let length: [u8; 4] = received.get(1..PREFIX)?.try_into().ok()?;
    let end = PREFIX + usize::try_from(u32::from_be_bytes(length)).ok()?;
    (received.len() >= end).then_some(end)
}

fn push_frame(to: &mut Vec<u8>, kind: u8, flags: u8, stream: u32, payload: &[u8]) {
    // Frames of this caller are short.
    let length = u32::try_from(payload.len()).unwrap_or(u32::MAX);
    to.extend(&length.to_be_bytes()[1..]);
    to.extend([kind, flags]);
    to.extend(stream.to_be_bytes());
    to.extend(payload);
}

/// The header block of a request: fields of the static table, and literals that no table keeps.
fn headers(path: &str) -> Vec<u8> {
    let mut block = vec![0x83, 0x86]; // :method POST, :scheme http
    push_literal(&mut block, &[0x04], path); // :path
    push_literal(&mut block, &[0x01], "localhost"); // :authority
    push_literal(&mut block, &[0x0f, 0x10], "application/grpc"); // content-type
    push_literal(&mut block, b"\x00\x02te", "trailers");
    block
}

/// A literal whose value is shorter than 127 bytes.
fn push_literal(block: &mut Vec<u8>, name: &[u8], value: &str) {
    block.extend(name);
    block.push(u8::try_from(value.len()).unwrap_or(0x7e));
    block.extend(value.as_bytes());
}

#[cfg(test)]
mod tests {
    use super::*;

    #[test]
    fn messages_are_found_when_they_are_whole() {
        let received = [0, 0, 0, 0, 2, b'a', b'b', 0];
        let found = [0, 4, 5, 6, 7, 8].map(|length| whole_message(&received[..length]));
        assert_eq!(found, [None, None, None, None, Some(7), Some(7)]);
        assert_eq!(whole_message(&[0; 5]), Some(5));
    }

    #[test]
    fn frames_have_their_length_kind_and_stream() {
        let mut out = Vec::new();
        push_frame(&mut out, PING, ACK, 258, &[7; 8]);
        assert_eq!(out, [0, 0, 8, 6, 1, 0, 0, 1, 2, 7, 7, 7, 7, 7, 7, 7, 7]);
    }
}
