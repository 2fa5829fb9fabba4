//! What a server decides, for a simulation of this workspace: it has the clocks, the network and
//! the disks. Its clients are those of [`crate::sans_io`]. Nothing here is a part of the interface.
mod server;

pub use server::{Next, Sent, Server, Start};

use crate::lease::terms::Answer;
use crate::lease::terms::Sign;
use crate::model::refusal::Refusal;
use crate::net::connect_fault::Rejection;
use crate::wire::host_frame::{self, FromClient, FromServer};
use crate::wire::message::Message;
use crate::wire::read_frame::{ReadRequest, RowPage};
use std::io;

/// What a frame is to an observer.
#[derive(Clone, Copy, Debug, PartialEq, Eq)]
pub enum FrameKind {
    /// A message of the library, or the frame of no bytes, which answers a Bye.
    Message,
    /// The server's host has found that its store lacks what the client has seen.
    WentBack,
    /// The server's host refuses a client that has seen another store.
    OtherStore,
    /// Another frame of a host.
    Host,
}

impl FrameKind {
    /// That of a frame without its length.
    #[must_use]
    pub fn of(frame: &[u8]) -> FrameKind {
        if !host_frame::is_of_host(frame) {
            return FrameKind::Message;
        }
        match FromServer::read(frame) {
            Some(FromServer::WentBack) => FrameKind::WentBack,
            Some(FromServer::Refused(Refusal::OtherStore)) => FrameKind::OtherStore,
            _ => FrameKind::Host,
        }
    }
}

/// Where the numbers of a message stand that follow its kind, its client and its incarnation.
const AFTER_HEAD: usize = 18;

/// This many of them are reported.
const SHOWN: usize = 6;

/// A frame without its length, in words.
#[must_use]
pub fn describe(frame: &[u8]) -> String {
    if frame.is_empty() {
        return "Bye is kept".into();
    }
    if let Some(sign) = Sign::read(frame) {
        return format!("Sign of incarnation {}", sign.incarnation);
    }
    if let Some(answer) = Answer::read(frame) {
        return match answer {
            Answer::Granted(grant) => format!("Terms of {} ms", grant.length / 1_000_000),
            Answer::Ended { incarnation } => format!("Ended {incarnation}"),
        };
    }
    if let Some(ReadRequest { number, lo, hi }) = ReadRequest::read(frame) {
        return format!("Read {number} of {lo}..{hi}");
    }
    if let Some(RowPage { number, next, rows }) = RowPage::read(frame) {
        return format!("Rows {number} below {next}, of which there are {}", rows.len());
    }
    if let Some(FromClient::Hello(seen)) = FromClient::read(frame) {
        return seen.map_or("Host".into(), |seen| format!("Host, seen {:?}", seen.mark));
    }
    if let Some(sent) = FromServer::read(frame) {
        return format!("{sent:?}");
    }
    let numbers = frame.get(AFTER_HEAD..).unwrap_or_default().chunks_exact(8).take(SHOWN);
    let numbers = numbers.filter_map(|bytes| bytes.try_into().ok().map(u64::from_le_bytes));
    let numbers: Vec<_> = numbers.map(|number| number.to_string()).collect();
    format!("{:?} {}", Message::read(frame).kind(), numbers.join(" "))
}

/// Why a connection ends if one side does not take the other.
#[must_use]
pub fn not_taken() -> io::Error {
    Rejection::NotTaken("the certificate has expired".into()).into()
}
