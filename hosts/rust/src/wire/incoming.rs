//! What a client and its host send to a server, frame by frame.
use crate::lease::terms::Sign;
use crate::wire::host_frame::{self, FromClient};
use crate::wire::message::Message;
use crate::wire::read_frame::ReadRequest;

/// A frame that has come to a server, read once.
#[derive(Clone, Copy, Debug)]
pub(crate) enum Incoming<'f> {
    /// A message of the library, or a string that is not one: the library judges it.
    Message(Message<'f>),
    /// A frame of the client's host, or `None` if this server does not know its kind.
    Host(Option<FromClient>),
    /// A sign of the client's host.
    Sign(Sign),
    /// A question for rows that nobody keeps, or `None` if the frame is too short for one.
    Read(Option<ReadRequest>),
}

impl Incoming<'_> {
    /// A frame without its length.
    pub fn read(frame: &[u8]) -> Incoming<'_> {
        if !host_frame::is_of_host(frame) {
            return Incoming::Message(Message::read(frame));
        }
        if ReadRequest::is_kind_of(frame) {
            return Incoming::Read(ReadRequest::read(frame));
        }
        Sign::read(frame).map_or_else(|| Incoming::Host(FromClient::read(frame)), Incoming::Sign)
    }

    /// The client that it names as its sender, if it is one.
    pub fn client(&self) -> Option<u8> {
        match self {
            Incoming::Message(message) => message.client(),
            Incoming::Host(_) | Incoming::Sign(_) | Incoming::Read(_) => None,
        }
    }

    /// Whether it speaks for a client, so that no reader may send it.
    pub fn is_of_a_client(&self) -> bool {
        matches!(self, Incoming::Message(_) | Incoming::Sign(_))
    }
}
