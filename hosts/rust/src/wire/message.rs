//! What a host reads of the library's messages: the one place that knows where their fields stand.
//! `docs/WIRE.md` has the table.
use crate::model::client_number::ClientNumber;
use std::ops::Range;

const KIND_AT: usize = 1;
const CLIENT_AT: usize = 2;
const INCARNATION_AT: usize = 10;

/// Where a message to a client has its epoch, after its head.
const EPOCH_AT: usize = 18;

/// Where a callback has the points that it calls back: from the first number to the second.
const SPAN_AT: [usize; 2] = [26, 34];

/// Where an Answer has the points of the slot that its write was about: after the head, three
/// numbers and the outcome.
const ANSWERED_AT: [usize; 2] = [43, 51];

/// Where a Lock and a Grant have the number of their request: after the head and two numbers.
const REQUEST_AT: usize = 34;

/// The version of the messages that the library reads.
pub(crate) const VERSION: u8 = 1;

/// The bytes of the kinds that a host looks for.
pub(crate) mod kind {
    pub(crate) const HELLO: u8 = 0;
    pub(crate) const BYE: u8 = 1;
    pub(crate) const REPORT: u8 = 2;
    pub(crate) const LOCK: u8 = 3;
    pub(crate) const RELEASE: u8 = 7;
    pub(crate) const ACK: u8 = 8;
    pub(crate) const GRANT: u8 = 17;
    pub(crate) const ABSENT: u8 = 18;
    pub(crate) const ANSWER: u8 = 19;
    pub(crate) const CALLBACK: u8 = 20;
}

/// What kind of message it is, as far as a host cares.
#[derive(Clone, Copy, Debug, PartialEq, Eq)]
pub(crate) enum Kind {
    Hello,
    Bye,
    Report,
    Lock,
    Release,
    Ack,
    Grant,
    Absent,
    Answer,
    Callback,
    Other,
}

/// What each message begins with.
#[derive(Clone, Copy, Debug, PartialEq, Eq)]
pub(crate) struct Head {
    pub kind: Kind,
    /// The number that the message names as its client's. It may be none.
    pub number: u64,
    pub incarnation: u64,
}

/// A string that may be a message, and its head.
#[derive(Clone, Copy, Debug)]
pub(crate) struct Message<'m> {
    bytes: &'m [u8],
    head: Option<Head>,
}

impl Kind {
    fn of(byte: u8) -> Kind {
        match byte {
            kind::HELLO => Kind::Hello,
            kind::BYE => Kind::Bye,
            kind::REPORT => Kind::Report,
            kind::LOCK => Kind::Lock,
            kind::RELEASE => Kind::Release,
            kind::ACK => Kind::Ack,
            kind::GRANT => Kind::Grant,
            kind::ABSENT => Kind::Absent,
            kind::ANSWER => Kind::Answer,
            kind::CALLBACK => Kind::Callback,
            _ => Kind::Other,
        }
    }

    /// Whether a client acknowledges it.
    pub fn is_push(self) -> bool {
        matches!(self, Kind::Grant | Kind::Absent | Kind::Answer)
    }

    /// Whether a server that takes it from a client may give the client something or take something
    /// away. What an idle client sends is none of these.
    pub fn may_change_holdings(self) -> bool {
        !matches!(self, Kind::Hello | Kind::Bye | Kind::Ack)
    }

    /// Whether it may be a part of the end of a client.
    pub fn is_of_an_end(self) -> bool {
        matches!(self, Kind::Hello | Kind::Bye | Kind::Report | Kind::Ack)
    }
}

impl Head {
    fn read(bytes: &[u8]) -> Option<Head> {
        let (kind, number) = (Kind::of(*bytes.get(KIND_AT)?), number(bytes, CLIENT_AT)?);
        Some(Head { kind, number, incarnation: self::number(bytes, INCARNATION_AT)? })
    }

    /// The client that the message names, if it is one.
    pub fn client(self) -> Option<u8> {
        ClientNumber::of(self.number).map(ClientNumber::get)
    }
}

impl<'m> Message<'m> {
    pub fn read(bytes: &'m [u8]) -> Message<'m> {
        Message { bytes, head: Head::read(bytes) }
    }

    pub fn bytes(&self) -> &'m [u8] {
        self.bytes
    }

    /// What it begins with, or `None` of a string that is too short for a message.
    pub fn head(&self) -> Option<Head> {
        self.head
    }

    /// The client that it names, if it is one.
    pub fn client(&self) -> Option<u8> {
        self.head?.client()
    }

    pub fn kind(&self) -> Kind {
        self.head.map_or(Kind::Other, |head| head.kind)
    }

    /// Whether it is of another version than the messages that the library reads.
    pub fn is_of_another_version(&self) -> bool {
        self.bytes.first().is_some_and(|version| *version != VERSION)
    }

    /// The client whose report it is, and the client's incarnation.
    pub fn reporter(&self) -> Option<(u8, u64)> {
        let head = self.head.filter(|head| head.kind == Kind::Report)?;
        let reporter = Some((head.client()?, head.incarnation));
        reporter.filter(|_| !self.is_of_another_version())
    }

    /// The epoch of a message to a client.
    pub fn epoch(&self) -> Option<u64> {
        number(self.bytes, EPOCH_AT)
    }

    /// The points that a message to a client calls back, if it is a callback.
    pub fn called_back(&self) -> Option<Range<u64>> {
        self.span(SPAN_AT).filter(|_| self.kind() == Kind::Callback)
    }

    /// The points of the slot that the written key lies in, if it is the answer to a write.
    pub fn answered_slot(&self) -> Option<Range<u64>> {
        self.span(ANSWERED_AT).filter(|_| self.kind() == Kind::Answer)
    }

    fn span(&self, at: [usize; 2]) -> Option<Range<u64>> {
        let [start, end] = at.map(|at| number(self.bytes, at));
        Some(start?..end?)
    }

    /// The number of the request of a Lock or a Grant.
    pub fn request(&self) -> Option<u64> {
        let has_one = matches!(self.kind(), Kind::Lock | Kind::Grant);
        number(self.bytes, REQUEST_AT).filter(|_| has_one)
    }
}

fn number(message: &[u8], at: usize) -> Option<u64> {
    let bytes = message.get(at..)?.first_chunk()?;
    Some(u64::from_le_bytes(*bytes))
}

/// What a host gives the library to evict a client: the Hello and the Bye of the next incarnation.
pub(crate) fn eviction(client: u8, successor: u64) -> [Vec<u8>; 2] {
    [kind::HELLO, kind::BYE].map(|kind| {
        let numbers = [u64::from(client).to_le_bytes(), successor.to_le_bytes()];
        [&[VERSION, kind], numbers.as_flattened()].concat()
    })
}

#[cfg(test)]
pub(crate) mod tests {
    use super::*;

    /// A message with these numbers after its kind.
    pub(crate) fn message(kind: u8, numbers: &[u64]) -> Vec<u8> {
        let mut bytes = vec![1, kind];
        for number in numbers {
            bytes.extend_from_slice(&number.to_le_bytes());
        }
        bytes
    }

    pub(crate) fn hello(client: u64) -> Vec<u8> {
        message(kind::HELLO, &[client, 2])
    }

    pub(crate) fn lock(client: u64, request: u64) -> Vec<u8> {
        message(kind::LOCK, &[client, 2, 1, 4, request, 10, 258])
    }

    pub(crate) fn release(client: u64) -> Vec<u8> {
        message(kind::RELEASE, &[client, 2, 1, 4, 0, 11])
    }

    pub(crate) fn grant(client: u64, request: u64) -> Vec<u8> {
        message(kind::GRANT, &[client, 2, 1, 4, request])
    }

    pub(crate) fn callback(client: u64) -> Vec<u8> {
        message(kind::CALLBACK, &[client, 2, 1, 0, 11])
    }

    #[test]
    fn requests_have_their_numbers() {
        let request = |bytes: &[u8]| Message::read(bytes).request();
        assert_eq!((request(&lock(3, 5)), request(&grant(3, 6))), (Some(5), Some(6)));
        for other in [callback(3), release(3), hello(3), message(kind::ACK, &[3, 2, 1, 4, 5])] {
            assert_eq!(request(&other), None, "{other:?}");
        }
        assert_eq!(request(&lock(3, 5)[..40]), None);
    }

    #[test]
    fn short_strings_have_no_fields() {
        for kind in 0..=255 {
            for length in 0..60 {
                let mut bytes = vec![1, kind];
                bytes.resize(length.max(2), 0xff);
                let message = Message::read(&bytes);
                let _ = (message.epoch(), message.called_back(), message.request());
                let _ = message.answered_slot();
                assert_eq!(message.client(), None);
            }
        }
        assert_eq!(Message::read(&[]).kind(), Kind::Other);
        assert_eq!(Message::read(&[1; 17]).head(), None);
    }

    #[test]
    fn an_eviction_is_a_hello_and_a_bye() {
        let [hello, bye] = eviction(3, 2);
        let expected = [kind::HELLO, kind::BYE].map(|kind| message(kind, &[3, 2]));
        assert_eq!([hello, bye], expected);
    }

    #[test]
    fn a_callback_has_its_span() {
        let mut bytes = message(kind::CALLBACK, &[3, 2, 1, 100, 200]);
        bytes.push(0);
        assert_eq!(Message::read(&bytes).called_back(), Some(100..200));
        assert_eq!(Message::read(&bytes).epoch(), Some(1));
        assert_eq!(Message::read(&bytes[..40]).called_back(), None);
        bytes[KIND_AT] = kind::GRANT;
        assert_eq!(Message::read(&bytes).called_back(), None);
    }

    #[test]
    fn an_answer_has_its_slot() {
        let mut bytes = message(kind::ANSWER, &[3, 2, 1, 4, 6]);
        bytes.push(0);
        bytes.extend([100_u64, 200].iter().flat_map(|point| point.to_le_bytes()));
        assert_eq!(Message::read(&bytes).answered_slot(), Some(100..200));
        assert_eq!(Message::read(&bytes[..58]).answered_slot(), None);
        bytes[KIND_AT] = kind::GRANT;
        assert_eq!(Message::read(&bytes).answered_slot(), None);
    }

    #[test]
    fn only_a_report_has_a_reporter() {
        let head = |version, kind| [&[version][..], &message(kind, &[3, 7])[1..]].concat();
        assert_eq!(Message::read(&head(1, kind::REPORT)).reporter(), Some((3, 7)));
        for (version, kind) in [(1, 0), (1, 1), (1, 3), (1, 8), (0, 2), (2, 2)] {
            assert_eq!(Message::read(&head(version, kind)).reporter(), None, "{version} {kind}");
        }
        assert_eq!(Message::read(&message(kind::REPORT, &[64, 7])).reporter(), None);
    }

    #[test]
    fn fields_stand_in_their_places() {
        let bye = message(kind::BYE, &[3, 1 << 60]);
        let head = Head { kind: Kind::Bye, number: 3, incarnation: 1 << 60 };
        assert_eq!(Message::read(&bye).head(), Some(head));
        assert_eq!((head.client(), Head { number: 64, ..head }.client()), (Some(3), None));
    }
}
