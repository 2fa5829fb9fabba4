//! Frames of the hosts: what the host of a client and that of a server send each other beneath the
//! messages. `docs/STREAM.md` has the table.
//!
//! The first byte of a host frame is 0. No message of the library begins so: its version is 1.
//!
//! A Hello names the version of the stream, and its layout is the same in each version from 2 on:
//! so each side can report to the other that they do not fit together.
use crate::model::client_set::ClientSet;
use crate::model::history::{Mark, Seen};
use crate::model::refusal::{Refusal, STREAM_VERSION};
use crate::model::shard_bounds::ShardBounds;
use crate::wire::frames::PREFIX;
use crate::wire::numbers::{self, bytes_of};
use crate::wire::shard_frame;

pub(super) const HOST: u8 = 0;

/// The version of a Hello that names none.
const BEFORE_VERSIONS: u8 = 1;

/// The second byte of a server's Hello if it answers signs; otherwise it is 0.
const ANSWERS_SIGNS: u8 = 1;

/// How many bytes a mark has: it may lack the store's first start, and a client may have received
/// none.
const MARK_LENGTHS: [usize; 3] = [0, 24, 40];

/// A Hello is of a host of another version.
struct OtherVersion;

/// What the host of a client sends.
#[derive(Clone, Copy, Debug, PartialEq, Eq)]
pub(crate) enum FromClient {
    /// It takes host frames, and has seen this much of the store, if anything. This is the first
    /// frame of its connection.
    Hello(Option<Seen>),
    /// The Hello of a host of another version.
    OtherVersion,
    /// It takes the server for this shard's.
    Shard(ShardBounds),
    /// The same, with numbers that are not a shard's. No host sends it.
    NoShard,
    /// As Hello: the first frame of a connection that speaks for no client, and only reads.
    ReaderHello(Option<Seen>),
}

/// What the host of a server sends, and only to a host that has sent Hello.
#[derive(Clone, Copy, Debug, PartialEq, Eq)]
pub(crate) enum FromServer {
    /// It takes host frames. A host without leases answers no signs. The Hello of another version
    /// is read as a refusal for that reason.
    Hello { answers_signs: bool },
    /// It does not serve the client, for this reason.
    Refused(Refusal),
    /// This much is on the disk. It leaves before the messages that rest on it.
    Mark(Seen),
    /// The store lacks what the client's host has seen of it.
    WentBack,
    /// It serves this shard, as the client's host has stated.
    Shard(ShardBounds),
}

/// Whether the frame, without its length, is one of a host.
pub(crate) fn is_of_host(frame: &[u8]) -> bool {
    frame.first() == Some(&HOST)
}

impl FromClient {
    const HELLO: u8 = 0;
    const SHARD: u8 = 2;
    const READER_HELLO: u8 = 4;

    /// The frame, with its length.
    pub fn frame(self) -> Vec<u8> {
        match self {
            FromClient::Hello(seen) => framed(&[HOST, FromClient::HELLO], &spelled_hello(seen)),
            FromClient::ReaderHello(seen) => {
                framed(&[HOST, FromClient::READER_HELLO], &spelled_hello(seen))
            }
            FromClient::OtherVersion => framed(&[HOST, FromClient::HELLO], &[]),
            FromClient::Shard(shard) => {
                framed(&[HOST, FromClient::SHARD], &shard_frame::spelled(Some(shard)))
            }
            FromClient::NoShard => framed(&[HOST, FromClient::SHARD], &shard_frame::spelled(None)),
        }
    }

    /// The content of the frame, or `None` if it is of another kind, which has no meaning.
    pub fn read(frame: &[u8]) -> Option<FromClient> {
        match frame {
            [HOST, FromClient::HELLO, content @ ..] => {
                Some(read_hello(content).map_or(FromClient::OtherVersion, FromClient::Hello))
            }
            [HOST, FromClient::READER_HELLO, content @ ..] => {
                Some(read_hello(content).map_or(FromClient::OtherVersion, FromClient::ReaderHello))
            }
            [HOST, FromClient::SHARD, shard @ ..] => {
                Some(shard_frame::read(shard).map_or(FromClient::NoShard, FromClient::Shard))
            }
            _ => None,
        }
    }
}

impl FromServer {
    const HELLO: u8 = 16;
    const REFUSED: u8 = 17;
    const MARK: u8 = 18;
    const WENT_BACK: u8 = 19;
    const SHARD: u8 = 22;

    /// The frame, with its length.
    pub fn frame(self) -> Vec<u8> {
        match self {
            FromServer::Hello { answers_signs } => {
                let signs = if answers_signs { ANSWERS_SIGNS } else { 0 };
                framed(&[HOST, FromServer::HELLO], &[signs, STREAM_VERSION])
            }
            FromServer::Refused(refusal) => {
                framed(&[HOST, FromServer::REFUSED, refusal.reason()], &spelled(refusal))
            }
            FromServer::Mark(seen) => framed(&[HOST, FromServer::MARK], &spelled_seen(seen)),
            FromServer::WentBack => framed(&[HOST, FromServer::WENT_BACK], &[]),
            FromServer::Shard(shard) => {
                framed(&[HOST, FromServer::SHARD], &shard_frame::spelled(Some(shard)))
            }
        }
    }

    /// The content of the frame, or `None` if it is of another kind, which has no meaning.
    pub fn read(frame: &[u8]) -> Option<FromServer> {
        match frame {
            [HOST, FromServer::HELLO, content @ ..] => Some(read_server_hello(content)),
            [HOST, FromServer::REFUSED, reason, numbers @ ..] => {
                refusal(*reason, numbers).map(FromServer::Refused)
            }
            [HOST, FromServer::MARK, seen @ ..] => read_seen(seen).map(FromServer::Mark),
            [HOST, FromServer::WENT_BACK, ..] => Some(FromServer::WentBack),
            [HOST, FromServer::SHARD, shard @ ..] => {
                shard_frame::read(shard).map(FromServer::Shard)
            }
            _ => None,
        }
    }
}

/// What follows the kind of a Hello to a server: the mark, if its sender has received one, and the
/// version.
fn spelled_hello(seen: Option<Seen>) -> Vec<u8> {
    let mut content = seen.map(spelled_seen).unwrap_or_default();
    content.push(STREAM_VERSION);
    content
}

/// The mark of such a Hello, if it has one.
fn read_hello(content: &[u8]) -> Result<Option<Seen>, OtherVersion> {
    match content.split_last() {
        Some((&STREAM_VERSION, mark)) if MARK_LENGTHS.contains(&mark.len()) => Ok(read_seen(mark)),
        _ => Err(OtherVersion),
    }
}

/// What follows the kind of a server's Hello: whether it answers signs, and the version.
fn read_server_hello(content: &[u8]) -> FromServer {
    match *content {
        [signs, STREAM_VERSION, ..] => FromServer::Hello { answers_signs: signs == ANSWERS_SIGNS },
        [_, read, ..] => FromServer::Refused(Refusal::Version { read }),
        _ => FromServer::Refused(Refusal::Version { read: BEFORE_VERSIONS }),
    }
}

/// What comes after the number of a refusal's reason: two numbers, or a shard.
fn spelled(refusal: Refusal) -> Vec<u8> {
    bytes_of(match refusal {
        Refusal::OtherShard(served) => return shard_frame::spelled(served),
        Refusal::Version { read } => [read.into(), 0],
        Refusal::ClientNumber { number } => [number, 0],
        Refusal::Incarnation { client, registered } | Refusal::LeaseRuns { client, registered } => {
            [client.into(), registered]
        }
        Refusal::Full { connections } => [connections, 0],
        Refusal::Missing(clients) => [clients.bits(), 0],
        Refusal::FarAhead { client, latest } => [client.into(), latest],
        Refusal::Denied | Refusal::OtherStore => [0, 0],
    })
}

fn spelled_seen(seen: Seen) -> Vec<u8> {
    let Seen { mark: Mark { start, commits }, first_start } = seen;
    let first_start = first_start.map(u128::to_le_bytes);
    let first_start = first_start.as_ref().map_or(&[][..], |bits| bits);
    [&start.to_le_bytes(), &commits.to_le_bytes()[..], first_start].concat()
}

/// A host of an earlier release sends the mark without the first start.
fn read_seen(bytes: &[u8]) -> Option<Seen> {
    let (start, rest) = bytes.split_first_chunk()?;
    let (commits, rest) = rest.split_first_chunk()?;
    let first_start = rest.first_chunk().map(|bits| u128::from_le_bytes(*bits));
    let (start, commits) = (u128::from_le_bytes(*start), u64::from_le_bytes(*commits));
    Some(Seen { mark: Mark { start, commits }, first_start })
}

fn refusal(reason: u8, bytes: &[u8]) -> Option<Refusal> {
    let [first, second] = numbers::read(bytes)?;
    Some(match reason {
        0 => Refusal::Version { read: u8::try_from(first).ok()? },
        1 => Refusal::ClientNumber { number: first },
        2 => Refusal::Incarnation { client: u8::try_from(first).ok()?, registered: second },
        3 => Refusal::Full { connections: first },
        4 => Refusal::Missing(ClientSet::of_bits(first)),
        5 => Refusal::LeaseRuns { client: u8::try_from(first).ok()?, registered: second },
        6 => Refusal::Denied,
        7 => shard_frame::read_refusal(bytes)?,
        8 => Refusal::FarAhead { client: u8::try_from(first).ok()?, latest: second },
        9 => Refusal::OtherStore,
        _ => return None,
    })
}

/// A frame with its length: the head, and then the body.
pub(super) fn framed(head: &[u8], body: &[u8]) -> Vec<u8> {
    let mut frame = Vec::new();
    append_framed(head, &mut frame, |frame| frame.extend_from_slice(body));
    frame
}

/// Appends a frame with its length: this head, and what `append_body` appends after it.
pub(super) fn append_framed(
    head: &[u8],
    frames: &mut Vec<u8>,
    append_body: impl FnOnce(&mut Vec<u8>),
) {
    let start = frames.len();
    frames.extend_from_slice(&[0; PREFIX]);
    frames.extend_from_slice(head);
    append_body(frames);
    let length = (frames.len() - start - PREFIX) as u64;
    frames[start..start + PREFIX].copy_from_slice(&length.to_le_bytes());
}

#[cfg(test)]
mod tests {
    use super::*;
    use crate::lease::boot_clock::Moment;
    use crate::lease::terms::{Answer, Grant, Older, Sign};
    use crate::model::row::{Row, Value};
    use crate::wire::frames::split;
    use crate::wire::read_frame::{ReadRequest, RowPage};

    const HELLO: FromServer = FromServer::Hello { answers_signs: true };
    const SEEN: Seen =
        Seen { mark: Mark { start: 1 << 127 | 5, commits: 258 }, first_start: Some(3 << 120 | 7) };
    const SEEN_EARLIER: Seen = Seen { first_start: None, ..SEEN };

    fn shard() -> ShardBounds {
        "5..258@7".parse().unwrap()
    }

    fn examples() -> Vec<FromServer> {
        let missing = Refusal::Missing([3, 63].into_iter().collect());
        let refusals = [
            Refusal::Version { read: 1 },
            Refusal::ClientNumber { number: u64::MAX },
            Refusal::Incarnation { client: 63, registered: 1 << 60 },
            Refusal::Full { connections: 256 },
            missing,
            Refusal::LeaseRuns { client: 63, registered: 7 },
            Refusal::Denied,
            Refusal::OtherShard(None),
            Refusal::FarAhead { client: 63, latest: 1 << 61 },
            Refusal::OtherStore,
            Refusal::OtherShard(Some(shard())),
        ];
        let shard = FromServer::Shard(shard());
        let others = [HELLO, FromServer::Mark(SEEN), FromServer::WentBack, shard];
        refusals.map(FromServer::Refused).into_iter().chain(others).collect()
    }

    fn body(frame: &[u8]) -> Vec<u8> {
        let mut found: Vec<_> = split(frame).map(|(body, _)| body.to_vec()).collect();
        assert_eq!(found.len(), 1);
        found.remove(0)
    }

    #[test]
    fn what_is_sent_is_read() {
        for content in examples() {
            let body = body(&content.frame());
            assert!(is_of_host(&body) && body.len() < crate::wire::frames::LONGEST_TO_CLIENT);
            assert_eq!(FromServer::read(&body), Some(content));
            // A later release may send more after it.
            assert_eq!(FromServer::read(&[&body[..], b"more"].concat()), Some(content));
        }
        for seen in [None, Some(SEEN), Some(SEEN_EARLIER)] {
            for hello in [FromClient::Hello(seen), FromClient::ReaderHello(seen)] {
                assert_eq!(FromClient::read(&body(&hello.frame())), Some(hello));
            }
        }
        let other = FromClient::OtherVersion;
        assert_eq!(FromClient::read(&body(&other.frame())), Some(other));
        let mark = FromServer::Mark(SEEN_EARLIER);
        assert_eq!(FromServer::read(&body(&mark.frame())), Some(mark));
        for named in [FromClient::Shard(shard()), FromClient::NoShard] {
            assert_eq!(FromClient::read(&body(&named.frame())), Some(named));
        }
        assert_eq!(FromClient::read(&[0, 2, 5]), Some(FromClient::NoShard));
    }

    #[test]
    fn the_bytes_are_those_of_the_table() {
        let marked = [5, 0, 0, 0, 0, 0, 0, 0, 0, 0, 0, 0, 0, 0, 0, 128, 2, 1, 0, 0, 0, 0, 0, 0];
        let earlier = FromServer::Mark(SEEN_EARLIER);
        assert_eq!(body(&earlier.frame()), [&[0, 18][..], &marked].concat());
        let unsigned = FromServer::Hello { answers_signs: false };
        assert_eq!(body(&unsigned.frame()), [0, 16, 0, 4]);
        let numbers = [5, 0, 0, 0, 0, 0, 0, 0, 2, 1, 0, 0, 0, 0, 0, 0, 7, 0, 0, 0, 0, 0, 0, 0];
        let other = FromServer::Refused(Refusal::OtherShard(Some(shard())));
        assert_eq!(body(&other.frame()), [&[0, 17, 7][..], &numbers].concat());
    }

    #[test]
    fn the_examples_of_the_page_are_these_frames() {
        let page = concat!(env!("CARGO_MANIFEST_DIR"), "/../../docs/STREAM.md");
        let page = std::fs::read_to_string(page).unwrap();
        let (_, examples) = page.split_once("\n## Examples\n").unwrap();
        let examples = examples.lines().filter_map(|line| line.strip_prefix("    "));
        let examples: Vec<String> = examples.map(|line| line.replace(' ', "")).collect();
        let mark = Mark { start: 5, commits: 258 };
        let seen = Seen { mark, first_start: Some(7) };
        let (stamp, length) = (Moment::of_nanoseconds(5), 10_000_000_000);
        let older = Older::IsOver(1);
        let row = Row { key: 15, value: Value::try_from("hello").unwrap() };
        let frames = [
            FromClient::Hello(None).frame(),
            FromClient::Hello(Some(seen)).frame(),
            HELLO.frame(),
            FromServer::Mark(seen).frame(),
            Sign { client: 3, incarnation: 2, stamp, length, older }.frame(),
            Answer::Granted(Grant { incarnation: 2, stamp, length }).frame(),
            Answer::Ended { incarnation: 2 }.frame(),
            FromClient::Shard(shard()).frame(),
            FromServer::Shard(shard()).frame(),
            FromServer::Refused(Refusal::Incarnation { client: 3, registered: 258 }).frame(),
            FromClient::ReaderHello(None).frame(),
            ReadRequest { number: 7, lo: 5, hi: 257 }.frame(),
            RowPage { number: 7, next: 257, rows: vec![row] }.frame(),
        ];
        let hexadecimal = |frame: &Vec<u8>| -> String {
            frame.iter().map(|byte| format!("{byte:02x}")).collect::<Vec<_>>().concat()
        };
        let expected: Vec<String> = frames.iter().map(hexadecimal).collect();
        assert_eq!(examples, expected);
    }

    #[test]
    fn a_hello_of_another_version_is_known_by_both_sides() {
        let refused = |read| Some(FromServer::Refused(Refusal::Version { read }));
        for (hello, read) in [(&[0, 16][..], 1), (&[0, 16, 1], 1), (&[0, 16, 1, 2, 9], 2)] {
            assert_eq!(FromServer::read(hello), refused(read), "{hello:?}");
        }
        let of_client = |content: &[u8]| FromClient::read(&[&[0, 0], content].concat());
        // A mark of a host from before versions may end as a version does.
        for content in [&[][..], &[4; 24], &[4; 40], &[1], &[3], &[4, 9], &[4; 26]] {
            assert_eq!(of_client(content), Some(FromClient::OtherVersion), "{content:?}");
        }
        for length in MARK_LENGTHS {
            let hello = of_client(&[&vec![7; length][..], &[STREAM_VERSION]].concat());
            assert!(matches!(hello, Some(FromClient::Hello(_))), "{length}");
        }
    }

    #[test]
    fn what_is_cut_off_or_unknown_is_not_read() {
        for content in examples() {
            let body = body(&content.frame());
            let shortest = match content {
                // One that is shorter names no version.
                FromServer::Hello { .. } => 2,
                FromServer::Mark(_) => 26,
                _ => body.len(),
            };
            for length in 0..shortest {
                assert_eq!(FromServer::read(&body[..length]), None);
            }
        }
        assert_eq!(
            FromServer::read(&[0, 17, 10, 0, 0, 0, 0, 0, 0, 0, 0, 0, 0, 0, 0, 0, 0, 0, 0]),
            None
        );
        assert_eq!(FromServer::read(&[0, 0]), None, "a client's");
        assert_eq!(FromClient::read(&[0, 16]), None, "a server's");
        assert_eq!(FromClient::read(&[1, 0]), None, "a message");
        assert!(!is_of_host(&[]) && !is_of_host(&[1, 0]));
    }
}
