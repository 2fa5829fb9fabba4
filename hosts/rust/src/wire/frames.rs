//! Messages on a stream: each has its length before it, in eight bytes, the lowest first.
//!
//! A frame of no bytes is not a message: by it a server's host reports that a Bye is kept.
use crate::model::limits;
use crate::model::room::Room;
use std::io::{self, Read};
use std::ops::Range;

/// The longest message to a server: a report of 65,537 ranges and 65,537 keys has 1,703,996 bytes.
pub(crate) const LONGEST_TO_SERVER: usize = 1 << 21;

/// The longest message to a server of this room: a client's report grows with the rows.
pub(crate) fn longest_to_server(room: Room) -> usize {
    LONGEST_TO_SERVER * room.rows().div_ceil(limits::DEFAULT_ROOM)
}

/// The longest message to a server that is not a report, and the longest frame of a host: an insert
/// has 83 bytes. Only a report that the server admits may be longer.
pub(crate) const LONGEST_SHORT: usize = 1 << 10;

/// The bytes of a message's head: its version, its kind, its client and the incarnation.
pub(crate) const HEAD: usize = 18;

/// The bytes of a grant before its holdings, and the most that one of these has.
const GRANT_HEAD: usize = 43;
const LONGEST_HOLDING: usize = 51;

/// The longest message to a client: a grant of a server with the greatest reach. A client does not
/// know the reach of its server, and takes grants of any.
pub(crate) const LONGEST_TO_CLIENT: usize = GRANT_HEAD + LONGEST_HOLDING * limits::MAX_REACH;

/// The frame of no bytes.
pub(crate) const EMPTY: [u8; PREFIX] = [0; PREFIX];

/// The bytes of a length.
pub(super) const PREFIX: usize = 8;

/// How an alert of TLS begins: a record of its kind, and of the version that all records name.
pub(crate) const TLS_ALERT: [u8; 3] = [21, 3, 3];

/// How much is read at once.
pub(crate) const GULP: usize = 1 << 14;

/// This much room is kept for the next bytes when all that came is taken.
const KEPT: usize = 4 * GULP;

/// A frame that promises more bytes than a message has. The connection can't continue.
#[derive(Clone, Copy, Debug, PartialEq, Eq)]
pub(crate) struct TooLong;

/// The bytes that came and belong to no frame that was taken yet. It grows with what came, never
/// merely by a length, and at a server beyond `LONGEST_SHORT` only for a frame that was admitted by
/// its head.
#[derive(Debug, Default)]
pub(crate) struct Frames {
    /// Room for bytes. What is after `filled` was zero, or is of frames that were taken: no read
    /// has to clear it again.
    bytes: Vec<u8>,
    taken: usize,
    filled: usize,
    longest: usize,
    /// A longer frame has to be admitted by its head.
    longest_unadmitted: usize,
    /// The next frame is long, and was admitted.
    is_long_admitted: bool,
}

impl Frames {
    /// What comes to a server, in which a frame has this many bytes at most.
    pub fn to_server(longest: usize) -> Frames {
        Frames { longest, longest_unadmitted: LONGEST_SHORT, ..Frames::default() }
    }

    /// What comes to a client. None of its frames has to be admitted.
    pub fn to_client() -> Frames {
        let longest = LONGEST_TO_CLIENT;
        Frames { longest, longest_unadmitted: longest, ..Frames::default() }
    }

    /// Reads once from the stream, at most `GULP` bytes, and returns how many came: none if it has
    /// ended.
    pub fn fill(&mut self, stream: &mut impl Read) -> io::Result<usize> {
        self.make_room();
        let count = stream.read(&mut self.bytes[self.filled..self.filled + GULP])?;
        self.filled += count;
        Ok(count)
    }

    /// Moves what is not taken to the front, and makes room for one read after it.
    fn make_room(&mut self) {
        if self.taken > 0 {
            self.bytes.copy_within(self.taken..self.filled, 0);
            self.filled -= self.taken;
            self.taken = 0;
        }
        if self.filled == 0 && self.bytes.len() > KEPT {
            self.bytes.truncate(GULP);
            self.bytes.shrink_to_fit();
        }
        let needed = self.filled + GULP;
        if self.bytes.len() < needed {
            self.bytes.resize(needed, 0);
        }
    }

    /// The head of the next frame, if that is long and waits to be admitted.
    pub fn long_head(&self) -> Option<[u8; HEAD]> {
        let (length, rest) = split_length(&self.bytes[self.taken..self.filled])?;
        let is_long = length > self.longest_unadmitted as u64 && length <= self.longest as u64;
        let head = rest.first_chunk().filter(|_| is_long && !self.is_long_admitted)?;
        Some(*head)
    }

    /// The next frame, which is long, may come whole.
    pub fn admit_long(&mut self) {
        self.is_long_admitted = true;
    }

    /// Whether the next frame promises more than a message has.
    pub fn is_broken(&self) -> bool {
        self.whole().is_err()
    }

    /// Whether what comes next is no frame, but what a server of TLS answers to anything else.
    pub fn begin_an_alert_of_tls(&self) -> bool {
        self.bytes[self.taken..self.filled].starts_with(&TLS_ALERT)
    }

    /// Whether the next frame has not come whole, and may still do so.
    pub fn needs_more(&self) -> bool {
        self.whole() == Ok(None)
    }

    /// The next frame that has come whole, without its length.
    pub fn next(&mut self) -> Result<Option<&[u8]>, TooLong> {
        let Some(frame) = self.whole()? else { return Ok(None) };
        self.taken = frame.end;
        self.is_long_admitted = false;
        Ok(Some(&self.bytes[frame]))
    }

    /// Where the next frame stands, if it has come whole.
    fn whole(&self) -> Result<Option<Range<usize>>, TooLong> {
        let Some((length, rest)) = split_length(&self.bytes[self.taken..self.filled]) else {
            return Ok(None);
        };
        let length = usize::try_from(length).map_err(|_| TooLong)?;
        if length > self.longest {
            return Err(TooLong);
        }
        if length > self.longest_unadmitted && !self.is_long_admitted {
            return Ok(None);
        }
        let start = self.taken + PREFIX;
        Ok((rest.len() >= length).then_some(start..start + length))
    }
}

fn split_length(bytes: &[u8]) -> Option<(u64, &[u8])> {
    let (length, rest) = bytes.split_first_chunk::<PREFIX>()?;
    Some((u64::from_le_bytes(*length), rest))
}

/// The messages of frames that the library made, each with its frame.
pub(crate) fn split(frames: &[u8]) -> impl Iterator<Item = (&[u8], &[u8])> {
    let mut rest = frames;
    std::iter::from_fn(move || {
        let (length, after) = split_length(rest)?;
        let length = usize::try_from(length).ok()?;
        let message = after.get(..length)?;
        let frame = rest.get(..PREFIX + length)?;
        rest = &after[length..];
        Some((message, frame))
    })
}

#[cfg(test)]
mod tests {
    use super::*;

    fn frame(message: &[u8]) -> Vec<u8> {
        [&(message.len() as u64).to_le_bytes()[..], message].concat()
    }

    #[test]
    fn frames_that_come_in_pieces() {
        let sent = [frame(b"one"), frame(b""), frame(b"three")].concat();
        for step in 1..sent.len() {
            let mut frames = Frames::to_server(5);
            let mut found = Vec::new();
            for piece in sent.chunks(step) {
                frames.fill(&mut &*piece).unwrap();
                while !frames.needs_more() {
                    found.push(frames.next().unwrap().unwrap().to_vec());
                }
                assert_eq!(frames.next(), Ok(None));
            }
            assert_eq!(found, [&b"one"[..], b"", b"three"]);
        }
    }

    #[test]
    fn a_length_past_the_limit_takes_no_memory() {
        for length in [6, 1 << 20, 1 << 60, u64::MAX] {
            let mut frames = Frames::to_server(5);
            frames.fill(&mut &length.to_le_bytes()[..]).unwrap();
            assert!(frames.is_broken() && !frames.needs_more());
            assert_eq!(frames.next(), Err(TooLong));
            assert!(frames.bytes.capacity() <= 2 * GULP);
        }
    }

    #[test]
    fn a_client_takes_the_longest_grant_and_nothing_longer() {
        assert_eq!(LONGEST_TO_CLIENT, 6571);
        let mut frames = Frames::to_client();
        frames.fill(&mut &frame(&[7; LONGEST_TO_CLIENT])[..]).unwrap();
        assert_eq!((frames.long_head(), frames.needs_more()), (None, false));
        assert_eq!(frames.next().unwrap().map(<[u8]>::len), Some(LONGEST_TO_CLIENT));
        frames.fill(&mut &frame(&[7; LONGEST_TO_CLIENT + 1])[..]).unwrap();
        assert_eq!(frames.next(), Err(TooLong));
    }

    #[test]
    fn a_long_frame_has_to_be_admitted_by_its_head() {
        let long = frame(&[7; LONGEST_SHORT + 1]);
        let mut frames = Frames::to_server(1 << 20);
        frames.fill(&mut &long[..PREFIX + HEAD - 1]).unwrap();
        assert_eq!((frames.long_head(), frames.needs_more()), (None, true));
        frames.fill(&mut &long[PREFIX + HEAD - 1..]).unwrap();
        assert_eq!((frames.long_head(), frames.needs_more()), (Some([7; HEAD]), true));
        frames.admit_long();
        assert_eq!((frames.long_head(), frames.needs_more()), (None, false));
        assert_eq!(frames.next().unwrap().map(<[u8]>::len), Some(LONGEST_SHORT + 1));
        // It was admitted once.
        frames.fill(&mut &long[..]).unwrap();
        assert!(frames.long_head().is_some() && frames.next() == Ok(None));
        let mut short = Frames::to_server(1 << 20);
        short.fill(&mut &frame(&[7; LONGEST_SHORT])[..]).unwrap();
        assert_eq!((short.long_head(), short.needs_more()), (None, false));
    }

    #[test]
    fn the_room_of_a_long_frame_is_given_back() {
        let long = frame(&vec![7; 1 << 20]);
        let mut sent = &long[..];
        let mut frames = Frames::to_server(1 << 20);
        frames.admit_long();
        while frames.needs_more() {
            assert!(frames.fill(&mut sent).unwrap() <= GULP);
        }
        assert_eq!(frames.next().unwrap().map(<[u8]>::len), Some(1 << 20));
        frames.fill(&mut &frame(b"a")[..]).unwrap();
        assert_eq!(frames.next(), Ok(Some(&b"a"[..])));
        assert!(frames.bytes.capacity() <= KEPT);
    }

    #[test]
    fn frames_of_the_library_are_split() {
        let sent = [frame(b"ab"), frame(b"c")].concat();
        let found: Vec<_> = split(&sent).map(|(message, _)| message).collect();
        assert_eq!(found, [&b"ab"[..], b"c"]);
        assert_eq!(split(&sent).map(|(_, whole)| whole.len()).sum::<usize>(), sent.len());
    }

    /// A report has 34 bytes, 17 for each range and 9 for each key; a client holds at most one of
    /// each for each row, and one for the end of the index.
    #[test]
    fn a_report_of_the_whole_table_is_no_longer_than_the_longest_message() {
        for rows in [1, 65_536, 65_537, 131_072, 1_048_576] {
            let report = 34 + (17 + 9) * (rows + 1);
            let longest = longest_to_server(Room::of(rows).unwrap());
            assert!((report..=8 * report.max(1 << 19)).contains(&longest), "{rows}: {longest}");
        }
    }
}
