//! Host frames on leases. `docs/STREAM.md` has the table, and `host_frame.rs` the others.
use crate::lease::boot_clock::Moment;
use crate::lease::terms::Answer;
use crate::lease::terms::{FOR_EVER, Grant, Older, Sign};
use crate::wire::host_frame::{self, HOST};
use crate::wire::numbers::{self, bytes_of};

const SIGN: u8 = 1;
const TERMS: u8 = 20;
const ENDED: u8 = 21;

/// The number by which an operator vouches. No incarnation is that great.
const VOUCHED: u64 = FOR_EVER;

impl Sign {
    /// The frame, with its length.
    pub fn frame(self) -> Vec<u8> {
        let Sign { client, incarnation, stamp, length, older } = self;
        let older = match older {
            Older::Unknown => 0,
            Older::IsOver(incarnation) => incarnation,
            Older::Vouched => VOUCHED,
        };
        framed(SIGN, [client.into(), incarnation, stamp.nanoseconds(), length, older])
    }

    /// The content of the frame, without its length, or `None` if it is of another kind.
    pub fn read(frame: &[u8]) -> Option<Sign> {
        let [client, incarnation, stamp, length, older] = content(frame, SIGN)?;
        let older = match older {
            0 => Older::Unknown,
            VOUCHED => Older::Vouched,
            incarnation => Older::IsOver(incarnation),
        };
        let (client, stamp) = (u8::try_from(client).ok()?, Moment::of_nanoseconds(stamp));
        Some(Sign { client, incarnation, stamp, length, older })
    }
}

impl Answer {
    /// The frame, with its length.
    pub fn frame(self) -> Vec<u8> {
        match self {
            Answer::Granted(Grant { incarnation, stamp, length }) => {
                framed(TERMS, [incarnation, stamp.nanoseconds(), length])
            }
            Answer::Ended { incarnation } => framed(ENDED, [incarnation]),
        }
    }

    /// The content of the frame, without its length, or `None` if it is of another kind.
    pub fn read(frame: &[u8]) -> Option<Answer> {
        if let Some([incarnation, stamp, length]) = content(frame, TERMS) {
            let stamp = Moment::of_nanoseconds(stamp);
            return Some(Answer::Granted(Grant { incarnation, stamp, length }));
        }
        let [incarnation] = content(frame, ENDED)?;
        Some(Answer::Ended { incarnation })
    }
}

fn framed(kind: u8, numbers: impl IntoIterator<Item = u64>) -> Vec<u8> {
    host_frame::framed(&[HOST, kind], &bytes_of(numbers))
}

/// The numbers of a frame of this kind.
fn content<const N: usize>(frame: &[u8], kind: u8) -> Option<[u64; N]> {
    numbers::read(frame.strip_prefix(&[HOST, kind])?)
}

#[cfg(test)]
mod tests {
    use super::*;
    use crate::wire::frames::{LONGEST_TO_CLIENT, split};
    use crate::wire::host_frame::{FromClient, FromServer, is_of_host};

    fn body(frame: &[u8]) -> Vec<u8> {
        let mut found: Vec<_> = split(frame).map(|(body, _)| body.to_vec()).collect();
        assert_eq!(found.len(), 1);
        found.remove(0)
    }

    fn sign(older: Older) -> Sign {
        let stamp = Moment::of_nanoseconds(1 << 60);
        Sign { client: 3, incarnation: 7, stamp, length: FOR_EVER, older }
    }

    fn answers() -> [Answer; 2] {
        let stamp = Moment::of_nanoseconds(258);
        let grant = Grant { incarnation: 7, stamp, length: 10 };
        [Answer::Granted(grant), Answer::Ended { incarnation: 7 }]
    }

    #[test]
    fn what_is_sent_is_read() {
        for older in [Older::Unknown, Older::IsOver(6), Older::Vouched] {
            let body = body(&sign(older).frame());
            assert_eq!(Sign::read(&body), Some(sign(older)));
            assert_eq!(Sign::read(&[&body[..], b"more"].concat()), Some(sign(older)));
        }
        for answer in answers() {
            let body = body(&answer.frame());
            assert!(is_of_host(&body) && body.len() < LONGEST_TO_CLIENT);
            assert_eq!(Answer::read(&body), Some(answer));
            assert_eq!(Answer::read(&[&body[..], b"more"].concat()), Some(answer));
        }
    }

    #[test]
    fn the_bytes_are_those_of_the_table() {
        let [granted, ended] = answers().map(|answer| body(&answer.frame()));
        let numbers = [7, 0, 0, 0, 0, 0, 0, 0, 2, 1, 0, 0, 0, 0, 0, 0, 10, 0, 0, 0, 0, 0, 0, 0];
        assert_eq!(granted, [&[0, 20][..], &numbers].concat());
        assert_eq!(ended, [0, 21, 7, 0, 0, 0, 0, 0, 0, 0]);
        let content = body(&sign(Older::IsOver(6)).frame());
        assert_eq!(content[..18], [0, 1, 3, 0, 0, 0, 0, 0, 0, 0, 7, 0, 0, 0, 0, 0, 0, 0]);
        assert_eq!(content[18..26], (1_u64 << 60).to_le_bytes());
        assert_eq!(content[26..], [255, 255, 255, 255, 255, 255, 255, 255, 6, 0, 0, 0, 0, 0, 0, 0]);
    }

    #[test]
    fn what_is_cut_off_or_of_another_kind_is_not_read() {
        let content = body(&sign(Older::Unknown).frame());
        assert!((0..content.len()).all(|length| Sign::read(&content[..length]).is_none()));
        for answer in answers() {
            let content = body(&answer.frame());
            assert!((0..content.len()).all(|length| Answer::read(&content[..length]).is_none()));
            assert_eq!((Sign::read(&content), FromServer::read(&content)), (None, None));
        }
        assert_eq!((Answer::read(&content), FromClient::read(&content)), (None, None));
        let stranger = [&content[..2], &256_u64.to_le_bytes(), &content[10..]].concat();
        assert_eq!(Sign::read(&stranger), None, "a number that no client has");
    }
}
