//! Host frames by which rows are read that nobody keeps. `docs/STREAM.md` has the table, and
//! `host_frame.rs` the others.
use crate::model::row::{Row, Value};
use crate::wire::host_frame::{self, HOST};
use crate::wire::numbers;

const READ: u8 = 3;
const ROWS: u8 = 23;

/// The most rows that answer one question.
pub(crate) const PAGE: usize = 128;

/// The bytes of a row before its value: the key, and the length of the value.
const ROW_HEAD: usize = 9;

/// A question for the rows of the keys from `lo` on below `hi`. Its answer names its number.
#[derive(Clone, Copy, Debug, PartialEq, Eq)]
pub(crate) struct ReadRequest {
    pub number: u64,
    pub lo: u64,
    pub hi: u64,
}

/// The answer: all rows from `lo` on below `next`, in ascending order; none, with `lo` as `next`, if
/// another client keeps some of them from the client that asks.
#[derive(Clone, Debug, PartialEq, Eq)]
pub(crate) struct RowPage {
    pub number: u64,
    pub next: u64,
    pub rows: Vec<Row>,
}

impl ReadRequest {
    /// Appends the frame, with its length.
    pub fn append(self, frames: &mut Vec<u8>) {
        let ReadRequest { number, lo, hi } = self;
        host_frame::append_framed(&[HOST, READ], frames, |body| {
            numbers::append([number, lo, hi], body);
        });
    }

    /// The frame, with its length.
    pub fn frame(self) -> Vec<u8> {
        let mut frame = Vec::new();
        self.append(&mut frame);
        frame
    }

    /// Whether the frame, without its length, is of this kind.
    pub fn is_kind_of(frame: &[u8]) -> bool {
        frame.starts_with(&[HOST, READ])
    }

    /// The content of the frame, without its length, or `None` if it is of another kind or too short.
    pub fn read(frame: &[u8]) -> Option<ReadRequest> {
        let [number, lo, hi] = numbers::read(frame.strip_prefix(&[HOST, READ])?)?;
        Some(ReadRequest { number, lo, hi })
    }

    /// Whether the page has no rows for it, since another client keeps some of them for itself just
    /// now. No reader is answered so.
    pub fn is_refused_by(&self, page: &RowPage) -> bool {
        page.number == self.number && page.next == self.lo && page.rows.is_empty()
    }

    /// Whether the page answers it: it brings the reader on, and all of its rows lie in what it
    /// answers, in ascending order.
    pub fn is_answered_by(&self, page: &RowPage) -> bool {
        let ReadRequest { number, lo, hi } = *self;
        let is_in_order = page.rows.windows(2).all(|pair| pair[0].key < pair[1].key);
        let is_inside = page.rows.iter().all(|row| (lo..page.next).contains(&row.key));
        page.number == number && (lo + 1..=hi).contains(&page.next) && is_in_order && is_inside
    }
}

/// Appends the frame of an answer, with its length: all rows from where the question of this number
/// begins, below the next key.
pub(crate) fn append_rows(number: u64, next: u64, rows: &[Row], frames: &mut Vec<u8>) {
    host_frame::append_framed(&[HOST, ROWS], frames, |body| {
        numbers::append([number, next, rows.len() as u64], body);
        for Row { key, value } in rows {
            let bytes = value.as_bytes();
            body.extend_from_slice(&key.to_le_bytes());
            body.extend(u8::try_from(bytes.len()).ok());
            body.extend_from_slice(bytes);
        }
    });
}

impl RowPage {
    /// The content of the frame, without its length, or `None` if it is of another kind, or if a row
    /// is cut off or too long. A later release may send more after the rows.
    pub fn read(frame: &[u8]) -> Option<RowPage> {
        let content = frame.strip_prefix(&[HOST, ROWS])?;
        let [number, next, count] = numbers::read(content)?;
        let count = usize::try_from(count).ok().filter(|count| *count <= PAGE)?;
        let mut rest = content.get(24..)?;
        let mut rows = Vec::with_capacity(count);
        for _ in 0..count {
            let (row, after) = split_row(rest)?;
            rows.push(row);
            rest = after;
        }
        Some(RowPage { number, next, rows })
    }
}

#[cfg(test)]
impl RowPage {
    /// The frame, with its length.
    pub fn frame(&self) -> Vec<u8> {
        let mut frame = Vec::new();
        append_rows(self.number, self.next, &self.rows, &mut frame);
        frame
    }
}

/// The row that the bytes begin with, and what follows it.
fn split_row(bytes: &[u8]) -> Option<(Row, &[u8])> {
    let (head, rest) = bytes.split_first_chunk::<ROW_HEAD>()?;
    let (key, length) = head.split_first_chunk()?;
    let (value, after) = rest.split_at_checked(usize::from(*length.first()?))?;
    Some((Row { key: u64::from_le_bytes(*key), value: Value::try_from(value).ok()? }, after))
}

#[cfg(test)]
mod tests {
    use super::*;
    use crate::model::row::MAX_VALUE_BYTES;
    use crate::wire::frames::LONGEST_TO_CLIENT;

    const REQUEST: ReadRequest = ReadRequest { number: 7, lo: 5, hi: 300 };

    fn page(next: u64, keys: &[u64]) -> RowPage {
        let row = |key: &u64| Row { key: *key, value: Value::from(*key) };
        RowPage { number: 7, next, rows: keys.iter().map(row).collect() }
    }

    #[test]
    fn what_is_sent_is_read() {
        let frame = REQUEST.frame();
        assert_eq!(ReadRequest::read(&frame[8..]), Some(REQUEST));
        for page in [page(300, &[]), page(258, &[5, 257])] {
            let frame = page.frame();
            assert_eq!(RowPage::read(&frame[8..]).as_ref(), Some(&page));
            let longer = [&frame[8..], b"more"].concat();
            assert_eq!(RowPage::read(&longer).as_ref(), Some(&page));
            assert!((8..frame.len()).all(|end| RowPage::read(&frame[8..end]).is_none()));
            assert_eq!(ReadRequest::read(&frame[8..]), None);
        }
    }

    #[test]
    fn the_longest_page_is_no_longer_than_the_longest_frame() {
        let value = Value::try_from([7; MAX_VALUE_BYTES]).unwrap();
        let rows: Vec<Row> = (0..PAGE as u64).map(|key| Row { key, value }).collect();
        let frame = RowPage { number: u64::MAX, next: 128, rows }.frame();
        assert!(frame.len() - 8 <= LONGEST_TO_CLIENT);
        assert_eq!(RowPage::read(&frame[8..]).map(|page| page.rows.len()), Some(PAGE));
    }

    #[test]
    fn a_row_with_too_long_a_value_is_not_read() {
        let mut frame = page(258, &[5]).frame();
        let length_at = 8 + 2 + 24 + 8;
        assert_eq!(frame[length_at], 8);
        frame[length_at] = 33;
        frame.extend([7; 33]);
        assert_eq!(RowPage::read(&frame[8..]), None);
    }

    #[test]
    fn only_rows_of_the_question_in_order_answer_it() {
        for answer in [page(300, &[]), page(300, &[5, 299]), page(6, &[5])] {
            assert!(REQUEST.is_answered_by(&answer), "{answer:?}");
            assert!(!REQUEST.is_refused_by(&answer), "{answer:?}");
        }
        assert!(REQUEST.is_refused_by(&page(5, &[])));
        for other in [RowPage { number: 8, ..page(5, &[]) }, page(5, &[5]), page(4, &[])] {
            assert!(!REQUEST.is_refused_by(&other), "{other:?}");
        }
        let other = RowPage { number: 8, ..page(300, &[]) };
        for answer in [
            other,
            page(5, &[]),
            page(301, &[]),
            page(300, &[4]),
            page(257, &[257]),
            page(300, &[7, 6]),
            page(300, &[6, 6]),
        ] {
            assert!(!REQUEST.is_answered_by(&answer), "{answer:?}");
        }
    }
}
