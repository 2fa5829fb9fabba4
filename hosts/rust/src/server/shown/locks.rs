//! Who holds which slots of a server's table, and who waits there.
use crate::call::range::keys_of;
use crate::model::client_number::ClientNumber;
use crate::model::lock::HeldSlot;
use crate::server::lock_search::{HeldRun, Page, Search};
use crate::server::questions::{BUSY, Question, Questions, Unanswered};
use crate::server::shown::watch::Wait;
use std::fmt;
use std::ops::{Range, RangeBounds};
use std::time::Duration;

/// How long a page of the answer may take: the server's loop may wait for its store meanwhile.
const LONGEST_WAIT: Duration = Duration::from_secs(10);

/// Who holds and who waits in a range.
#[derive(Clone, Debug, Default, PartialEq, Eq)]
#[non_exhaustive]
pub struct Locks {
    /// The slots that meet the range, in ascending order, each by those who hold something of it,
    /// in ascending order.
    pub held: Vec<HeldSlot>,
    /// Where the slots begin that are left out, if there are more than were asked for.
    pub next: Option<u64>,
    /// The clients that wait with a request that meets the range.
    pub waits: Vec<Wait>,
    /// All of this is as it was at one moment. Otherwise the server has reported it in several
    /// pages, and continued between them: what a client holds may have changed from one page to the
    /// next.
    pub is_of_one_moment: bool,
}

/// Why a server did not report who holds what.
#[derive(Clone, Copy, Debug, PartialEq, Eq)]
#[non_exhaustive]
pub enum LocksError {
    /// The server has ended, or ends before its turn comes to this.
    Ended,
    /// The server's loop did not come to it in time: it is busy, or hangs.
    Busy,
    /// The range begins above its end, or ends above 2^63.
    BadRange,
}

/// Who holds which slots that meet this range, as
/// [`Monitor::locks`](super::monitor::Monitor::locks) answers it.
pub(crate) fn locks(
    questions: &Questions,
    points: impl RangeBounds<u64>,
    most: usize,
) -> Result<Locks, LocksError> {
    let points = keys_of(&points).map_err(|_| LocksError::BadRange)?;
    let most = most.max(ClientNumber::COUNT.into());
    let first = page(questions, Search::of_slots(points.clone(), most.saturating_add(1)))?;
    let is_of_one_moment = first.rest.is_done();
    let Page { mut held, waits, mut rest, .. } = first;
    while !rest.is_done() {
        let page = page(questions, rest)?;
        held.extend(page.held);
        rest = page.rest;
    }
    let mut held = held.into_iter().map(HeldRun::first_slot).collect();
    let next = cut(&mut held, most);
    let waits = waits.into_iter().filter(|wait| meets(wait, &points)).collect();
    Ok(Locks { held, next, waits, is_of_one_moment })
}

/// What the server's loop finds in one page of this search.
pub(crate) fn page(questions: &Questions, search: Search) -> Result<Page, LocksError> {
    let answered = questions.answer(|reply| Question::Locks(search, reply), LONGEST_WAIT);
    answered.map_err(|why| match why {
        Unanswered::Ended => LocksError::Ended,
        Unanswered::Busy => LocksError::Busy,
    })
}

/// Puts the slots in order, and leaves out those after the first `most`, and all holders of the
/// first of these. Returns where those begin, if there are any.
fn cut(held: &mut Vec<HeldSlot>, most: usize) -> Option<u64> {
    held.sort_unstable();
    let next = held.get(most)?.lo;
    held.retain(|slot| slot.lo < next);
    Some(next)
}

fn meets(wait: &Wait, points: &Range<u64>) -> bool {
    wait.point < points.end && points.start < wait.hi
}

impl fmt::Display for LocksError {
    fn fmt(&self, f: &mut fmt::Formatter<'_>) -> fmt::Result {
        f.write_str(match self {
            LocksError::Ended => "the server has ended",
            LocksError::Busy => BUSY,
            LocksError::BadRange => {
                "a range begins at its end or below it, and ends at 2^63 at most"
            }
        })
    }
}

impl std::error::Error for LocksError {}

#[cfg(test)]
mod tests {
    use super::*;
    use crate::model::lock::Mode;

    fn slot(client: u8, lo: u64, hi: u64) -> HeldSlot {
        HeldSlot { lo, hi, client, mode: Mode::RangeSS }
    }

    #[test]
    fn a_cut_leaves_no_slot_in_part() {
        let all = [slot(2, 20, 30), slot(1, 20, 30), slot(1, 0, 10), slot(2, 10, 20)];
        let cut_at = |most| {
            let mut held = all.to_vec();
            let next = cut(&mut held, most);
            (held.iter().map(|it| (it.lo, it.client)).collect::<Vec<_>>(), next)
        };
        assert_eq!(cut_at(4), (vec![(0, 1), (10, 2), (20, 1), (20, 2)], None));
        assert_eq!(cut_at(3), (vec![(0, 1), (10, 2)], Some(20)));
        assert_eq!(cut_at(2), (vec![(0, 1), (10, 2)], Some(20)));
        assert_eq!(cut_at(1), (vec![(0, 1)], Some(10)));
    }

    #[test]
    fn a_wait_meets_what_it_asks_for() {
        let wait = Wait {
            client: 3,
            point: 10,
            hi: 20,
            mode: Mode::RangeXX,
            waited: Duration::ZERO,
            waits_for: Vec::new(),
        };
        let meets = |points| meets(&wait, &points);
        assert_eq!(
            [meets(0..10), meets(0..11), meets(19..20), meets(20..21)],
            [false, true, true, false]
        );
    }
}
