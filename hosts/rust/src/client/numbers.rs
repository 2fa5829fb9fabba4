//! The first number of several that is free.
use crate::call::error::{JoinError, JoinErrorKind, LockFileError};
use crate::client::joining::Waits;
use crate::model::refusal::Refusal;
use std::time::Duration;

/// How long a number is tried of which the server reports that another process has it.
const IN_USE: Duration = Duration::from_secs(1);

/// Joins by the first of these numbers that is free. A number whose lock file another process has, or
/// is of a clock that was wrong, is left for the next one at once, and one of which the server reports
/// that it is in use after a moment. If no other one is free, the first of the latter is waited for.
/// If there is none of these either, the error is that of the last number whose file is of a wrong
/// clock, which does not pass by itself, or that of the last number. `None` if there are no numbers.
pub(crate) fn join_first<C>(
    numbers: &[u8],
    waits: Waits,
    join: impl Fn(u8, Waits) -> Result<C, JoinError>,
) -> Option<Result<C, JoinError>> {
    let short = Waits { if_in_use: waits.if_in_use.min(IN_USE), ..waits };
    let (mut in_use, mut far_ahead, mut taken) = (None, None, None);
    for &number in numbers {
        let error = match join(number, short) {
            Ok(client) => return Some(Ok(client)),
            Err(error) => error,
        };
        match error.kind {
            JoinErrorKind::LockFile { error: LockFileError::Taken, .. } => taken = Some(error),
            JoinErrorKind::Unserved(Refusal::FarAhead { .. }) => far_ahead = Some(error),
            JoinErrorKind::Unserved(Refusal::LeaseRuns { .. } | Refusal::Incarnation { .. }) => {
                in_use.get_or_insert(number);
            }
            _ => return Some(Err(error)),
        }
    }
    in_use.map(|number| join(number, waits)).or(far_ahead.or(taken).map(Err))
}

#[cfg(test)]
mod tests {
    use super::*;
    use std::cell::RefCell;

    const WAITS: Waits = Waits { timeout: Duration::from_secs(9), if_in_use: Duration::MAX };

    /// What came of a search, and which numbers were tried, with whether for long.
    type Searched = (Option<Result<u8, JoinError>>, Vec<(u8, bool)>);

    /// What becomes of these numbers, of which each is free, taken (`l`), in use (`u`), ahead (`a`) or
    /// fails (`f`).
    fn run(numbers: &[(u8, char)]) -> Searched {
        let tried = RefCell::new(Vec::new());
        let join = |number: u8, waits: Waits| {
            tried.borrow_mut().push((number, waits.if_in_use == WAITS.if_in_use));
            match numbers.iter().find(|(other, _)| *other == number).unwrap().1 {
                'l' => Err(taken(number)),
                'u' => Err(unserved(Refusal::Incarnation { client: 1, registered: 2 })),
                'a' => Err(unserved(Refusal::FarAhead { client: 1, latest: 2 })),
                'f' => Err(JoinErrorKind::BadNumber.into()),
                _ => Ok(number),
            }
        };
        let all: Vec<u8> = numbers.iter().map(|(number, _)| *number).collect();
        let joined = join_first(&all, WAITS, join);
        (joined, tried.into_inner())
    }

    fn taken(number: u8) -> JoinError {
        let error = LockFileError::Taken;
        JoinErrorKind::LockFile { path: number.to_string().into(), error }.into()
    }

    fn unserved(refusal: Refusal) -> JoinError {
        JoinErrorKind::Unserved(refusal).into()
    }

    fn kind(joined: Option<Result<u8, JoinError>>) -> Option<JoinErrorKind> {
        joined?.err().map(|error| error.kind)
    }

    #[test]
    fn the_first_free_number_taken() {
        let (joined, tried) = run(&[(3, 'l'), (4, 'u'), (5, 'a'), (6, ' '), (7, ' ')]);
        assert!(matches!(joined, Some(Ok(6))));
        assert_eq!(tried, [(3, false), (4, false), (5, false), (6, false)]);
    }

    #[test]
    fn one_that_is_in_use_is_waited_for_if_no_other_one_is_free() {
        let (joined, tried) = run(&[(3, 'u'), (4, 'l'), (5, 'u')]);
        assert!(matches!(kind(joined), Some(JoinErrorKind::Unserved(_))));
        assert_eq!(tried, [(3, false), (4, false), (5, false), (3, true)]);
    }

    #[test]
    fn a_lock_file_is_named_if_all_are_taken_and_one_of_a_wrong_clock_first() {
        let (joined, _) = run(&[(3, 'l'), (4, 'l')]);
        assert_eq!(joined.unwrap().unwrap_err().to_string(), taken(4).to_string());
        let (joined, _) = run(&[(3, 'a'), (4, 'l')]);
        let far_ahead = |kind| matches!(kind, JoinErrorKind::Unserved(Refusal::FarAhead { .. }));
        assert!(kind(joined).is_some_and(far_ahead));
        assert!(run(&[]).0.is_none());
    }

    #[test]
    fn another_failure_ends_the_search() {
        let (joined, tried) = run(&[(3, 'f'), (4, ' ')]);
        assert!(matches!(kind(joined), Some(JoinErrorKind::BadNumber)));
        assert_eq!(tried, [(3, false)]);
    }
}
