//! How far something reaches, by few questions.

/// It does not reach as far as was asked.
#[derive(Clone, Copy, Debug, PartialEq, Eq)]
pub(super) struct TooFar;

/// How much farther each question goes than the one before, until the end was passed. A greater
/// factor asks fewer questions, each about more rows.
const GROWTH: u64 = 16;

/// The greatest distance up to the limit that is reached. With each distance all shorter ones are.
///
/// `ask` answers of a distance whether it is reached: `None` if it is, or where the end is, or that
/// it is too far.
pub(super) fn farthest(limit: u64, mut ask: impl FnMut(u64) -> Result<Option<u64>, TooFar>) -> u64 {
    let (mut reached, mut too_far) = (0, None);
    while let Some(distance) = next_distance(reached, too_far, limit) {
        match ask(distance) {
            Ok(None) => reached = distance,
            Ok(Some(end)) => return end,
            Err(TooFar) => too_far = Some(distance),
        }
    }
    reached
}

/// The distance to ask about next, or none if the greatest one is known.
fn next_distance(reached: u64, too_far: Option<u64>, limit: u64) -> Option<u64> {
    let next = match too_far {
        Some(too_far) => u64::midpoint(reached, too_far),
        None => reached.saturating_mul(GROWTH).max(1).min(limit),
    };
    (next > reached).then_some(next)
}

#[cfg(test)]
mod tests {
    use super::{TooFar, farthest};

    /// Limits and ends, each end with every limit.
    fn cases() -> impl Iterator<Item = (u64, u64)> {
        let limits = [0, 1, 2, 7, 8, 16, 17, 1000, u64::MAX / 2, u64::MAX];
        let ends = [0, 1, 2, 3, 6, 7, 8, 15, 16, 17, 500, 1000, u64::MAX / 4, u64::MAX - 1];
        limits.into_iter().flat_map(move |limit| ends.into_iter().map(move |end| (limit, end)))
    }

    #[test]
    fn the_greatest_distance_that_is_reached_is_found() {
        for (limit, end) in cases() {
            let by_halves =
                farthest(limit, |distance| if distance <= end { Ok(None) } else { Err(TooFar) });
            assert_eq!(by_halves, limit.min(end), "limit {limit}, end {end}");
            let at_once = farthest(limit, |distance| Ok((distance > end).then_some(end)));
            assert_eq!(at_once, limit.min(end), "limit {limit}, end {end}");
        }
    }

    #[test]
    fn few_questions_are_asked() {
        let mut questions = 0;
        farthest(u64::MAX, |distance| {
            questions += 1;
            Ok((distance > 1 << 40).then_some(1 << 40))
        });
        assert!(questions <= 12, "{questions} questions");
    }
}
