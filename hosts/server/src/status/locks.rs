//! Who holds what: the question, and its answer as text and as JSON.
use super::paths::LOCKS;
use crate::process::output::numbers;
use form_urlencoded::parse;
use krl::END;
use krl::operate::Locks;
use krl::operate::{HeldSlot, Wait};
use serde_json::json;
use std::ops::{Range, RangeInclusive};
use std::time::Duration;

/// The most slots that are reported by default.
pub const LIMIT: usize = 1000;

/// The limits that may be asked for.
const LIMITS: RangeInclusive<usize> = 64..=10_000;

/// A wait of this length is long.
pub const LONG_WAIT: Duration = Duration::from_secs(10);

/// One past the last point.
pub const TOP: u64 = END + 1;

/// What is asked for: the slots that meet the points, and at most this many.
#[derive(Clone, Debug, PartialEq, Eq)]
pub struct Question {
    pub points: Range<u64>,
    pub limit: usize,
}

impl Question {
    pub fn new(points: Range<u64>, limit: usize) -> Result<Question, String> {
        let Range { start: lo, end: hi } = points;
        if lo >= hi || hi > TOP {
            return Err(format!(
                "the range is {lo} to {hi}: it has to begin below its end, {TOP} at most"
            ));
        }
        if !LIMITS.contains(&limit) {
            let (least, most) = LIMITS.into_inner();
            return Err(format!("the limit is {limit}: it has to be {least} to {most}"));
        }
        Ok(Question { points, limit })
    }

    /// The question of a request: `lo=10&hi=20&limit=100`; each part may be left out.
    pub fn of_query(query: &str) -> Result<Question, String> {
        let (mut points, mut limit) = (0..TOP, LIMIT);
        for (name, value) in parse(query.as_bytes()) {
            match &*name {
                "lo" => points.start = number(&name, &value)?,
                "hi" => points.end = number(&name, &value)?,
                "limit" => limit = number(&name, &value)?,
                _ => return Err(format!("'{name}' is unknown: there is lo, hi and limit")),
            }
        }
        Question::new(points, limit)
    }

    /// The points that a request for a picture names: `lo=10&hi=20`; each part may be left out.
    pub fn points_of_query(query: &str) -> Result<Range<u64>, String> {
        match parse(query.as_bytes()).find(|(name, _)| name != "lo" && name != "hi") {
            Some((name, _)) => Err(format!("'{name}' is unknown: there is lo and hi")),
            None => Question::of_query(query).map(|question| question.points),
        }
    }

    pub fn path(&self) -> String {
        let Question { points, limit } = self;
        format!("{LOCKS}?lo={}&hi={}&limit={limit}", points.start, points.end)
    }

    pub fn as_json(&self, locks: &Locks) -> String {
        let held = |slot: &HeldSlot| {
            let HeldSlot { lo, hi, mode, client, .. } = slot;
            json!({ "lo": lo, "hi": end_as_json(*hi), "mode": mode.name(), "client": client })
        };
        let text = json!({
            "lo": self.points.start,
            "hi": end_as_json(self.points.end),
            "locks": locks.held.iter().map(held).collect::<Vec<_>>(),
            "waits": locks.waits.iter().map(wait_as_json).collect::<Vec<_>>(),
            "next": locks.next,
            "is_of_one_moment": locks.is_of_one_moment,
        });
        format!("{text:#}\n")
    }

    pub fn as_text(&self, locks: &Locks) -> String {
        let mut lines = vec![line(["from", "below", "mode", "client"])];
        lines.extend(locks.held.iter().map(|slot| {
            let HeldSlot { lo, hi, mode, client, .. } = slot;
            line([&lo.to_string(), &hi.to_string(), mode.name(), &client.to_string()])
        }));
        lines.extend(locks.waits.iter().map(waiting));
        if !locks.is_of_one_moment {
            lines.push("the server continued meanwhile: this is not of one moment".to_string());
        }
        if let Some(next) = locks.next {
            let hi = self.points.end;
            lines.push(format!("there are more from {next} on: ask for {next} to {hi}"));
        }
        lines.join("\n") + "\n"
    }
}

/// Who waits, for what and for whom.
pub fn wait_as_json(wait: &Wait) -> serde_json::Value {
    json!({
        "client": wait.client,
        "point": wait.point,
        "hi": end_as_json(wait.hi),
        "mode": wait.mode.name(),
        "waited_seconds": wait.waited.as_secs_f64(),
        "waits_for": wait.waits_for,
    })
}

/// The end of a range in JSON. That of the whole table, 2^63, is null: it is above the integers of
/// many readers.
pub fn end_as_json(end: u64) -> Option<u64> {
    (end < TOP).then_some(end)
}

fn number<N: std::str::FromStr>(name: &str, value: &str) -> Result<N, String> {
    value.parse().map_err(|_| format!("{name} is '{value}': it has to be a number from 0 on"))
}

fn line([lo, hi, mode, client]: [&str; 4]) -> String {
    format!("{lo:>19} {hi:>19} {mode:<8} {client:>6}")
}

fn waiting(wait: &Wait) -> String {
    let Wait { client, point, hi, mode, waited, .. } = wait;
    let (whom, ms) = (whom(wait), waited.as_millis());
    format!("client {client} waits for {whom}: {mode} from {point} below {hi}, for {ms} ms")
}

/// The clients that this one waits for, in words.
pub fn whom(wait: &Wait) -> String {
    if wait.waits_for.is_empty() { "nobody".to_string() } else { numbers(&wait.waits_for) }
}

#[cfg(test)]
mod tests {
    use super::*;
    use krl::operate::Mode;

    fn question(points: Range<u64>, limit: usize) -> Question {
        Question { points, limit }
    }

    #[test]
    fn queries() {
        assert_eq!(Question::of_query(""), Ok(question(0..TOP, LIMIT)));
        assert_eq!(Question::of_query("lo=10&hi=2%30"), Ok(question(10..20, LIMIT)));
        assert_eq!(Question::of_query("limit=64&hi=20"), Ok(question(0..20, 64)));
        let last = question(END..TOP, LIMIT);
        assert_eq!(Question::of_query(&last.path()[LOCKS.len() + 1..]), Ok(last));
        for (query, message) in [
            ("lo=20&hi=20", "begin below its end"),
            ("lo=21&hi=20", "begin below its end"),
            ("hi=9223372036854775809", "9223372036854775808 at most"),
            ("lo=ten", "lo is 'ten': it has to be a number"),
            ("hi=-1", "hi is '-1'"),
            ("hi=", "hi is ''"),
            ("limit=63", "it has to be 64 to 10000"),
            ("limit=10001", "it has to be 64 to 10000"),
            ("low=1", "'low' is unknown: there is lo, hi and limit"),
        ] {
            let refused = Question::of_query(query).unwrap_err();
            assert!(refused.contains(message), "{query}: {refused}");
        }
    }

    #[test]
    fn queries_for_pictures() {
        assert_eq!(Question::points_of_query(""), Ok(0..TOP));
        assert_eq!(Question::points_of_query("lo=10&hi=20"), Ok(10..20));
        let refused = Question::points_of_query("limit=64").unwrap_err();
        assert_eq!(refused, "'limit' is unknown: there is lo and hi");
        assert!(Question::points_of_query("lo=20&hi=10").is_err());
    }

    fn locks() -> Locks {
        let waited = Duration::from_millis(40);
        let mut locks = Locks::default();
        locks.held =
            vec![HeldSlot::new(1, 0..11, Mode::RangeSS), HeldSlot::new(2, 11..TOP, Mode::X)];
        locks.waits = vec![Wait::new(3, 10..20, Mode::RangeXX, waited, vec![1, 2])];
        locks.is_of_one_moment = true;
        locks
    }

    #[test]
    fn text() {
        let question = question(0..20, 64);
        let whole = "               from               below mode     client\n\
                     \x20                 0                  11 RangeS-S      1\n\
                     \x20                11 9223372036854775808 X             2\n\
                     client 3 waits for 1, 2: RangeX-X from 10 below 20, for 40 ms\n";
        assert_eq!(question.as_text(&locks()), whole);
        let mut part = locks();
        (part.next, part.is_of_one_moment) = (Some(7), false);
        let part = question.as_text(&part);
        let notes = part.strip_prefix(whole).unwrap();
        assert!(notes.contains("not of one moment\n"), "{notes}");
        assert!(notes.ends_with("there are more from 7 on: ask for 7 to 20\n"), "{notes}");
    }
}
