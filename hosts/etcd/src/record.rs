//! A client's record in etcd.
use krl::Outcome;
use krl::store::Record;

/// How an outcome is written.
const OUTCOMES: [(Outcome, &str); 5] = [
    (Outcome::Applied, "applied"),
    (Outcome::Exists, "exists"),
    (Outcome::Absent, "absent"),
    (Outcome::NotHeld, "not-held"),
    (Outcome::Full, "full"),
];

const NOTHING: &str = "-";
const LEFT: &str = "left";
const HERE: &str = "here";

/// The record as text: `PLACE INCARNATION LAST OUTCOME here`. `place` counts the clients that
/// registered before it did first.
pub(crate) fn encode(place: usize, record: &Record) -> String {
    let stays = if record.left { LEFT } else { HERE };
    let (number, outcome) = record.last.map_or((0, NOTHING), |(number, outcome)| {
        let word = OUTCOMES.iter().find(|(of, _)| *of == outcome);
        (number, word.map_or(NOTHING, |(_, word)| *word))
    });
    format!("{place} {} {number} {outcome} {stays}", record.incarnation)
}

/// The record of the client, and its place, if the text is one.
pub(crate) fn decode(client: u8, text: &str) -> Option<(usize, Record)> {
    let words: Vec<&str> = text.split(' ').collect();
    let [place, incarnation, number, outcome, stays] = words[..] else { return None };
    let outcome = OUTCOMES.iter().find(|(_, word)| *word == outcome).map(|(outcome, _)| *outcome);
    let last = outcome.map(|outcome| number.parse().map(|number| (number, outcome)));
    let record = Record {
        client,
        incarnation: incarnation.parse().ok()?,
        last: last.transpose().ok()?,
        left: stays == LEFT,
    };
    let place = place.parse().ok()?;
    (client < 64 && encode(place, &record) == text).then_some((place, record))
}

#[cfg(test)]
mod tests {
    use super::*;

    #[test]
    fn records_are_read_as_they_are_written() {
        for (place, (outcome, _)) in OUTCOMES.into_iter().enumerate() {
            for last in [None, Some((u64::MAX, outcome))] {
                let record = Record { client: 9, incarnation: 5, last, left: place % 2 == 1 };
                assert_eq!(decode(9, &encode(place, &record)), Some((place, record)));
            }
        }
        for text in [
            "",
            "0 1 0 - gone",
            "0 1 0 here",
            "0 1 3 - here",
            "0 1 3 other here",
            "0 +1 0 - here",
            "0 1 03 applied here",
        ] {
            assert_eq!(decode(9, text), None, "{text}");
        }
        assert_eq!(decode(64, "0 1 0 - here"), None);
    }
}
