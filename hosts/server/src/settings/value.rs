//! The values of settings, as they are written and read.
use krl::store::LogWrites;
use krl::{Address, Identity, Leases};
use std::ops::RangeInclusive;
use std::str::FromStr;
use std::time::Duration;
use tracing::level_filters::LevelFilter;

/// The lengths of leases that may be set.
const SECONDS: RangeInclusive<u64> = 2..=3600;

/// The greatest drift that leases may have.
const MAX_DRIFT: u32 = 100;

/// The most other servers that a page shows.
const MAX_OTHERS: usize = 63;

/// The length of the leases that clients get, or that they get none.
#[derive(Clone, Copy, Debug, PartialEq, Eq)]
pub enum LeaseLength {
    Off,
    Of(Leases),
}

/// How much further the server's clock may advance than a client's, in percent.
#[derive(Clone, Copy, Debug, PartialEq, Eq)]
pub struct Drift(u32);

impl LeaseLength {
    /// The leases with this drift, unless there are none.
    pub fn with(self, Drift(drift): Drift) -> Option<Leases> {
        match self {
            LeaseLength::Off => None,
            // A drift that was parsed is one that leases may have.
            LeaseLength::Of(leases) => leases.with_drift(drift).ok(),
        }
    }
}

/// Where the status is served, or that it is not.
#[derive(Clone, Debug, PartialEq, Eq)]
pub enum StatusAddress {
    Off,
    At(Address),
}

/// How events are written.
#[derive(Clone, Copy, Debug, PartialEq, Eq)]
pub enum LogFormat {
    Text,
    Json,
}

/// A value whose type has a parser.
pub fn parsed<T: FromStr>(text: &str) -> Option<T> {
    text.parse().ok()
}

pub fn parse_seconds(text: &str) -> Option<Duration> {
    text.parse().ok().filter(|seconds| SECONDS.contains(seconds)).map(Duration::from_secs)
}

pub fn parse_status(text: &str) -> Option<StatusAddress> {
    match text {
        "off" => Some(StatusAddress::Off),
        _ => parsed(text)
            .filter(|address| !matches!(address, Address::Unix(_)))
            .map(StatusAddress::At),
    }
}

/// The status ports of other servers of the table. The addresses are judged when they are opened,
/// since that takes the files of TLS.
pub fn parse_others(text: &str) -> Option<Vec<String>> {
    let ports: Vec<_> = text.split_whitespace().map(str::to_string).collect();
    (ports.len() <= MAX_OTHERS).then_some(ports)
}

/// Users of the machine, by number, and what each may send over a Unix socket.
pub fn parse_users(text: &str) -> Option<Vec<(u32, Identity)>> {
    let user = |word: &str| {
        let (number, identity) = word.split_once('=')?;
        Some((number.parse().ok()?, identity.parse().ok()?))
    };
    text.split_whitespace().map(user).collect()
}

/// The parser of a value that is one of these words.
fn one_of<T: Copy, const COUNT: usize>(words: [(&str, T); COUNT], text: &str) -> Option<T> {
    words.into_iter().find(|(word, _)| *word == text).map(|(_, value)| value)
}

pub fn parse_yes_no(text: &str) -> Option<bool> {
    one_of([("yes", true), ("no", false)], text)
}

pub fn parse_log_writes(text: &str) -> Option<LogWrites> {
    one_of([("joined", LogWrites::Joined), ("single", LogWrites::Single)], text)
}

pub fn parse_lease(text: &str) -> Option<LeaseLength> {
    if text == "off" {
        return Some(LeaseLength::Off);
    }
    let length = match text.strip_suffix("ms") {
        Some(milliseconds) => Duration::from_millis(milliseconds.parse().ok()?),
        None => Duration::from_secs(text.strip_suffix('s')?.parse().ok()?),
    };
    Leases::of(length).ok().map(LeaseLength::Of)
}

pub fn parse_drift(text: &str) -> Option<Drift> {
    text.parse().ok().filter(|drift| *drift <= MAX_DRIFT).map(Drift)
}

pub fn parse_level(text: &str) -> Option<LevelFilter> {
    // The parser of levels takes other words too.
    let is_level = ["error", "warn", "info", "debug", "trace"].contains(&text);
    is_level.then(|| text.parse().ok())?
}

pub fn parse_format(text: &str) -> Option<LogFormat> {
    one_of([("text", LogFormat::Text), ("json", LogFormat::Json)], text)
}

#[cfg(test)]
mod tests {
    use super::*;

    #[test]
    fn a_lease_is_off_or_has_a_length_with_its_unit() {
        assert_eq!(parse_lease("off"), Some(LeaseLength::Off));
        for (text, milliseconds) in
            [("10s", 10_000), ("300ms", 300), ("1500ms", 1500), ("86400s", 86_400_000)]
        {
            let leases = Leases::of(Duration::from_millis(milliseconds)).unwrap();
            assert_eq!(parse_lease(text), Some(LeaseLength::Of(leases)));
        }
        for text in ["", "10", "0s", "299ms", "86401s", "10 s", "-1s", "1m", "on"] {
            assert_eq!(parse_lease(text), None, "{text}");
        }
        assert_eq!([parse_drift("0"), parse_drift("100")].map(|it| it.is_some()), [true; 2]);
        assert_eq!([parse_drift("101"), parse_drift("")], [None; 2]);
    }
}
