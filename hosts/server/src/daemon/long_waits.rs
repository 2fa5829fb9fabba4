//! Clients that wait for a long time, in the log.
use crate::process::role::{Role, State};
use crate::status::locks::LONG_WAIT;
use krl::operate::Wait;
use std::collections::BTreeMap;
use std::io;
use std::time::Duration;

/// How often the waits are looked at.
const WAITS_PERIOD: Duration = Duration::from_secs(1);

/// The clients whose waits were reported as long, and for how long each had waited when last seen.
#[derive(Debug, Default)]
struct LongWaits(BTreeMap<u8, Duration>);

/// What there is to report.
#[derive(Clone, Debug, PartialEq, Eq)]
enum News {
    IsLong(Wait),
    HasEnded { client: u8, waited: Duration },
}

/// Logs long waits from now on, while the process serves: each once as it becomes long, and once
/// when it has ended.
pub fn start(role: Role) -> io::Result<()> {
    let mut waits = LongWaits::default();
    role.watch("long-waits", WAITS_PERIOD, move |state| {
        let now = match state {
            State::Serves { monitor, .. } => monitor.status().waits,
            _ => Vec::new(),
        };
        waits.look(&now).iter().for_each(News::log);
    })
}

impl LongWaits {
    /// Takes the waits of this moment, and gives what is new of long ones. A client has one request
    /// at a time: if it has waited for less than before, that is another one.
    fn look(&mut self, now: &[Wait]) -> Vec<News> {
        let waits_on = |client: u8, before: Duration| {
            now.iter().any(|wait| wait.client == client && wait.waited >= before)
        };
        let mut news = Vec::new();
        self.0.retain(|&client, &mut waited| {
            let goes_on = waits_on(client, waited);
            if !goes_on {
                news.push(News::HasEnded { client, waited });
            }
            goes_on
        });
        for wait in now.iter().filter(|wait| wait.waited >= LONG_WAIT) {
            if self.0.insert(wait.client, wait.waited).is_none() {
                news.push(News::IsLong(wait.clone()));
            }
        }
        news
    }
}

impl News {
    fn log(&self) {
        match self {
            News::IsLong(Wait { client, point, hi, mode, waited, waits_for, .. }) => {
                let others = waits_for.iter().map(u8::to_string).collect::<Vec<_>>().join(",");
                let seconds = waited.as_secs();
                tracing::warn!(
                    client, waits_for = %others, mode = mode.name(), lo = point, hi, seconds,
                    "a client has waited for a long time"
                );
            }
            News::HasEnded { client, waited } => {
                tracing::info!(client, seconds = waited.as_secs(), "a long wait has ended");
            }
        }
    }
}

#[cfg(test)]
mod tests {
    use super::*;

    fn wait(client: u8, seconds: u64) -> Wait {
        let waited = Duration::from_secs(seconds);
        Wait::new(client, 15..16, krl::operate::Mode::X, waited, vec![3])
    }

    #[test]
    fn a_wait_is_logged_as_it_becomes_long_and_when_it_has_ended() {
        let mut waits = LongWaits::default();
        assert_eq!(waits.look(&[wait(7, 9)]), []);
        assert_eq!(waits.look(&[wait(7, 10), wait(8, 1)]), [News::IsLong(wait(7, 10))]);
        assert_eq!(waits.look(&[wait(7, 11), wait(8, 2)]), []);
        let ended =
            |client, seconds| News::HasEnded { client, waited: Duration::from_secs(seconds) };
        assert_eq!(waits.look(&[wait(8, 12)]), [ended(7, 11), News::IsLong(wait(8, 12))]);
        assert_eq!(waits.look(&[]), [ended(8, 12)]);
        assert_eq!(waits.look(&[]), []);
    }

    #[test]
    fn another_request_of_the_same_client_is_another_wait() {
        let mut waits = LongWaits::default();
        waits.look(&[wait(7, 20)]);
        let ended = |seconds| News::HasEnded { client: 7, waited: Duration::from_secs(seconds) };
        assert_eq!(waits.look(&[wait(7, 1)]), [ended(20)]);
        waits.look(&[wait(7, 30)]);
        assert_eq!(waits.look(&[wait(7, 15)])[..1], [ended(30)]);
        assert_eq!(waits.look(&[wait(7, 16)]), []);
    }
}
