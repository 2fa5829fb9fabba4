//! The other servers of a table: those that stand by, and those of other shards.
//!
//! While somebody watches the page of a server, that server asks the status ports of the others for
//! their state. A slow or silent one keeps neither the page nor the others waiting.
use super::http;
use super::paths::{JSON, STATUS_AS_JSON};
use super::report::Report;
use crate::settings::StatusPort;
use std::sync::{Arc, Mutex, MutexGuard, PoisonError};
use std::time::{Duration, Instant};
use tokio::time::{sleep, timeout};

/// The time between two requests to a server.
const ASK_PERIOD: Duration = Duration::from_secs(1);

/// How long a server may take to answer.
const PEER_WAIT: Duration = Duration::from_secs(3);

/// How long a page waits for servers that have never answered.
const FIRST_ANSWERS_WAIT: Duration = Duration::from_millis(500);

/// How often a page that waits looks whether they have answered.
const ANSWERS_PERIOD: Duration = Duration::from_millis(10);

/// The other servers, and what each has answered last.
#[derive(Clone, Debug, Default)]
pub struct Others(Arc<Shared>);

#[derive(Debug, Default)]
struct Shared {
    ports: Vec<StatusPort>,
    /// What is known of each of them.
    seen: Mutex<Vec<Seen>>,
}

/// What is known of another server.
#[derive(Clone, Debug, Default)]
struct Seen {
    asked: Option<Instant>,
    /// An answer to the last question is on its way.
    is_asked: bool,
    answer: Option<Answer>,
}

/// The state of a server, or a sentence that explains why it is not known.
pub type Answer = Result<Report, String>;

/// Another server.
#[derive(Clone, Debug, PartialEq, Eq)]
pub struct Other {
    /// Its page.
    pub url: String,
    /// What it has answered last; none if that has not come yet.
    pub answer: Option<Answer>,
}

impl Others {
    pub fn new(ports: Vec<StatusPort>) -> Others {
        let seen = Mutex::new(vec![Seen::default(); ports.len()]);
        Others(Arc::new(Shared { ports, seen }))
    }

    /// What they have answered last. Those that have not been asked for a second are asked again.
    pub async fn look(&self) -> Vec<Other> {
        self.ask(Instant::now());
        let _ = timeout(FIRST_ANSWERS_WAIT, self.all_have_answered()).await;
        let seen = self.lock();
        let others = self.0.ports.iter().zip(seen.iter());
        others.map(|(port, seen)| Other { url: port.url(), answer: seen.answer.clone() }).collect()
    }

    async fn all_have_answered(&self) {
        while self.lock().iter().any(|seen| seen.answer.is_none()) {
            sleep(ANSWERS_PERIOD).await;
        }
    }

    /// Asks those whose turn it is.
    fn ask(&self, now: Instant) {
        for (place, seen) in self.lock().iter_mut().enumerate() {
            if seen.is_due(now) {
                (seen.asked, seen.is_asked) = (Some(now), true);
                tokio::spawn(self.clone().ask_one(place));
            }
        }
    }

    async fn ask_one(self, place: usize) {
        let answer = ask(&self.0.ports[place]).await;
        let seen = &mut self.lock()[place];
        (seen.is_asked, seen.answer) = (false, Some(answer));
    }

    fn lock(&self) -> MutexGuard<'_, Vec<Seen>> {
        self.0.seen.lock().unwrap_or_else(PoisonError::into_inner)
    }
}

impl Seen {
    fn is_due(&self, now: Instant) -> bool {
        let is_old = |asked| now.saturating_duration_since(asked) >= ASK_PERIOD;
        !self.is_asked && self.asked.is_none_or(is_old)
    }
}

async fn ask(port: &StatusPort) -> Answer {
    let reply = http::fetch(port, STATUS_AS_JSON, JSON, PEER_WAIT).await?;
    let text = reply.page_of(port)?;
    report_of(&text).map_err(|error| format!("{port} is not a status port of krl: {error}"))
}

fn report_of(text: &str) -> serde_json::Result<Report> {
    serde_json::from_str(text)
}

#[cfg(test)]
mod tests {
    use super::*;

    #[test]
    fn a_server_is_asked_once_in_a_second_and_not_while_an_answer_is_on_its_way() {
        let now = Instant::now();
        let mut seen = Seen::default();
        assert!(seen.is_due(now));
        (seen.asked, seen.is_asked) = (Some(now), true);
        assert!(!seen.is_due(now + ASK_PERIOD));
        seen.is_asked = false;
        assert!(!seen.is_due(now + ASK_PERIOD / 2) && seen.is_due(now + ASK_PERIOD));
    }

    #[test]
    fn a_report_may_lack_what_a_process_that_stands_by_does_not_know() {
        let text = r#"{ "version": "0.1.0", "role": "stands by", "leader": "10.0.0.1:7400" }"#;
        let report = report_of(text).unwrap();
        assert_eq!((report.role.as_str(), report.epoch), ("stands by", 0));
        assert_eq!(report.leader.as_deref(), Some("10.0.0.1:7400"));
        let text =
            r#"{ "role": "serves", "shard": null, "clients": [{ "client": 3 }], "waits": [] }"#;
        let report = report_of(text).unwrap();
        assert_eq!((report.clients, report.waits, report.shard), (1, 0, None));
    }

    /// Otherwise its row would be empty.
    #[test]
    fn an_answer_without_a_role_is_none() {
        for text in ["{}", r#"{ "phase": "zoo" }"#] {
            let why = report_of(text).unwrap_err().to_string();
            assert!(why.contains("missing field `role`"), "{text}: {why}");
        }
        assert!(report_of("[]").is_err());
    }
}
