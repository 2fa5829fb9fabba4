//! A server's state and measurements in Prometheus' text format.
use crate::server::shown::status::Status;
use crate::server::shown::timings::{Counts, Measured};
use crate::server::shown::watch::{HeldSlots, Wait};
use std::fmt::{self, Write};
use std::time::Duration;

/// The unit in which a histogram was measured, and what makes it the unit of its name.
#[derive(Clone, Copy)]
enum Unit {
    Microseconds,
    Count,
}

/// What a server shows and has measured, in Prometheus' text format.
pub(crate) fn metrics(status: &Status, measured: &Measured, since_last_turn: Duration) -> String {
    let mut page = Page(String::new());
    page.head("krl_build_info", "gauge", "The version of the krl host, as a label; always 1");
    page.line(format_args!("krl_build_info{{version=\"{}\"}} 1", env!("CARGO_PKG_VERSION")));
    page.gauges(status, since_last_turn);
    page.counters(status);
    page.closed_connections(status);
    page.clients(status);
    page.waits(status);
    page.histograms(measured);
    page.0
}

struct Page(String);

impl Page {
    /// A line of text. Writing to a string does not fail.
    fn line(&mut self, words: fmt::Arguments<'_>) {
        let _ = writeln!(self.0, "{words}");
    }

    fn head(&mut self, name: &str, kind: &str, help: &str) {
        self.line(format_args!("# HELP {name} {help}"));
        self.line(format_args!("# TYPE {name} {kind}"));
    }

    fn one(&mut self, name: &str, kind: &str, help: &str, value: u64) {
        self.head(name, kind, help);
        self.line(format_args!("{name} {value}"));
    }

    fn gauges(&mut self, status: &Status, since_last_turn: Duration) {
        let mut gauge = |name: &str, help: &str, value: u64| self.one(name, "gauge", help, value);
        gauge("krl_epoch", "How many times a server has started on this store", status.epoch);
        gauge("krl_rows", "The rows of the table", status.rows);
        gauge("krl_room_rows", "The most rows of the table", status.room.rows() as u64);
        gauge("krl_reach_slots", "The most slots of one grant", status.reach.slots() as u64);
        gauge(
            "krl_serving",
            "1 if the server answers requests, 0 if it waits for reports of clients",
            status.is_serving.into(),
        );
        gauge(
            "krl_connections",
            "The open connections, those of strangers too",
            status.connections,
        );
        let name = "krl_longest_lease_seconds";
        self.head(
            name,
            "gauge",
            "No lease that ends and may still run is longer; 0 if there are none",
        );
        self.line(format_args!("{name} {}", status.longest_lease.as_secs_f64()));
        let name = "krl_last_turn_seconds";
        self.head(name, "gauge", "How long ago the server's loop last ended a turn");
        self.line(format_args!("{name} {}", since_last_turn.as_secs_f64()));
    }

    fn counters(&mut self, status: &Status) {
        let mut counter =
            |name: &str, help: &str, value: u64| self.one(name, "counter", help, value);
        counter(
            "krl_alarms_total",
            "Reports that contradict what the server knows",
            status.alarms_raised,
        );
        counter(
            "krl_store_alarms_total",
            "Connections of clients that have seen commits which the store lacks",
            status.store_alarms,
        );
        counter("krl_messages_taken_total", "Messages of clients that were taken", status.taken);
        counter("krl_messages_sent_total", "Messages that were sent to clients", status.sent);
        counter(
            "krl_messages_refused_total",
            "Strings that were no message; each ended its connection",
            status.refused,
        );
        counter(
            "krl_denied_total",
            "Frames not allowed by a connection's certificate or user; each ended its connection",
            status.denied,
        );
        counter(
            "krl_repeats_held_back_total",
            "Repeats of a push or a callback that were not sent, as it had just been sent",
            status.held_back,
        );
        counter("krl_changes_total", "Changes that the store has committed", status.changes);
        counter("krl_commits_total", "Commits of the store", status.commits);
        counter(
            "krl_signs_total",
            "Signs of clients' hosts, which keep their leases",
            status.signs,
        );
        counter(
            "krl_evicted_total",
            "Clients that were evicted at their leases' ends",
            status.evicted,
        );
    }

    fn closed_connections(&mut self, status: &Status) {
        let name = "krl_connections_closed_total";
        self.head(name, "counter", "Connections that were closed, by reason");
        for (reason, count) in status.closed.counts() {
            self.line(format_args!("{name}{{reason=\"{reason}\"}} {count}"));
        }
    }

    fn clients(&mut self, status: &Status) {
        let name = "krl_missing";
        self.head(name, "gauge", "1 for each client that has to report before the server serves");
        for client in &status.missing {
            self.line(format_args!("{name}{{client=\"{client}\"}} 1"));
        }
        let name = "krl_connected";
        self.head(name, "gauge", "1 for each client that is connected");
        for client in &status.connected {
            self.line(format_args!("{name}{{client=\"{client}\"}} 1"));
        }
        let name = "krl_unleased";
        self.head(name, "gauge", "1 for each client that only an operator evicts");
        for client in &status.unleased {
            self.line(format_args!("{name}{{client=\"{client}\"}} 1"));
        }
        let name = "krl_held_slots";
        self.head(name, "gauge", "At how many slots each client holds something");
        for HeldSlots { client, slots } in &status.holdings {
            self.line(format_args!("{name}{{client=\"{client}\"}} {slots}"));
        }
    }

    fn waits(&mut self, status: &Status) {
        let name = "krl_wait_seconds";
        self.head(name, "gauge", "How long each client that waits for a lock has waited");
        for Wait { client, point, mode, waited, .. } in &status.waits {
            let seconds = waited.as_secs_f64();
            self.line(format_args!(
                "{name}{{client=\"{client}\",point=\"{point}\",mode=\"{mode}\"}} {seconds}"
            ));
        }
        let name = "krl_waits_for";
        self.head(name, "gauge", "1 for each client that waits for a lock and each that it awaits");
        for (client, other) in status.pairs() {
            self.line(format_args!("{name}{{client=\"{client}\",other=\"{other}\"}} 1"));
        }
    }

    fn histograms(&mut self, measured: &Measured) {
        use Unit::{Count, Microseconds};
        let Measured { grants, releases, commits, commit_changes, turns } = measured;
        self.histogram(
            "krl_grant_seconds",
            "From a client's request for a lock until it was granted",
            grants,
            Microseconds,
        );
        self.histogram(
            "krl_release_seconds",
            "From a callback to a client until a release of that client",
            releases,
            Microseconds,
        );
        self.histogram("krl_commit_seconds", "A commit of the store", commits, Microseconds);
        self.histogram("krl_commit_changes", "The changes of a commit", commit_changes, Count);
        self.histogram(
            "krl_turn_seconds",
            "A turn of the server's loop, without the time for which it waited",
            turns,
            Microseconds,
        );
    }

    fn histogram(&mut self, name: &str, help: &str, counts: &Counts, unit: Unit) {
        self.head(name, "histogram", help);
        for (bound, count) in &counts.buckets {
            let bound = unit.shows(*bound);
            self.line(format_args!("{name}_bucket{{le=\"{bound}\"}} {count}"));
        }
        self.line(format_args!("{name}_bucket{{le=\"+Inf\"}} {}", counts.count));
        self.line(format_args!("{name}_sum {}", unit.shows(counts.sum)));
        self.line(format_args!("{name}_count {}", counts.count));
    }
}

impl Unit {
    /// The number in the unit that the metric's name states.
    fn shows(self, number: u64) -> String {
        match self {
            Unit::Microseconds => Duration::from_micros(number).as_secs_f64().to_string(),
            Unit::Count => number.to_string(),
        }
    }
}

#[cfg(test)]
mod tests {
    use super::*;
    use crate::model::lock::Mode;
    use std::collections::HashSet;

    fn page() -> String {
        let wait = Wait {
            client: 3,
            point: 10,
            hi: 20,
            mode: Mode::RangeXX,
            waited: Duration::from_millis(40),
            waits_for: vec![0, 2],
        };
        let status = Status {
            epoch: 4,
            rows: 5,
            missing: vec![1],
            connected: vec![0, 3],
            waits: vec![wait],
            holdings: vec![HeldSlots { client: 2, slots: 7 }],
            commits: 9,
            signs: 12,
            unleased: vec![5],
            longest_lease: Duration::from_millis(2500),
            ..Status::default()
        };
        let commits = Counts { buckets: vec![(10, 1), (50_000, 3)], count: 4, sum: 1_500_000 };
        let measured = Measured { commits, ..Measured::default() };
        metrics(&status, &measured, Duration::from_millis(30))
    }

    #[test]
    fn each_figure_has_its_line() {
        let page = page();
        for line in [
            "krl_build_info{version=\"0.1.0\"} 1",
            "# TYPE krl_epoch gauge\nkrl_epoch 4",
            "# TYPE krl_rows gauge\nkrl_rows 5",
            "# TYPE krl_room_rows gauge\nkrl_room_rows 65536",
            "# TYPE krl_reach_slots gauge\nkrl_reach_slots 128",
            "krl_serving 0",
            "krl_last_turn_seconds 0.03",
            "krl_commits_total 9",
            "krl_missing{client=\"1\"} 1",
            "krl_connected{client=\"3\"} 1",
            "krl_wait_seconds{client=\"3\",point=\"10\",mode=\"RangeX-X\"} 0.04",
            "krl_waits_for{client=\"3\",other=\"2\"} 1",
            "krl_held_slots{client=\"2\"} 7",
            "krl_unleased{client=\"5\"} 1",
            "krl_longest_lease_seconds 2.5",
            "krl_signs_total 12",
            "krl_evicted_total 0",
            "# TYPE krl_commit_seconds histogram",
            "krl_commit_seconds_bucket{le=\"0.00001\"} 1",
            "krl_commit_seconds_bucket{le=\"0.05\"} 3",
            "krl_commit_seconds_bucket{le=\"+Inf\"} 4",
            "krl_commit_seconds_sum 1.5",
            "krl_commit_seconds_count 4",
        ] {
            assert!(page.contains(&format!("{line}\n")), "{line} is not in\n{page}");
        }
    }

    /// The family of a sample's line, as a HELP line names it.
    fn family(line: &str) -> &str {
        let name = line.split(['{', ' ']).next().unwrap_or("");
        ["_bucket", "_sum", "_count"].iter().find_map(|end| name.strip_suffix(end)).unwrap_or(name)
    }

    #[test]
    fn each_family_has_help_and_type_once_and_before_its_lines() {
        let (page, mut helped) = (page(), HashSet::new());
        let mut lines = page.lines();
        while let Some(line) = lines.next() {
            if let Some(help) = line.strip_prefix("# HELP ") {
                let (name, text) = help.split_once(' ').unwrap();
                assert!(helped.insert(name.to_string()) && !text.is_empty(), "{line}");
                let kind = lines.next().unwrap();
                assert!(kind.starts_with(&format!("# TYPE {name} ")), "{kind}");
                assert_eq!(kind.ends_with(" counter"), name.ends_with("_total"), "{kind}");
            } else {
                assert!(helped.contains(family(line)), "{line}");
            }
        }
        assert_eq!(helped.len(), 32);
    }
}
