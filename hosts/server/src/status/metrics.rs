//! The figures of a process, as Prometheus reads them.
use super::backup;
use super::shown::Shown;
use crate::process::role::State;
use crate::process::{log, reload};
use krl::operate::Certificate;
use std::fmt::Display;
use std::time::{SystemTime, UNIX_EPOCH};

/// The figures of the server, if one serves, and those of the process.
pub fn metrics(shown: &Shown, state: &State) -> String {
    let mut text = match state {
        State::Serves { monitor, .. } => monitor.metrics(),
        _ => String::new(),
    };
    text.push_str(&process_as_metrics(state));
    if let Some(tls) = &shown.certificate {
        text.push_str(&certificate_as_metrics(&tls.certificate(), SystemTime::now()));
    }
    text
}

/// How many seconds the certificate is still valid; below 0 once it has expired.
pub fn seconds_left(certificate: &Certificate, now: SystemTime) -> i64 {
    let now = now.duration_since(UNIX_EPOCH).unwrap_or_default().as_secs();
    certificate.expires.saturating_sub(i64::try_from(now).unwrap_or(i64::MAX))
}

fn certificate_as_metrics(certificate: &Certificate, now: SystemTime) -> String {
    let expires = "How long the server's certificate is still valid; negative once it has expired";
    let refused = "How often SIGHUP found certificates that can't be used";
    let left = Some(seconds_left(certificate, now));
    metric("krl_certificate_expires_seconds", "gauge", expires, left)
        + &metric(
            "krl_certificate_reloads_refused_total",
            "counter",
            refused,
            Some(reload::refused()),
        )
}

fn process_as_metrics(state: &State) -> String {
    let serves = u8::from(matches!(state, State::Serves { .. }));
    let leader = "Whether this process serves: 1, or stands by: 0.";
    let lost = "Lines of the log that could not be written";
    let backup = "When this process last made a backup, in seconds since 1970";
    metric("krl_leader", "gauge", leader, Some(serves))
        + &metric("krl_log_lost_total", "counter", lost, Some(log::lost()))
        + &metric("krl_last_backup_timestamp_seconds", "gauge", backup, backup::last())
}

/// A metric as Prometheus reads it, which may have no value yet.
fn metric(name: &str, kind: &str, help: &str, value: Option<impl Display>) -> String {
    let line = value.map_or_else(String::new, |value| format!("{name} {value}\n"));
    format!("# HELP {name} {help}\n# TYPE {name} {kind}\n{line}")
}
