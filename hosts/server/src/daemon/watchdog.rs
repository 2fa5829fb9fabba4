//! The service manager's watchdog: it restarts a service that does not report for too long.
use crate::process::role::Role;
use krl::operate::Liveness;
use sd_notify::NotifyState;
use std::io;
use std::time::Duration;

/// How many reports are sent in the time of a watchdog: one that is late is in time.
const REPORTS: u32 = 4;

/// Reports to the service manager for as long as the process is alive, if the manager has a
/// watchdog for this service.
pub fn start(role: Role) -> io::Result<()> {
    let mut microseconds = 0;
    if !sd_notify::watchdog_enabled(false, &mut microseconds) {
        return Ok(());
    }
    role.watch("watchdog", Duration::from_micros(microseconds) / REPORTS, |state| {
        if is_alive(state.liveness()) {
            // A manager that gets no report restarts the service, which is all that can be done.
            let _ = sd_notify::notify(false, &[NotifyState::Watchdog]);
        }
    })
}

/// Whether the process continues. One that does not serve does.
fn is_alive(liveness: Option<Liveness>) -> bool {
    liveness.is_none_or(Liveness::is_alive)
}

#[cfg(test)]
mod tests {
    use super::*;

    #[test]
    fn a_server_whose_store_hangs_is_not_alive() {
        assert!(is_alive(None), "it starts, or stands by");
        let waited = Duration::from_millis(1500);
        assert!(is_alive(Some(Liveness::WaitsForStore { waited })));
        assert!(!is_alive(Some(Liveness::StoreHangs { waited, longest: Duration::from_secs(1) })));
    }
}
