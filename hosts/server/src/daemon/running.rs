//! A server that runs: how it starts, what is reported of it, and what stops it.
use super::new_store::AskedFor;
use crate::process::role::Role;
use crate::settings::Settings;
use krl::error::ServeError;
use krl::store::Store;
use krl::{Access, Listener, Server};
use sd_notify::NotifyState;
use signal_hook::consts::{SIGINT, SIGTERM};
use signal_hook::flag::{register, register_conditional_shutdown};
use signal_hook::low_level::signal_name;
use std::error::Error;
use std::fmt;
use std::io;
use std::sync::Arc;
use std::sync::atomic::{AtomicBool, AtomicUsize, Ordering};
use std::time::Duration;

/// How often the server is asked whether it still runs, and whether it is to stop.
const CHECK_PERIOD: Duration = Duration::from_millis(20);

/// The exit status of a process that a second signal ends.
const ENDED_AT_ONCE: i32 = 1;

/// Reports to the log and the service manager that another server serves, which clients reach at
/// this address. One that stands by has started: otherwise its manager would wait, and end it in
/// the end.
pub fn stands_by(leader: &str) {
    tracing::info!(%leader, "stands by");
    let status = format!("stands by: the server at {leader} serves");
    notify(&[NotifyState::Ready, NotifyState::Status(&status)]);
}

/// A process that serves, or stands by.
pub struct Daemon<'s> {
    pub settings: &'s Settings,
    /// Whom a server lets in.
    pub access: Access,
    pub signal: Signal,
    pub role: Role,
}

/// A server had started, and has failed. The log has reported why.
#[derive(Debug)]
pub struct HasFailed(pub ServeError);

impl fmt::Display for HasFailed {
    fn fmt(&self, f: &mut fmt::Formatter<'_>) -> fmt::Result {
        self.0.fmt(f)
    }
}

impl Error for HasFailed {}

/// How a server that did not fail has ended.
#[derive(Clone, Copy, Debug, PartialEq, Eq)]
pub enum Ended {
    BySignal,
    LeaseRanOut,
}

impl Daemon<'_> {
    /// Serves what a store has, until a signal comes, or until `runs` returns false after a wait;
    /// or until the server has failed by itself.
    pub fn serve(
        &self,
        listener: Listener,
        store: impl Store + 'static,
        runs: impl Fn(Duration) -> bool,
    ) -> Result<Result<Ended, HasFailed>, ServeError> {
        let server = self.start(listener, store)?;
        self.ready(&server);
        Ok(self.until_it_ends(server, runs))
    }

    /// Starts a server with the leases, the room, the reach and the shard of the settings.
    fn start(&self, listener: Listener, store: impl Store + 'static) -> Result<Server, ServeError> {
        let settings = self.settings;
        let store = AskedFor::new(store, settings);
        let mut builder = Server::builder(listener, store).access(self.access.clone());
        builder = builder.reach(settings.reach);
        if let Some(room) = settings.room {
            builder = builder.room(room);
        }
        if let Some(shard) = settings.shard {
            builder = builder.shard(shard);
        }
        match settings.lease.with(settings.drift) {
            Some(leases) => builder.leases(leases).start(),
            None => builder.start(),
        }
    }

    /// Reports to the log, the status port and the service manager that the server serves.
    fn ready(&self, server: &Server) {
        self.role.serves(server.monitor());
        tracing::info!(
            version = env!("CARGO_PKG_VERSION"),
            epoch = server.status().epoch,
            address = %server.address(),
            store = %self.settings.store,
            room = %server.room(),
            reach = %server.reach(),
            shard = server.status().shard.map(tracing::field::display),
            "ready"
        );
        let status = format!("serves at {}", server.address());
        notify(&[NotifyState::Ready, NotifyState::Status(&status)]);
    }

    fn until_it_ends(
        &self,
        server: Server,
        runs: impl Fn(Duration) -> bool,
    ) -> Result<Ended, HasFailed> {
        let mut ended = Ended::BySignal;
        while server.is_running() && !self.signal.has_come() {
            if !runs(CHECK_PERIOD) {
                ended = Ended::LeaseRanOut;
                break;
            }
        }
        if self.signal.has_come() {
            notify(&[NotifyState::Stopping]);
        }
        server.stop().map_err(HasFailed)?;
        Ok(ended)
    }
}

/// Notifies the service manager, if there is one.
fn notify(state: &[NotifyState]) {
    if let Err(error) = sd_notify::notify(false, state) {
        tracing::warn!(%error, "the service manager was not notified");
    }
}

/// The signal to stop. A second one ends it at once.
pub struct Signal {
    number: Arc<AtomicUsize>,
}

impl Signal {
    pub fn catch() -> io::Result<Signal> {
        let (came, number) = (Arc::new(AtomicBool::new(false)), Arc::new(AtomicUsize::new(0)));
        for signal in [SIGTERM, SIGINT] {
            // This acts on a signal only if the flag is up, so it stands before what raises it.
            register_conditional_shutdown(signal, ENDED_AT_ONCE, Arc::clone(&came))?;
            register(signal, Arc::clone(&came))?;
            let value = usize::try_from(signal).unwrap_or_default();
            signal_hook::flag::register_usize(signal, Arc::clone(&number), value)?;
        }
        Ok(Signal { number })
    }

    pub fn has_come(&self) -> bool {
        self.name().is_some()
    }

    pub fn name(&self) -> Option<&'static str> {
        match i32::try_from(self.number.load(Ordering::Relaxed)) {
            Ok(0) | Err(_) => None,
            Ok(signal) => Some(signal_name(signal).unwrap_or("a signal")),
        }
    }
}
