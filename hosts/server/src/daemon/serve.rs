//! A server, from its start until it is stopped.
use super::new_store;
use super::owner::Owner;
use super::running::{Daemon, HasFailed, Signal};
use super::{long_waits, map_watch, open_files, stand_by, watchdog};
use crate::process::Done;
use crate::process::log::{self, Unanswered};
use crate::process::output::{self, cause};
use crate::process::reload;
use crate::process::role::Role;
use crate::settings::{BadSetting, Settings, StatusAddress, StorePlace};
use crate::status::others::Others;
use crate::status::port;
use crate::status::shown::Table;
use krl::error::ServeError;
use krl::store::{Store, StoreError};
use krl::{Listener, SqliteStore};
use krl_postgres::{PostgresAddress, PostgresStore};
use std::error::Error;
use std::path::Path;
use std::process::ExitCode;
use std::thread;

/// The exit status of a server whose store lacks what a client has seen. A service manager does not
/// start it again: over the same store it would serve, and nobody might notice.
const OLDER_STORE: u8 = 3;

/// Serves until a signal comes, and then shuts down cleanly. What goes wrong is logged.
pub fn serve(settings: &Settings) -> ExitCode {
    let _log = match log::start(settings) {
        Ok(log) => log,
        Err(error) => {
            output::report(&format!("there is no thread for the log: {error}"));
            return ExitCode::FAILURE;
        }
    };
    match run(settings) {
        Ok(()) => {
            tracing::info!("stopped");
            ExitCode::SUCCESS
        }
        Err(error) => {
            if !error.is::<HasFailed>() {
                tracing::error!("{error}");
            }
            exit_status(error.as_ref())
        }
    }
}

fn exit_status(error: &(dyn Error + 'static)) -> ExitCode {
    match error.downcast_ref() {
        Some(HasFailed(ServeError::OlderStore { .. })) => ExitCode::from(OLDER_STORE),
        _ if error.is::<BadSetting>() => ExitCode::from(output::USAGE),
        _ => ExitCode::FAILURE,
    }
}

fn run(settings: &Settings) -> Done {
    open_files::allow();
    let (signal, role) = (Signal::catch()?, Role::default());
    let tls = settings.access.tls()?;
    let access = settings.access.access(tls.as_ref());
    if let Some(tls) = &tls {
        reload::log_certificate(tls, "the server shows this certificate");
    }
    reload::start(tls.clone())?;
    watchdog::start(role.clone())?;
    long_waits::start(role.clone())?;
    if let Some(map) = &settings.map {
        map_watch::start(role.clone(), map, &settings.credentials)?;
    }
    if let StatusAddress::At(address) = &settings.status {
        let table = Table { others: Others::new(settings.others()?), shard: settings.shard };
        let at = port::start(address, tls, role.clone(), table)
            .map_err(|error| format!("can't serve the status at {address}: {error}"))?;
        tracing::info!(address = %at, "status port");
    }
    let daemon = Daemon { settings, access, signal, role };
    match &settings.store {
        StorePlace::File(path) => serve_file(&daemon, path)?,
        StorePlace::Etcd(address) => stand_by::run(&daemon, address)?,
        StorePlace::Postgres(address) => serve_database(&daemon, address)?,
    }
    if let Some(signal) = daemon.signal.name() {
        tracing::info!(signal, "stopping");
    }
    Ok(())
}

/// Serves what a file has, which no other process serves meanwhile.
fn serve_file(daemon: &Daemon<'_>, path: &Path) -> Done {
    let settings = daemon.settings;
    let fails = |error: StoreError| {
        format!("the store {} can't be opened: {}", path.display(), cause(&error))
    };
    // Next to a file of another program, and where there is none, no lock file is left.
    new_store::judge_file(path, settings.may_make_store).map_err(fails)?;
    SqliteStore::judge_first_bytes(path).map_err(fails)?;
    let owner = Owner::take(path, &settings.listen)?;
    let store = SqliteStore::open_with(owner.file(), settings.store_writes).map_err(fails)?;
    serve_store(daemon, store)
}

/// Serves what a database has, once it answers.
fn serve_database(daemon: &Daemon<'_>, address: &PostgresAddress) -> Done {
    let mut store = PostgresStore::open(address, daemon.settings.credentials.user.as_ref())?;
    let mut unanswered = Unanswered::default();
    let answers = store.reach(|why| {
        unanswered.log(why);
        !daemon.signal.has_come()
    })?;
    if answers { serve_store(daemon, store) } else { Ok(()) }
}

/// Serves what a store has, until a signal comes. Nothing stands by: a server that loses the store
/// ends.
fn serve_store(daemon: &Daemon<'_>, store: impl Store + 'static) -> Done {
    let listen = &daemon.settings.listen;
    let listener = Listener::bind(listen)
        .map_err(|error| format!("can't listen for clients at {listen}: {error}"))?;
    daemon.serve(listener, store, |wait| {
        thread::sleep(wait);
        true
    })??;
    Ok(())
}
