//! Servers over a cluster: one serves, and the others stand by.
use super::running::{self, Daemon, Ended, HasFailed};
use crate::process::Done;
use crate::process::log::Unanswered;
use krl::Listener;
use krl::error::ServeError;
use krl::store::{Store, StoreError};
use krl_etcd::{Election, EtcdAddress, EtcdStore, Standing, Term};

/// Stands by, serves, and stands by again, until a signal comes.
pub fn run(daemon: &Daemon<'_>, address: &EtcdAddress) -> Done {
    let settings = daemon.settings;
    let credentials = &settings.credentials;
    let advertised = settings.advertise.as_ref().unwrap_or(&settings.listen);
    let lease = settings.election_lease;
    let election =
        Election::new(address.clone(), credentials.clone(), &advertised.to_string(), lease)?;
    let mut unanswered = Unanswered::default();
    loop {
        let mut goes_on =
            |standing: Standing<'_>| report_standing(daemon, standing, &mut unanswered);
        let Some(term) = election.campaign(&mut goes_on)? else { return Ok(()) };
        let mut store = EtcdStore::open(address, credentials)?.with_commit_timeout(lease);
        store.concerns().iter().for_each(|concern| tracing::warn!("{concern}"));
        let ended = serve_term(daemon, store, &term);
        daemon.role.ends();
        match ended {
            Ok(Ok(Ended::BySignal)) => return Ok(()),
            Ok(Ok(Ended::LeaseRanOut)) => {
                tracing::warn!("the lease in the store has run out: another server may serve");
            }
            Ok(Err(HasFailed(error))) => stands_by_again(error).map_err(HasFailed)?,
            Err(error) => stands_by_again(error)?,
        }
    }
}

/// Reports who serves, once, or why nobody knows, now and then; and returns whether to continue.
fn report_standing(
    daemon: &Daemon<'_>,
    standing: Standing<'_>,
    unanswered: &mut Unanswered,
) -> bool {
    match standing {
        Standing::StandsBy(leader) if daemon.role.stands_by(leader) => running::stands_by(leader),
        Standing::Unanswered(why) => unanswered.log(why),
        _ => {}
    }
    !daemon.signal.has_come()
}

/// Serves while the lease runs, if the server starts.
fn serve_term(
    daemon: &Daemon<'_>,
    store: impl Store + 'static,
    term: &Term,
) -> Result<Result<Ended, HasFailed>, ServeError> {
    // Clients are refused at this address at all other times, and try the next one.
    let listener = Listener::bind(&daemon.settings.listen)?;
    daemon.serve(listener, store, |wait| term.runs_after(wait))
}

/// Whether a server that ended so stands by again: it has lost the store, and not failed.
fn stands_by_again(error: ServeError) -> Result<(), ServeError> {
    match &error {
        ServeError::Store(StoreError::Deposed(_)) => {
            tracing::info!(%error, "another server serves");
            Ok(())
        }
        ServeError::Store(StoreError::Unanswered(_)) => {
            tracing::warn!(%error, "the server has ended");
            Ok(())
        }
        _ => Err(error),
    }
}
