//! Certificates that are read again on SIGHUP.
use krl::TlsConfig;
use krl::operate::Certificate;
use signal_hook::consts::SIGHUP;
use signal_hook::iterator::Signals;
use std::io;
use std::sync::atomic::{AtomicU64, Ordering};
use std::thread;

/// How often they were read again and could not be used.
static REFUSED: AtomicU64 = AtomicU64::new(0);

/// How often certificates were read again and could not be used, since the start.
pub fn refused() -> u64 {
    REFUSED.load(Ordering::Relaxed)
}

/// Reads them again whenever SIGHUP comes. What can't be used changes nothing. Without certificates
/// SIGHUP does nothing.
pub fn start(tls: Option<TlsConfig>) -> io::Result<()> {
    let mut signals = Signals::new([SIGHUP])?;
    let reloads = move || {
        for _ in signals.forever() {
            reload(tls.as_ref());
        }
    };
    thread::Builder::new().name("reload".to_string()).spawn(reloads)?;
    Ok(())
}

fn reload(tls: Option<&TlsConfig>) {
    let Some(tls) = tls else {
        tracing::info!("SIGHUP: there are no certificates to read again");
        return;
    };
    match tls.reload() {
        Ok(()) => log_certificate(tls, "the certificates are read again"),
        Err(error) => {
            REFUSED.fetch_add(1, Ordering::Relaxed);
            let why = krl_cli::sentence(&error);
            tracing::error!(why, "the certificates can't be used: the old ones stay");
        }
    }
}

/// Logs which certificate is shown from now on.
pub fn log_certificate(tls: &TlsConfig, what: &str) {
    let Certificate { subject, names, expires_at, .. } = tls.certificate();
    tracing::info!(subject, names = names.join(","), expires = expires_at, "{what}");
}
