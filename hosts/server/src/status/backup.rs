//! A copy of the store of a running server.
use crate::process::output::cause;
use krl::SqliteStore;
use krl::operate::Monitor;
use serde::{Deserialize, Serialize};
use std::error::Error;
use std::path::PathBuf;
use std::sync::atomic::{AtomicU64, Ordering};
use std::time::{Duration, SystemTime, UNIX_EPOCH};

/// How long a backup may take: one of 1,048,576 rows may take minutes on a busy machine.
pub const TIMEOUT: Duration = Duration::from_secs(600);

/// When this process last made a backup, in seconds since 1970; 0 if it has made none.
static LAST: AtomicU64 = AtomicU64::new(0);

/// When this process last made a backup, in seconds since 1970.
pub fn last() -> Option<u64> {
    Some(LAST.load(Ordering::Relaxed)).filter(|last| *last > 0)
}

/// How long ago this process last made a backup.
pub fn age(now: SystemTime) -> Option<Duration> {
    let now = now.duration_since(UNIX_EPOCH).unwrap_or_default().as_secs();
    last().map(|at| Duration::from_secs(now.saturating_sub(at)))
}

/// The order to make a backup.
#[derive(Debug, Deserialize, Serialize)]
#[serde(deny_unknown_fields)]
pub struct Order {
    /// The new file, from the root.
    pub file: PathBuf,
}

/// Makes the backup, and reports what it contains. The server stops for as long as its store is
/// read.
pub fn make(monitor: &Monitor, order: &Order) -> Result<String, Box<dyn Error + Send + Sync>> {
    let file = &order.file;
    if !file.is_absolute() {
        return Err("the path of a backup has to begin at the root".into());
    }
    let snapshot = monitor.snapshot()?;
    SqliteStore::create(file, &snapshot).map_err(|error| cause(&error))?;
    let now = SystemTime::now().duration_since(UNIX_EPOCH).unwrap_or_default();
    LAST.store(now.as_secs(), Ordering::Relaxed);
    let (rows, epoch) = (snapshot.rows.len(), snapshot.epoch);
    tracing::info!(file = %file.display(), rows, epoch, "backup");
    Ok(format!("{}: {rows} rows, as of epoch {epoch}\n", file.display()))
}
