//! Waiting for what has to come in time.
use std::error::Error;
use std::thread;
use std::time::{Duration, Instant};

/// The pause between two looks.
const CHECK_INTERVAL: Duration = Duration::from_millis(10);

/// Looks again and again until something has come, and for this time at most.
///
/// # Errors
///
/// `late` if it does not come in time, or why a look has failed.
pub fn until<T>(
    most: Duration,
    late: &str,
    mut look: impl FnMut() -> Result<Option<T>, Box<dyn Error>>,
) -> Result<T, Box<dyn Error>> {
    let end = Instant::now() + most;
    loop {
        if let Some(found) = look()? {
            return Ok(found);
        }
        if Instant::now() >= end {
            return Err(late.into());
        }
        thread::sleep(CHECK_INTERVAL);
    }
}
