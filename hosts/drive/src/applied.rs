//! Writes that have to be applied, as they prepare something.
use krl::Outcome;

/// Whether a write was applied.
///
/// # Errors
///
/// It was judged otherwise.
pub fn applied(outcome: Outcome) -> Result<(), String> {
    match outcome {
        Outcome::Applied => Ok(()),
        other => Err(format!("a write was judged {other}, and not Applied")),
    }
}
