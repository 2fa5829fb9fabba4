//! Until when a reader asks a server.
use crate::call::error::ErrorKind;
use crate::client::standing::Standing;
use std::time::Instant;

/// Until when a reader asks a server: for an answer, for a time, or for a next map.
pub(crate) struct Until<'w> {
    pub deadline: Instant,
    pub standing: &'w mut dyn FnMut() -> Standing,
}

impl Until<'_> {
    /// # Errors
    ///
    /// `Left` if the keys are elsewhere.
    pub fn refuse_elsewhere(&mut self) -> Result<Standing, ErrorKind> {
        match (self.standing)() {
            Standing::Elsewhere => Err(ErrorKind::Left),
            standing => Ok(standing),
        }
    }
}
