//! A pin as C has it.
use krl::{Client, Pin};
use std::sync::Arc;
use std::time::Duration;

/// A pin, which C may free before its client or after it.
#[derive(Debug)]
pub struct OwnPin {
    pin: Pin,
    /// By it the client knows that it has pins.
    _client: Arc<Client>,
}

impl OwnPin {
    pub fn new(pin: Pin, client: &Arc<Client>) -> OwnPin {
        OwnPin { pin, _client: Arc::clone(client) }
    }

    pub fn holds(&self) -> bool {
        self.pin.holds()
    }

    /// The pin, whose writes wait for this many milliseconds; 0 stands for its client's timeout.
    pub fn within(&self, timeout_ms: u64) -> Pin {
        match timeout_ms {
            0 => self.pin.clone(),
            _ => self.pin.within(Duration::from_millis(timeout_ms)),
        }
    }
}
