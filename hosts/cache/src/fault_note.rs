//! Why rows are not kept.
use std::sync::{Mutex, MutexGuard, PoisonError};

/// Why rows are not kept at present, as a sentence, or that they are. Each new reason is logged.
#[derive(Debug, Default)]
pub(crate) struct FaultNote(Mutex<Noted>);

#[derive(Debug, Default)]
struct Noted {
    fault: Option<String>,
    logged: Option<String>,
}

impl FaultNote {
    pub fn get(&self) -> Option<String> {
        self.lock().fault.clone()
    }

    pub fn set(&self, fault: Option<String>) {
        let mut noted = self.lock();
        if fault.is_some() && fault != noted.logged {
            tracing::warn!(why = fault, "rows are not kept");
            noted.logged.clone_from(&fault);
        }
        noted.fault = fault;
    }

    fn lock(&self) -> MutexGuard<'_, Noted> {
        self.0.lock().unwrap_or_else(PoisonError::into_inner)
    }
}

#[cfg(test)]
mod tests {
    use super::*;
    use std::sync::Arc;
    use std::sync::atomic::{AtomicUsize, Ordering};
    use tracing::span::{Attributes, Id, Record};
    use tracing::{Event, Metadata, Subscriber};

    /// Counts events.
    #[derive(Clone, Default)]
    struct Log(Arc<AtomicUsize>);

    impl Subscriber for Log {
        fn enabled(&self, _: &Metadata<'_>) -> bool {
            true
        }

        fn event(&self, _: &Event<'_>) {
            self.0.fetch_add(1, Ordering::Relaxed);
        }

        fn new_span(&self, _: &Attributes<'_>) -> Id {
            Id::from_u64(1)
        }

        fn record(&self, _: &Id, _: &Record<'_>) {}

        fn record_follows_from(&self, _: &Id, _: &Id) {}

        fn enter(&self, _: &Id) {}

        fn exit(&self, _: &Id) {}
    }

    #[test]
    fn each_new_reason_is_logged_once() {
        let (log, note) = (Log::default(), FaultNote::default());
        tracing::subscriber::with_default(log.clone(), || {
            for (fault, expected) in [("one", 1), ("", 1), ("one", 1), ("two", 2)] {
                note.set(Some(fault.to_string()).filter(|fault| !fault.is_empty()));
                assert_eq!(log.0.load(Ordering::Relaxed), expected);
            }
        });
        assert_eq!(note.get().unwrap(), "two");
    }
}
