//! What is logged.
pub(crate) mod event_log;
pub(crate) mod rate_limit;
pub(crate) mod span;
