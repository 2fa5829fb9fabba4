//! What a server shows of itself: to operators, and to programs that watch it.
pub(crate) mod client_status;
pub(crate) mod held_search;
pub(crate) mod liveness;
pub(crate) mod locks;
pub(crate) mod metrics;
pub(crate) mod monitor;
pub(crate) mod status;
pub(crate) mod timings;
pub(crate) mod watch;
