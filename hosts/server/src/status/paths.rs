//! The paths of a status port, and the kinds of its pages.

/// The page for people.
pub const PAGE: &str = "/";
/// The picture of who holds which keys.
pub const PICTURE: &str = "/locks.svg";
/// Whether the server's loop runs.
pub const ALIVE: &str = "/healthz";
/// Whether the server answers requests of clients.
pub const READY: &str = "/readyz";
pub const STATUS: &str = "/status";
pub const STATUS_AS_JSON: &str = "/status.json";
pub const CLIENTS: &str = "/clients";
/// Who holds what.
pub const LOCKS: &str = "/locks";
pub const METRICS: &str = "/metrics";
/// Where the order to make a backup is sent.
pub const BACKUP: &str = "/backup";

/// What is answered at any other path.
pub const ALL: &str = "there is /, /healthz, /readyz, /status, /status.json, /clients, /locks, \
                       /locks.svg and /metrics\n";

pub const TEXT: &str = "text/plain; charset=utf-8";
pub const JSON: &str = "application/json";
pub const HTML: &str = "text/html; charset=utf-8";
pub const SVG: &str = "image/svg+xml";
/// Figures, as Prometheus reads them.
pub const FIGURES: &str = "text/plain; version=0.0.4; charset=utf-8";
