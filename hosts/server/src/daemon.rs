//! The server that serves a table, from its start until it is stopped.
mod long_waits;
pub mod map_home;
mod map_watch;
mod new_store;
mod open_files;
pub mod owner;
mod running;
pub mod serve;
mod stand_by;
mod watchdog;
