//! Servers and clients in one thread, over a network, disks and clocks that are drawn by a seed.
//!
//! What runs is what the hosts run: all that `krl` decides. The same seed gives the same run, byte
//! for byte, so a run that finds something wrong is identified by its seed.
mod calls;
mod counts;
mod dice;
mod disk;
mod judge;
mod lock_file;
mod network;
pub mod picture;
pub mod record;
pub mod run;
pub mod shorten;
mod timer;
mod weather;
pub mod world;
