//! The incarnations of a client's number: its host keeps the last one that may have been sent.
use crate::lease::terms::Older;
use std::io;

/// The incarnations of a client's number, and the last of them that is on the disk.
pub trait Incarnations {
    /// The client's number.
    fn number(&self) -> u8;

    /// The current incarnation.
    fn current(&self) -> u64;

    /// Takes an incarnation that is greater than every one before. It is not on the disk yet.
    fn renew(&mut self);

    /// What is known of the incarnations before the current one.
    fn older(&self) -> Older;

    /// Has the current incarnation on the disk when it returns.
    ///
    /// # Errors
    ///
    /// If it can't be written.
    fn keep(&mut self) -> io::Result<()>;
}
