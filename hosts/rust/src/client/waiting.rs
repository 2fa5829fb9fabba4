//! How calls wait, and how a wait for a change ends.

/// How a wait for a change ended.
#[derive(Clone, Copy, Debug, PartialEq, Eq)]
#[must_use]
pub enum Waited {
    /// The client no longer knows that the range has these rows: they are to be read again.
    Changed,
    /// The time is over, and the rows are as they were.
    Unchanged,
}

/// How a call waits for its answers.
#[derive(Clone, Copy, Debug, PartialEq, Eq)]
pub(crate) enum Waiting {
    /// On its thread, which reads the connection itself. So its future is ready when it is first
    /// polled.
    OnThread,
    InTask,
}
