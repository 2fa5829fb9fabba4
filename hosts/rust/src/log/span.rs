//! Spans around the calls of a client that wait for its server, by the feature `spans`.
use std::ops::Range;

/// What a call is entered in until it returns. A call that the cache answers is in none.
#[cfg(feature = "spans")]
pub(crate) type Span = tracing::span::EnteredSpan;

#[cfg(not(feature = "spans"))]
#[must_use]
pub(crate) struct Span;

/// A call of a client that waits, about these keys.
#[cfg(feature = "spans")]
pub(crate) fn of(call: &'static str, client: u8, keys: &Range<u64>) -> Span {
    tracing::debug_span!("krl", call, client, lo = keys.start, hi = keys.end).entered()
}

#[cfg(not(feature = "spans"))]
pub(crate) fn of(_: &'static str, _: u8, _: &Range<u64>) -> Span {
    Span
}
