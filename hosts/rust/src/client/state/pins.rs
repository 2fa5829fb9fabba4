//! Pinned ranges, and what is given back after them.
use super::State;
use crate::call::error::ErrorKind;
use crate::model::code::Code;
use std::mem;
use std::ops::Range;
use std::time::{Duration, Instant};

/// A pin remembers this many spans that were called back. From then on it takes them for one.
const MAX_CALLED: usize = 64;

/// The pins of an incarnation.
#[derive(Debug, Default)]
pub(super) struct PinTable {
    pins: Vec<Pinned>,
    /// Spans that were called back while they were pinned, and whose pins are gone.
    owed: Vec<Range<u64>>,
}

#[derive(Debug)]
struct Pinned {
    /// The client gives this name once, over all of its incarnations.
    id: u64,
    /// The library's name, which a later pin may have too.
    number: u64,
    keys: Range<u64>,
    /// The last write that was sent and is bound to the pin.
    write: Option<u64>,
    /// Its caller has given it up, and it stays until that write is judged.
    is_given_up: bool,
    /// How long after it was called back it is given up, if its caller waits for more than it has.
    patience: Option<Duration>,
    /// When something of it was called back first.
    called_at: Option<Instant>,
    /// What was called back and meets these keys. The client obeys no such callback, and nobody
    /// calls again as soon as the pin is gone: so it gives the spans back by itself then. It gives
    /// them back whole, since the server counts a slot as released only with all its points.
    called: Vec<Range<u64>>,
}

impl PinTable {
    fn add(&mut self, id: u64, number: u64, keys: Range<u64>) {
        self.pins.push(Pinned {
            id,
            number,
            keys,
            write: None,
            is_given_up: false,
            patience: None,
            called_at: None,
            called: Vec::new(),
        });
    }

    fn pin_mut(&mut self, id: u64) -> Option<&mut Pinned> {
        self.pins.iter_mut().find(|pin| pin.id == id)
    }

    /// Whether there is a pin of this name that its caller has not given up.
    pub fn has(&self, id: u64) -> bool {
        self.pins.iter().any(|pin| pin.id == id && !pin.is_given_up)
    }

    /// Whether a pin waits for a write or is about to be given up, or something waits to be given
    /// back.
    pub fn are_open(&self) -> bool {
        let gives_way = |pin: &Pinned| pin.patience.is_some() && pin.called_at.is_some();
        !self.owed.is_empty() || self.are_given_up() || self.pins.iter().any(gives_way)
    }

    /// The pin is given up when so much time has passed since something of it was called back.
    fn give_way_after(&mut self, id: u64, patience: Duration) {
        if let Some(pin) = self.pin_mut(id) {
            pin.patience = Some(patience);
        }
    }

    /// The pin is its caller's from now on.
    fn keep(&mut self, id: u64) {
        if let Some(pin) = self.pin_mut(id) {
            pin.patience = None;
        }
    }

    /// Gives up the pins that others have called back for too long.
    fn give_way(&mut self, now: Instant) {
        for pin in &mut self.pins {
            let since = pin.called_at.map(|called| now.saturating_duration_since(called));
            pin.is_given_up |=
                since.zip(pin.patience).is_some_and(|(since, patience)| since >= patience);
        }
    }

    fn are_given_up(&self) -> bool {
        self.pins.iter().any(|pin| pin.is_given_up)
    }

    /// The write of this number was sent, and is bound to the pin.
    pub fn bind(&mut self, id: u64, write: u64) {
        if let Some(pin) = self.pin_mut(id) {
            pin.write = Some(write);
        }
    }

    fn give_up(&mut self, id: u64) {
        if let Some(pin) = self.pin_mut(id) {
            pin.is_given_up = true;
        }
    }

    /// Removes a pin that was given up, unless the write that is not judged is bound to it. What
    /// was called back meanwhile is owed. Returns the library's name of the pin.
    fn remove_next(&mut self, not_judged: Option<u64>) -> Option<u64> {
        let is_free = |pin: &Pinned| pin.write.is_none() || pin.write != not_judged;
        let place = self.pins.iter().position(|pin| pin.is_given_up && is_free(pin))?;
        let Pinned { number, called, .. } = self.pins.swap_remove(place);
        self.owed.extend(called);
        Some(number)
    }

    /// The span was called back. Returns whether it meets a pin: each that it meets remembers it.
    pub fn note(&mut self, span: &Range<u64>, now: Instant) -> bool {
        let mut is_pinned = false;
        for pin in self.pins.iter_mut().filter(|pin| meet(&pin.keys, span)) {
            pin.called_at.get_or_insert(now);
            remember(&mut pin.called, span.clone());
            is_pinned = true;
        }
        is_pinned
    }
}

impl State {
    /// Pins a range that is not empty, and returns the pin's name.
    pub fn pin(&mut self, keys: Range<u64>) -> Result<u64, ErrorKind> {
        self.end_lease_if_over();
        match self.life.void {
            Some(why) => Err(why.refused()),
            None => Ok(self.add_pin(keys)?),
        }
    }

    pub(super) fn add_pin(&mut self, keys: Range<u64>) -> Result<u64, Code> {
        let number = self.client.pin(&keys)?;
        let id = self.next_name();
        self.held.pins.add(id, number, keys);
        Ok(id)
    }

    /// Frees a pin, and gives back what was called back meanwhile. If a write that is bound to the
    /// pin is not judged, the pin stays until it is: the server may still make that write.
    pub fn unpin(&mut self, id: u64) {
        self.held.pins.give_up(id);
        self.free_pins();
        // The client no longer knows what it has given back.
        self.report_changes();
    }

    /// Adds a pin for a caller that waits for more. **It is given up when this much time has passed
    /// since something of it was called back**: otherwise clients could wait for each other in a
    /// circle, since the one who has called it back may have what its caller waits for.
    pub(super) fn add_pin_that_gives_way(
        &mut self,
        keys: Range<u64>,
        patience: Duration,
    ) -> Result<u64, Code> {
        let id = self.add_pin(keys)?;
        self.held.pins.give_way_after(id, patience);
        Ok(id)
    }

    /// The caller has all that it has waited for: from now on the pin gives way to nobody. Returns
    /// whether it holds.
    pub fn keep_pin(&mut self, id: u64) -> bool {
        self.held.pins.give_way(self.now.monotonic);
        self.held.pins.keep(id);
        self.holds_pin(id)
    }

    /// Frees the pins that were given up and do not stay for a write.
    pub(super) fn free_pins(&mut self) {
        self.held.pins.give_way(self.now.monotonic);
        if !self.held.pins.are_given_up() {
            return;
        }
        let shown = self.client.status().ok();
        let not_judged = shown.filter(|shown| shown.outcome.is_none()).map(|shown| shown.number);
        while let Some(number) = self.held.pins.remove_next(not_judged) {
            // The pin is there, and a client that has left has none.
            let _ = self.client.unpin(number);
            self.give_back();
        }
    }

    /// Gives back what was called back while it was pinned, if it meets no other pin and nothing
    /// hinders it just now.
    pub(super) fn give_back(&mut self) {
        for span in mem::take(&mut self.held.pins.owed) {
            // If memory is refused, the next call comes back to it. A client that has left owes
            // nothing.
            let is_owed = !self.held.pins.note(&span, self.now.monotonic)
                && matches!(self.try_forget(&span), Ok(false) | Err(Code::OutOfMemory));
            if is_owed {
                self.held.pins.owed.push(span);
            }
        }
    }
}

fn meet(one: &Range<u64>, other: &Range<u64>) -> bool {
    one.start < other.end && other.start < one.end
}

fn remember(called: &mut Vec<Range<u64>>, span: Range<u64>) {
    if called.contains(&span) {
        return;
    }
    called.push(span);
    if called.len() > MAX_CALLED {
        let start = called.iter().map(|span| span.start).min().unwrap_or(0);
        let end = called.iter().map(|span| span.end).max().unwrap_or(0);
        called.clear();
        called.push(start..end);
    }
}

#[cfg(test)]
mod tests {
    use super::*;
    use crate::client::state::world::{World, row};
    use crate::model::change::{Outcome, Write};

    /// Gives the pin up, and takes what is owed after it.
    fn owed_after(pins: &mut PinTable, id: u64) -> Vec<Range<u64>> {
        pins.give_up(id);
        assert_eq!(pins.remove_next(None), Some(id + 100));
        mem::take(&mut pins.owed)
    }

    fn pins_of(keys: &[Range<u64>]) -> PinTable {
        let mut pins = PinTable::default();
        (0..).zip(keys).for_each(|(id, keys)| pins.add(id, id + 100, keys.clone()));
        pins
    }

    #[test]
    fn a_pin_remembers_what_is_called_back_and_meets_it() {
        let mut pins = pins_of(std::slice::from_ref(&(10..20)));
        for span in [0..10, 0..12, 0..12, 19..21, 20..30] {
            pins.note(&span, Instant::now());
        }
        assert_eq!(owed_after(&mut pins, 0), [0..12, 19..21]);
        assert_eq!(pins.remove_next(None), None);
    }

    #[test]
    fn what_meets_another_pin_waits_for_that_pin() {
        let mut pins = pins_of(&[10..15, 15..20]);
        let now = Instant::now();
        assert!(!pins.note(&(0..10), now) && !pins.note(&(20..30), now));
        for id in [0, 1] {
            assert!(pins.note(&(14..16), now));
            assert_eq!(owed_after(&mut pins, id).len(), 1);
        }
        assert!(!pins.note(&(14..16), now));
    }

    #[test]
    fn a_pin_gives_way_so_long_after_it_was_called_back_and_not_once_it_is_kept() {
        const PATIENCE: Duration = Duration::from_secs(1);
        let (mut pins, now) = (pins_of(&[10..15, 10..15, 10..15]), Instant::now());
        pins.give_way_after(0, PATIENCE);
        pins.give_way_after(1, PATIENCE);
        pins.give_way(now + 9 * PATIENCE);
        assert!(pins.has(0) && !pins.are_open(), "nobody has called it back");
        pins.note(&(14..16), now);
        pins.note(&(14..16), now + PATIENCE / 2);
        assert!(pins.are_open());
        pins.keep(1);
        pins.give_way(now + PATIENCE / 2);
        assert!(pins.has(0));
        pins.give_way(now + PATIENCE);
        assert_eq!([0, 1, 2].map(|id| pins.has(id)), [false, true, true]);
    }

    #[test]
    fn many_spans_become_one() {
        let mut pins = pins_of(std::slice::from_ref(&(0..1000)));
        let now = Instant::now();
        assert!((0..200).all(|place| pins.note(&(3 * place..3 * place + 1), now)));
        let called = owed_after(&mut pins, 0);
        assert!(called.len() <= MAX_CALLED);
        assert!((0..200).all(|place| called.iter().any(|span| span.contains(&(3 * place)))));
    }

    #[test]
    fn the_name_of_a_pin_names_no_later_one() {
        let mut world = World::new();
        assert_eq!(world.write(0, Write::Insert(row(10, 1))), Outcome::Applied);
        let client = &mut world.clients[0];
        let first = client.pin(0..20).unwrap();
        client.unpin(first);
        let second = client.pin(0..20).unwrap();
        client.unpin(first);
        assert!(client.holds_pin(second) && !client.holds_pin(first));
    }
}
