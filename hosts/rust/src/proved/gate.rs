//! A value that many threads read at once, and that one owner changes.
//!
//! A change shuts the gate, waits until the readers inside have left, and opens it again. So
//! whatever the owner does after a change comes after every read that has not seen it.
use std::cell::UnsafeCell;
use std::hint;
use std::ops::Deref;
use std::sync::Arc;
use std::sync::atomic::{AtomicBool, AtomicUsize, Ordering};
use std::thread;
use std::time::Duration;

/// Threads that read count themselves in one of this many places.
pub(crate) const PLACES: usize = 16;

/// A thread that waits spins at first, then it lets others run, and then it sleeps again and again.
const SPINS: u64 = 200;
const YIELDS: u64 = 1000;
const NAP: Duration = Duration::from_micros(50);

/// For how many turns a change waits for the readers that have waited for the one before to come
/// in.
const COURTESY: u64 = SPINS + 20;

/// What shares no cache line with anything else.
#[repr(align(128))]
pub(crate) struct Alone<T>(pub T);

struct Gate<T> {
    value: UnsafeCell<T>,
    is_shut: Alone<AtomicBool>,
    /// How many readers wait until the gate is open.
    waiting: Alone<AtomicUsize>,
    /// How many readers are inside, or look whether they may be.
    inside: [Alone<AtomicUsize>; PLACES],
}

// SAFETY: many threads have `&T` at once, which `T: Sync` allows. The one that changes has `&mut
// T`, and `T: Send` allows that this is another thread each time. No `&T` is there then: see
// `change`.
unsafe impl<T: Send + Sync> Sync for Gate<T> {}

/// The owner, who may change the value.
pub(crate) struct Owner<T>(Arc<Gate<T>>);

/// One of many readers of the value.
pub(crate) struct Reader<T>(Arc<Gate<T>>);

/// The value, while it is read. A change waits as long as this lives.
pub(crate) struct ReadGuard<'g, T> {
    gate: &'g Gate<T>,
    _inside: Counted<'g>,
}

/// A count that is greater by one as long as this lives.
struct Counted<'g>(&'g AtomicUsize);

/// The gate is shut as long as this lives.
struct Shut<'g>(&'g AtomicBool);

impl<T> Owner<T> {
    pub fn new(value: T) -> Owner<T> {
        Owner(Arc::new(Gate {
            value: UnsafeCell::new(value),
            is_shut: Alone(AtomicBool::new(false)),
            waiting: Alone(AtomicUsize::new(0)),
            inside: std::array::from_fn(|_| Alone(AtomicUsize::new(0))),
        }))
    }

    pub fn reader(&self) -> Reader<T> {
        Reader(Arc::clone(&self.0))
    }

    /// The value. The owner needs no gate to read it.
    pub fn get(&self) -> &T {
        // SAFETY: a change takes the one owner by `&mut`, so none begins while this borrow lives.
        unsafe { &*self.0.value.get() }
    }

    /// Changes the value when no reader is inside.
    pub fn change<R>(&mut self, change: impl FnOnce(&mut T) -> R) -> R {
        let gate = &*self.0;
        gate.let_in();
        let _shut = gate.shut();
        gate.wait_for_readers();
        // SAFETY: no other change is at work, and no borrow of `get` is there, since this call has
        // the one owner by `&mut`. No reader is inside and none comes in before `_shut` is dropped:
        // this call has seen the count of each reader that has found the gate open, and it was 0
        // again. See `try_enter`.
        change(unsafe { &mut *gate.value.get() })
    }
}

impl<T> Reader<T> {
    /// Reads the value. It waits for one change at most, if the threads that wait get to run.
    ///
    /// `read` must be short, since a change waits for it, and must not come to the same gate.
    pub fn read<R>(&self, read: impl FnOnce(&T) -> R) -> R {
        read(&self.enter())
    }

    /// Goes inside, and stays there as long as the guard lives, which has to be short too. It
    /// waits as `read` does.
    ///
    /// A thread may be inside several gates, if all threads enter these in one order: one that
    /// waits at a gate keeps the changes of those before it waiting.
    pub fn enter(&self) -> ReadGuard<'_, T> {
        ReadGuard { gate: &self.0, _inside: self.0.enter() }
    }
}

#[cfg(test)]
impl<T> Reader<T> {
    /// Whether a change waits until a reader that is inside has left.
    pub fn keeps_a_change_waiting(&self) -> bool {
        let is_shut = self.0.is_shut.0.load(Ordering::SeqCst);
        is_shut && self.0.inside.iter().any(|inside| inside.0.load(Ordering::SeqCst) > 0)
    }
}

impl<T> Deref for ReadGuard<'_, T> {
    type Target = T;

    fn deref(&self) -> &T {
        // SAFETY: a change that began before this reader was inside has ended, since the gate was
        // open, and one that begins now waits until `_inside` is dropped.
        unsafe { &*self.gate.value.get() }
    }
}

impl<T> Gate<T> {
    fn enter(&self) -> Counted<'_> {
        self.try_enter().unwrap_or_else(|| self.enter_later())
    }

    /// Counts first and looks then. `shut` and `wait_for_readers` shut first and look then.
    ///
    /// All threads see the `SeqCst` operations in one order, and these four are `SeqCst`: whichever
    /// of the count and the shutting comes first, the look of the other side comes after it and
    /// finds it. No order but `SeqCst` promises anything of a store before a load of another place:
    /// by any other one, both sides may look before the other sees what they have stored. So it is
    /// on x86-64 if the store is `Release`, and on AArch64 if a look is `Acquire`, which may be the
    /// instruction `LDAPR`. `tests/weak_memory` tries each weaker order.
    fn try_enter(&self) -> Option<Counted<'_>> {
        let inside = Counted::new(&self.inside[place()].0);
        if self.is_shut.0.load(Ordering::SeqCst) { None } else { Some(inside) }
    }

    #[cold]
    fn enter_later(&self) -> Counted<'_> {
        let _waiting = Counted::new(&self.waiting.0);
        loop {
            wait(0.., || !self.is_shut.0.load(Ordering::Relaxed));
            if let Some(inside) = self.try_enter() {
                return inside;
            }
        }
    }

    /// Lets in the readers that have waited for the change before, if they get to run soon.
    fn let_in(&self) {
        wait(0..COURTESY, || self.waiting.0.load(Ordering::Relaxed) == 0);
    }

    fn shut(&self) -> Shut<'_> {
        self.is_shut.0.store(true, Ordering::SeqCst);
        Shut(&self.is_shut.0)
    }

    fn wait_for_readers(&self) {
        for inside in &self.inside {
            wait(0.., || inside.0.load(Ordering::SeqCst) == 0);
        }
    }
}

impl Counted<'_> {
    fn new(count: &AtomicUsize) -> Counted<'_> {
        count.fetch_add(1, Ordering::SeqCst);
        Counted(count)
    }
}

impl Drop for Counted<'_> {
    fn drop(&mut self) {
        // The owner that finds this count comes after what was read inside.
        self.0.fetch_sub(1, Ordering::Release);
    }
}

impl Drop for Shut<'_> {
    fn drop(&mut self) {
        // A reader that finds the gate open comes after the change.
        self.0.store(false, Ordering::Release);
    }
}

/// Waits until this is true, or for this many turns.
fn wait(turns: impl Iterator<Item = u64>, is_so: impl Fn() -> bool) {
    for turn in turns {
        if is_so() {
            return;
        }
        match turn {
            ..SPINS => hint::spin_loop(),
            SPINS..YIELDS => thread::yield_now(),
            _ => thread::sleep(NAP),
        }
    }
}

/// The place of this thread. Threads beyond that many share places.
pub(crate) fn place() -> usize {
    static NEXT: AtomicUsize = AtomicUsize::new(0);
    thread_local!(static PLACE: usize = NEXT.fetch_add(1, Ordering::Relaxed) % PLACES);
    PLACE.with(|place| *place)
}

#[cfg(test)]
mod tests;
