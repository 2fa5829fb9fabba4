//! What a process gives back that ends by `exit`, or by returning from `main`.
//!
//! Other threads may run meanwhile, and be within calls: so nothing is freed, and the process waits
//! for a second at most, even if the thread that ends it was interrupted within a call.
use crate::answer::quiet;
use crate::fork::Process;
use std::ffi::c_int;
use std::fmt;
use std::sync::{Arc, Condvar, Mutex, MutexGuard, Once, PoisonError, Weak};
use std::thread;
use std::time::Duration;

/// How long the end of a process waits.
const LONGEST: Duration = Duration::from_secs(1);

/// What is open, each with the process that has opened it: another one gives it back.
static OPEN: Mutex<Vec<(Process, Weak<GiveBack>)>> = Mutex::new(Vec::new());

type GiveBack = dyn Fn() + Send + Sync;

/// What is to be given back as long as its owner has this.
pub struct AtExit {
    _given_back: Arc<GiveBack>,
}

unsafe extern "C" {
    fn atexit(call: extern "C" fn()) -> c_int;
}

impl AtExit {
    /// Has this called if the process ends before the answer is dropped.
    pub fn call(give_back: impl Fn() + Send + Sync + 'static) -> AtExit {
        static WATCH: Once = Once::new();
        WATCH.call_once(|| {
            // SAFETY: the function may be called at any time. Without memory for it nothing is
            // given back at the end.
            let _ = unsafe { atexit(give_all_back) };
        });
        let give_back: Arc<GiveBack> = Arc::new(give_back);
        // In a child process nobody may be there who lets it go.
        let open = if Process::this().is_child() {
            OPEN.try_lock().ok()
        } else {
            Some(OPEN.lock().unwrap_or_else(PoisonError::into_inner))
        };
        if let Some(mut open) = open {
            open.retain(|(_, other)| other.strong_count() > 0);
            open.push((Process::this(), Arc::downgrade(&give_back)));
        }
        AtExit { _given_back: give_back }
    }
}

impl fmt::Debug for AtExit {
    fn fmt(&self, f: &mut fmt::Formatter<'_>) -> fmt::Result {
        f.debug_struct("AtExit").finish_non_exhaustive()
    }
}

extern "C" fn give_all_back() {
    quiet(|| {
        // The thread that ends the process may have been interrupted while it had it.
        let Ok(open) = OPEN.try_lock() else { return };
        let own = open.iter().filter(|(process, _)| *process == Process::this());
        let own: Vec<_> = own.filter_map(|(_, give_back)| give_back.upgrade()).collect();
        drop(open);
        give_back(own, LONGEST);
    });
}

/// Makes all of these calls at once, each on a thread of its own, and waits for this long at most.
fn give_back(calls: Vec<Arc<GiveBack>>, longest: Duration) {
    // No channel: the thread's own data may be gone by now.
    let waits = Arc::new((Mutex::new(calls.len()), Condvar::new()));
    for call in calls {
        let done = Arc::clone(&waits);
        let called = thread::Builder::new().spawn(move || {
            call();
            *count(&done.0) -= 1;
            done.1.notify_all();
        });
        if called.is_err() {
            *count(&waits.0) -= 1;
        }
    }
    let left = count(&waits.0);
    drop(waits.1.wait_timeout_while(left, longest, |left| *left > 0));
}

fn count(left: &Mutex<usize>) -> MutexGuard<'_, usize> {
    left.lock().unwrap_or_else(PoisonError::into_inner)
}
