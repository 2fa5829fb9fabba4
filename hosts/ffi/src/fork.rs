//! In which process a call is made.
//!
//! The thread that keeps a client's connection is not there after a `fork`: nothing would ever take
//! anything from the child's copy of the cache, which would answer stale rows.
use crate::misuse::Misuse;
use std::ffi::c_int;
use std::sync::Once;
use std::sync::atomic::{AtomicU32, Ordering};

/// How many forks lead from the process that loaded the library to this one.
static FORKS: AtomicU32 = AtomicU32::new(0);

unsafe extern "C" {
    fn pthread_atfork(
        prepare: Option<extern "C" fn()>,
        parent: Option<extern "C" fn()>,
        child: Option<extern "C" fn()>,
    ) -> c_int;
}

extern "C" fn note_fork() {
    FORKS.fetch_add(1, Ordering::Relaxed);
}

/// A process, as far as forks distinguish it from its ancestors.
#[derive(Clone, Copy, Debug, PartialEq, Eq)]
pub struct Process(u32);

impl Process {
    /// This process.
    #[must_use]
    pub fn this() -> Process {
        Process(FORKS.load(Ordering::Relaxed))
    }

    /// Whether a fork has made it since the library watches.
    #[must_use]
    pub fn is_child(self) -> bool {
        self.0 > 0
    }
}

/// Has forks counted from now on. Fails if there is no memory for that.
pub fn watch() -> Result<(), Misuse> {
    static WATCH: Once = Once::new();
    static IS_WATCHED: AtomicU32 = AtomicU32::new(0);
    WATCH.call_once(|| {
        // SAFETY: the function only adds to a number, which any process may do after a fork.
        let refused = unsafe { pthread_atfork(None, None, Some(note_fork)) };
        IS_WATCHED.store(u32::from(refused == 0), Ordering::Relaxed);
    });
    if IS_WATCHED.load(Ordering::Relaxed) == 1 { Ok(()) } else { Err(Misuse::OutOfMemory) }
}
