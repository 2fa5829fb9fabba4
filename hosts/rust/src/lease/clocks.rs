//! What the clocks of a machine show at one moment.
use crate::lease::boot_clock::Moment;
use std::io::{self, ErrorKind};
use std::time::{Instant, SystemTime};

/// The clocks of this machine at one moment. What decides by a clock takes this as a value: only
/// the shell around the decisions reads the clocks, by [`Now::read`].
///
/// Code that takes bytes from a connection reads the clocks **after** the bytes have come: what is
/// judged by a clock then is judged by a moment at which the bytes were there.
#[derive(Clone, Copy, Debug)]
pub(crate) struct Now {
    /// The clock of timeouts and pauses. It stands still while the machine is suspended.
    pub monotonic: Instant,
    /// The clock of incarnations, which operators set. None is that of the system: it is wanted so
    /// rarely that it is read only then.
    wall: Option<SystemTime>,
    /// The clock of leases. None if it can't be read.
    boot: Option<Moment>,
}

impl Now {
    /// The clocks as they are now.
    pub fn read() -> Now {
        Now { monotonic: Instant::now(), wall: None, boot: Moment::now().ok() }
    }

    /// The clock of incarnations.
    pub fn wall(&self) -> SystemTime {
        self.wall.unwrap_or_else(SystemTime::now)
    }

    /// The clock of leases. A lease that ends does not hold if that clock can't be read.
    ///
    /// # Errors
    ///
    /// `Unsupported` if the system has no such clock.
    pub fn boot(&self) -> io::Result<Moment> {
        self.boot.ok_or_else(|| {
            io::Error::new(ErrorKind::Unsupported, "the system has no CLOCK_BOOTTIME")
        })
    }
}

#[cfg(feature = "sans-io")]
impl Now {
    /// The clocks of a machine that was started at this moment, and has run for this long. Of the
    /// clock of timeouts only differences mean something.
    pub fn simulated(running: std::time::Duration) -> Now {
        const STARTED: std::time::Duration = std::time::Duration::from_secs(1_800_000_000);
        static BEGAN: std::sync::OnceLock<Instant> = std::sync::OnceLock::new();
        let nanoseconds = u64::try_from(running.as_nanos()).unwrap_or(u64::MAX);
        Now {
            monotonic: *BEGAN.get_or_init(Instant::now) + running,
            wall: Some(SystemTime::UNIX_EPOCH + STARTED + running),
            boot: Some(Moment::of_nanoseconds(nanoseconds)),
        }
    }
}

#[cfg(test)]
impl Now {
    /// All clocks advance by this much.
    pub fn after(self, time: std::time::Duration) -> Now {
        let nanoseconds = u64::try_from(time.as_nanos()).unwrap();
        let boot = self.boot.map(|boot| Moment::of_nanoseconds(boot.nanoseconds() + nanoseconds));
        Now { monotonic: self.monotonic + time, wall: Some(self.wall() + time), boot }
    }
}
