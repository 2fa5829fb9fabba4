//! The clock by which leases run.
use nix::sys::time::TimeSpec;
use nix::time::{ClockId, clock_gettime};
use std::io;

/// A moment by `CLOCK_BOOTTIME`, in nanoseconds since the machine was started. That clock continues
/// while the machine is suspended, and nobody sets it. The moments of two machines can't be
/// compared.
#[derive(Clone, Copy, Debug, PartialEq, Eq, PartialOrd, Ord)]
pub(crate) struct Moment(u64);

const NANOSECONDS: u64 = 1_000_000_000;

impl Moment {
    /// The clock as it is now.
    ///
    /// # Errors
    ///
    /// If the system has no such clock.
    pub fn now() -> io::Result<Moment> {
        Ok(Moment::of(clock_gettime(ClockId::CLOCK_BOOTTIME)?))
    }

    /// The clock counts from 0, so neither part is below it.
    fn of(time: TimeSpec) -> Moment {
        let seconds = u64::try_from(time.tv_sec()).unwrap_or_default();
        let nanoseconds = u64::try_from(time.tv_nsec()).unwrap_or_default();
        Moment(seconds.saturating_mul(NANOSECONDS).saturating_add(nanoseconds))
    }

    pub const fn of_nanoseconds(nanoseconds: u64) -> Moment {
        Moment(nanoseconds)
    }

    pub const fn nanoseconds(self) -> u64 {
        self.0
    }

    /// How much later this moment is than the other one; 0 if it is not.
    pub const fn since(self, earlier: Moment) -> u64 {
        self.0.saturating_sub(earlier.0)
    }
}

#[cfg(test)]
mod tests {
    use super::*;
    use std::thread::sleep;
    use std::time::Duration;

    #[test]
    fn the_clock_advances() {
        let first = Moment::now().unwrap();
        sleep(Duration::from_millis(5));
        assert!(Moment::now().unwrap().since(first) >= 5_000_000);
    }

    #[test]
    fn a_time_is_this_many_nanoseconds() {
        assert_eq!(Moment::of(TimeSpec::new(2, 7)), Moment::of_nanoseconds(2_000_000_007));
        assert_eq!(Moment::of_nanoseconds(3).since(Moment::of_nanoseconds(5)), 0);
    }
}
