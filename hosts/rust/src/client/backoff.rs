//! How long a client waits before it connects again.
use std::collections::hash_map::RandomState;
use std::hash::{BuildHasher, Hasher};
use std::time::Duration;

/// The first pause, and the longest between two attempts at one server.
const FIRST: Duration = Duration::from_millis(5);
const LONGEST: Duration = Duration::from_secs(1);

/// The pauses between attempts: each is twice the one before, and up to a random quarter longer, so
/// that clients that lost one server do not all come back to it at once.
#[derive(Debug)]
pub(crate) struct Backoff {
    pause: Duration,
    longest: Duration,
    /// What the next chance is drawn from. It is never 0.
    state: u64,
}

impl Backoff {
    /// Pauses between attempts at this many servers in turn, each drawn by the seed. Two clients
    /// should have different seeds: see [`seed`].
    pub fn among(servers: usize, seed: u64) -> Backoff {
        let servers = u32::try_from(servers.max(1)).unwrap_or(u32::MAX);
        Backoff { pause: FIRST, longest: FIRST.max(LONGEST / servers), state: seed.max(1) }
    }

    /// The client has accepted a message of the server: the next pause is the first one again. A
    /// connection by itself is no reason, since a server that has no room takes it and ends it. Nor
    /// is a message that ends the connection, as one of another version.
    pub fn reset(&mut self) {
        self.pause = FIRST;
    }

    /// How long to wait now.
    pub fn pause(&mut self) -> Duration {
        let pause = self.pause;
        self.pause = self.longest.min(2 * pause);
        pause + pause.mul_f64(self.chance() / 4.0)
    }

    /// A number from 0 to 1.
    fn chance(&mut self) -> f64 {
        self.state ^= self.state << 13;
        self.state ^= self.state >> 7;
        self.state ^= self.state << 17;
        f64::from(u32::try_from(self.state >> 32).unwrap_or(u32::MAX)) / f64::from(u32::MAX)
    }
}

/// A random seed, as the standard library seeds its hashes.
pub(crate) fn seed() -> u64 {
    RandomState::new().build_hasher().finish()
}

#[cfg(test)]
mod tests {
    use super::*;

    #[test]
    fn pauses_double_until_a_second_and_differ_by_a_quarter() {
        let mut backoff = Backoff::among(1, seed());
        let mut least = FIRST;
        for _ in 0..20 {
            let pause = backoff.pause();
            assert!(least <= pause && pause <= least.mul_f64(1.25), "{least:?} {pause:?}");
            least = LONGEST.min(2 * least);
        }
        assert_eq!(least, LONGEST);
        backoff.reset();
        assert!(backoff.pause() < 2 * FIRST);
        let mut among_four = Backoff::among(4, 0);
        let longest = (0..20).map(|_| among_four.pause()).max().unwrap();
        assert!(longest <= (LONGEST / 4).mul_f64(1.25), "{longest:?}");
    }
}
