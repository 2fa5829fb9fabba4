//! Which clients wait for each other in a circle.
use krl::operate::Wait;

const CLIENTS: usize = 64;

/// Who waits for whom, directly or by others.
#[derive(Debug)]
pub struct Deadlocks {
    /// For each client the set of those that it waits for, as bits.
    awaited: [u64; CLIENTS],
}

impl Deadlocks {
    pub fn of(waits: &[Wait]) -> Deadlocks {
        let mut awaited = [0; CLIENTS];
        for wait in waits {
            let others = wait.waits_for.iter().fold(0, |others, other| others | bit(*other));
            awaited[usize::from(wait.client) % CLIENTS] |= others;
        }
        for middle in 0..CLIENTS {
            let beyond = awaited[middle];
            awaited.iter_mut().filter(|it| **it >> middle & 1 == 1).for_each(|it| *it |= beyond);
        }
        Deadlocks { awaited }
    }

    /// Whether the client waits for itself by others.
    pub fn has(&self, client: u8) -> bool {
        self.waits_for(client, client)
    }

    /// Whether a wait of this client for that one is part of a circle.
    pub fn has_edge(&self, client: u8, other: u8) -> bool {
        self.waits_for(client, other) && self.waits_for(other, client)
    }

    /// The groups of clients in which each waits for each other, in ascending order.
    pub fn groups(&self) -> Vec<Vec<u8>> {
        let clients = || (0u8..64).filter(|client| self.has(*client));
        let group = |client: u8| clients().filter(|it| self.has_edge(client, *it)).collect();
        let mut groups: Vec<Vec<u8>> = clients().map(group).collect();
        groups.sort_unstable();
        groups.dedup();
        groups
    }

    fn waits_for(&self, client: u8, other: u8) -> bool {
        self.awaited[usize::from(client) % CLIENTS] & bit(other) != 0
    }
}

fn bit(client: u8) -> u64 {
    1 << (client % 64)
}

#[cfg(test)]
mod tests {
    use super::*;
    use std::time::Duration;

    fn deadlocks(waits: &[(u8, &[u8])]) -> Deadlocks {
        let wait = |(client, others): &(u8, &[u8])| {
            Wait::new(*client, 0..1, krl::operate::Mode::X, Duration::ZERO, others.to_vec())
        };
        Deadlocks::of(&waits.iter().map(wait).collect::<Vec<_>>())
    }

    #[test]
    fn a_chain_is_no_circle() {
        let chain = deadlocks(&[(1, &[2]), (2, &[3, 4]), (5, &[1, 3])]);
        assert_eq!(chain.groups(), Vec::<Vec<u8>>::new());
        assert!(!chain.has(1) && !chain.has_edge(1, 2));
    }

    #[test]
    fn circles_are_found_with_who_is_in_them() {
        let found =
            deadlocks(&[(1, &[2]), (2, &[1]), (3, &[1]), (7, &[63]), (63, &[0]), (0, &[7, 9])]);
        assert_eq!(found.groups(), [vec![0, 7, 63], vec![1, 2]]);
        assert!(found.has_edge(1, 2) && found.has_edge(63, 0) && found.has_edge(7, 63));
        assert!(!found.has(3) && !found.has_edge(3, 1), "3 waits for a circle, and is in none");
        assert!(!found.has_edge(0, 9));
    }
}
