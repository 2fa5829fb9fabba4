//! Explores all states of a world that can be reached, by whatever order of steps.
use crate::world::{State, World};
use crate::{database, krl, reader};
use std::collections::HashSet;
use std::hash::{BuildHasher, RandomState};

/// What an exploration has found.
#[derive(Debug)]
pub struct Explored {
    pub states: usize,
    /// The shortest way to a state in which a read would be stale, if there is one.
    pub stale: Option<Vec<State>>,
}

/// A state, and the place of the one before it.
struct Reached {
    state: State,
    before: usize,
}

/// Explores a world to its end, or until a read would be stale.
///
/// A state that was seen is known again by a hash of 64 bits. That another state has the same one,
/// and is left out, has a chance of less than one in a million.
pub fn explore(world: &World) -> Explored {
    let hash = RandomState::new();
    let first = State::first(world);
    let mut seen = HashSet::from([hash.hash_one(first)]);
    let mut reached = vec![Reached { state: first, before: 0 }];
    let mut after = Vec::new();
    let mut place = 0;
    while let Some(Reached { state, .. }) = reached.get(place) {
        next(world, state, &mut after);
        for state in after.drain(..) {
            if !seen.insert(hash.hash_one(state)) {
                continue;
            }
            reached.push(Reached { state, before: place });
            if state.is_stale(world) {
                return Explored { states: reached.len(), stale: Some(way(&reached)) };
            }
        }
        place += 1;
    }
    Explored { states: reached.len(), stale: None }
}

/// The states from the first one to the last one that was reached.
fn way(reached: &[Reached]) -> Vec<State> {
    let mut place = reached.len() - 1;
    let mut way = vec![reached[place].state];
    while place > 0 {
        place = reached[place].before;
        way.push(reached[place].state);
    }
    way.reverse();
    way
}

/// All steps that can be taken in a state. Readers that have changed places are the same world.
fn next(world: &World, state: &State, after: &mut Vec<State>) {
    database::next(world, state, after);
    krl::next(world, state, after);
    for number in 0..world.readers {
        reader::next(world, state, number, after);
    }
    for state in after {
        state.readers[..world.readers].sort_unstable();
    }
}
