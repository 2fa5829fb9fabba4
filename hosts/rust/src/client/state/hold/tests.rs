use super::*;
use crate::client::state::world::{World, pass, row};
use crate::model::change::{Outcome, Write};

const UPDATER: usize = 0;
const WRITER: usize = 1;
const READER: usize = 2;

/// A world with the rows 90 and 110, which nobody has pinned.
fn with_two_rows() -> World {
    let mut world = World::of(3);
    for key in [90, 110] {
        assert_eq!(world.write(WRITER, Write::Insert(row(key, 1))), Outcome::Applied);
    }
    world
}

/// So much time passes for all clients.
fn wait(world: &mut World, time: Duration) {
    for state in &mut world.clients {
        pass(state, time);
        state.tick_if_due();
    }
    world.settle();
}

/// What a client has pinned for an update.
fn pinned(world: &mut World, keys: Range<u64>) -> u64 {
    let held = world.clients[UPDATER].hold(keys, Purpose::Update);
    world.settle();
    held.answer.try_recv().unwrap().unwrap().pin
}

/// The reader waits for the second row after the writer, who waits for the updater, who waits for the
/// part that the reader has.
#[test]
fn a_part_that_is_called_back_gives_way_to_the_one_who_has_the_rest() {
    let mut world = with_two_rows();
    let pin = pinned(&mut world, 80..120);
    let put = world.clients[WRITER].write(Write::Put(row(110, 2)));
    world.settle();
    let held = world.clients[READER].hold(80..120, Purpose::Read);
    world.settle();
    let delete = world.clients[UPDATER].write_under(pin, Write::Delete(90));
    world.settle();
    wait(&mut world, PATIENCE / 2);
    assert!(delete.answer.try_recv().is_err(), "the reader has it pinned");
    wait(&mut world, PATIENCE / 2);
    wait(&mut world, PATIENCE / 10);
    assert_eq!(delete.answer.try_recv(), Ok(Ok(Outcome::Applied)));
    assert!(put.answer.try_recv().is_err() && held.answer.try_recv().is_err());
    world.clients[UPDATER].unpin(pin);
    wait(&mut world, PATIENCE / 10);
    assert_eq!(put.answer.try_recv(), Ok(Ok(Outcome::Applied)));
    let Held { rows, pin } = held.answer.try_recv().unwrap().unwrap();
    assert_eq!(rows, [row(110, 2)]);
    // It is the caller's now, and gives way to nobody.
    let put = world.clients[WRITER].write(Write::Put(row(110, 3)));
    wait(&mut world, 10 * PATIENCE);
    assert!(put.answer.try_recv().is_err() && world.clients[READER].holds_pin(pin));
    assert_eq!(world.clients[READER].held.takings.count(), 0);
}

#[test]
fn a_part_gives_way_until_it_is_kept() {
    for is_kept in [false, true] {
        let mut world = with_two_rows();
        let held = world.clients[READER].hold_part(80..100, Purpose::Read, PATIENCE);
        world.settle();
        let pin = held.answer.try_recv().unwrap().unwrap().pin;
        wait(&mut world, 10 * PATIENCE);
        assert!(world.clients[READER].holds_pin(pin), "nobody has called it back");
        if is_kept {
            assert!(world.clients[READER].keep_pin(pin));
        }
        let put = world.clients[WRITER].write(Write::Put(row(90, 2)));
        world.settle();
        wait(&mut world, PATIENCE);
        wait(&mut world, PATIENCE / 10);
        assert_eq!(world.clients[READER].keep_pin(pin), is_kept);
        assert_eq!(put.answer.try_recv().is_ok(), !is_kept);
    }
}
