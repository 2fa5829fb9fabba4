use super::*;
use crate::client::state::Purpose;
use crate::client::state::policy::callbacks::CONTENDED_FOR;
use crate::client::state::world::{World, pass, row};
use crate::model::change::{Outcome, Write};
use crate::model::row::END;
use crate::wire::message::kind::CALLBACK;

const KEY: u64 = 5;
const ROW: Range<u64> = KEY..KEY + 1;

/// There are ten rows, which client 1 has read.
fn world() -> World {
    let mut world = World::new();
    for key in 0..10 {
        assert_eq!(world.write(0, Write::Insert(row(key, 0))), Outcome::Applied);
    }
    world.read(1, 0..10);
    world
}

/// Client 0 writes the row, and client 1 reads it, and then this many times from its cache.
fn write_and_read(world: &mut World, number: u64, scans: usize) {
    assert_eq!(world.write(0, Write::Put(row(KEY, number))), Outcome::Applied);
    assert_eq!(world.read(1, ROW), [row(KEY, number)]);
    for _ in 0..scans {
        world.is_cached(1, ROW);
    }
}

/// It does not pay for client 1 to keep the row.
fn world_that_does_not_pay() -> World {
    let mut world = world();
    (1..100).for_each(|number| write_and_read(&mut world, number, 0));
    assert!(!world.is_cached(1, ROW));
    world
}

/// The kinds of these messages.
fn kinds(messages: &[Vec<u8>]) -> Vec<u8> {
    messages.iter().map(|message| message[1]).collect()
}

#[test]
fn rows_that_are_read_again_are_kept() {
    let mut world = world();
    for number in 1..100 {
        write_and_read(&mut world, number, 1);
        assert!(world.is_cached(1, ROW), "{number}");
    }
}

#[test]
fn a_row_whose_tenure_is_asked_for_is_kept() {
    let mut world = world();
    for number in 1..100 {
        write_and_read(&mut world, number, 0);
        let client = &world.clients[1];
        for _ in 0..2 {
            let tenure = client.cache().tenure(&ROW, &mut Vec::new(), || client.now.boot());
            assert!(tenure.is_ok_and(|tenure| tenure.is_some()), "{number}");
        }
    }
}

#[test]
fn rows_that_are_written_more_often_than_read_again_are_not_kept() {
    let mut world = world_that_does_not_pay();
    assert!(!world.clients[1].client.holds(KEY + 1), "what it has there it has given back");
    world.read(1, ROW);
    let put = world.clients[0].write(Write::Put(row(KEY, 100)));
    let sent = world.messages_of(0);
    world.deliver_to_server(&sent);
    let sent = kinds(&world.messages_of_server());
    assert!(!sent.contains(&CALLBACK), "{sent:?}");
    drop(put);
}

#[test]
fn what_is_written_is_given_back_where_it_does_not_pay_to_keep_it() {
    let mut world = world_that_does_not_pay();
    assert_eq!(world.write(1, Write::Put(row(KEY, 200))), Outcome::Applied);
    assert!(!world.clients[1].client.holds(KEY));
    assert_eq!(world.write(1, Write::Put(row(KEY + 1, 200))), Outcome::Applied);
    assert_eq!(world.read(0, KEY..KEY + 2), [row(KEY, 200), row(KEY + 1, 200)]);
}

#[test]
fn after_some_reads_the_client_keeps_again_what_it_reads() {
    let mut world = world_that_does_not_pay();
    let reads = (0..=2 * MOST_READS).take_while(|_| {
        world.read(1, ROW);
        !world.is_cached(1, ROW)
    });
    assert!(reads.count() <= usize::from(MOST_READS));
}

#[test]
fn a_client_that_keeps_all_gives_nothing_back() {
    let mut world = world();
    world.clients[1].keep_all();
    for number in 1..100 {
        write_and_read(&mut world, number, 0);
        assert!(world.is_cached(1, ROW), "{number}");
    }
}

#[test]
fn what_is_watched_is_kept() {
    let mut world = world_that_does_not_pay();
    let rows = world.read(1, ROW);
    let watched = world.clients[1].watch(ROW, rows);
    assert_eq!(watched.answer.try_recv(), Ok(Ok(())), "the client does not know it");
    for number in 100..200 {
        let rows = world.read(1, ROW);
        let watched = world.clients[1].watch(ROW, rows);
        drop(world.clients[1].forget(KEY + 1..KEY + 2));
        world.read(1, KEY - 1..KEY + 2);
        assert!(watched.answer.try_recv().is_err(), "nothing has changed before {number}");
        assert_eq!(world.write(0, Write::Put(row(KEY, number))), Outcome::Applied);
        assert_eq!(watched.answer.try_recv(), Ok(Ok(())));
    }
}

#[test]
fn what_is_pinned_is_not_given_back() {
    let mut world = world_that_does_not_pay();
    let held = world.clients[1].hold(ROW, Purpose::Write);
    world.settle();
    assert!(held.answer.try_recv().is_ok());
    assert_eq!(world.write(1, Write::Put(row(KEY, 200))), Outcome::Applied);
    assert!(world.is_cached(1, ROW));
}

#[test]
fn what_another_call_changes_is_not_given_back() {
    for is_needed in [false, true] {
        let mut world = world_that_does_not_pay();
        for client in [0, 1] {
            drop(world.clients[client].forget(0..END));
            world.settle();
        }
        pass(&mut world.clients[1], 2 * CONTENDED_FOR);
        let put = world.clients[1].write(Write::Put(row(KEY, 200)));
        let sent = world.messages_of(1);
        let held = is_needed.then(|| world.clients[1].hold(ROW, Purpose::Update));
        world.deliver_to_server(&sent);
        world.deliver_to_clients();
        assert_eq!(put.answer.try_recv(), Ok(Ok(Outcome::Applied)));
        assert_eq!(world.clients[1].client.holds(KEY), is_needed);
        world.settle();
        assert!(held.is_none_or(|held| held.answer.try_recv().is_ok()));
    }
}

#[test]
fn a_callback_of_what_is_pinned_takes_nothing() {
    let mut world = world();
    let held = world.clients[1].hold(ROW, Purpose::Read);
    world.settle();
    assert!(held.answer.try_recv().is_ok());
    let put = world.clients[0].write(Write::Put(row(KEY, 1)));
    world.settle();
    for _ in 0..ENOUGH {
        world.server.nudge(0).unwrap();
        world.settle();
    }
    assert!(put.answer.try_recv().is_err());
    assert_eq!(world.clients[1].keeping.everywhere.lost, 0);
}

#[test]
fn each_time_that_it_does_not_pay_the_client_counts_again_later() {
    let mut region = Region::default();
    let mut unkept = Vec::new();
    for turn in 0..6 {
        region.count.lost = if turn == 0 { ENOUGH } else { ENOUGH_IN_DOUBT };
        region.note_kept(0, false);
        unkept.push(region.unkept);
        while region.unkept > 0 {
            region.note_unkept(|| 0);
        }
    }
    assert_eq!(unkept, [256, 512, 1024, 2048, 4096, 4096]);
    region.count.lost = 1;
    region.note_kept(ENOUGH_IN_DOUBT, false);
    assert!(region.unkept == 0 && region.were_unkept == 0, "it pays");
    region.count.lost = ENOUGH_IN_DOUBT;
    region.note_kept(ENOUGH_IN_DOUBT, false);
    assert_eq!(region.unkept, 0, "that is little, and it has paid");
    region.note_kept(ENOUGH_IN_DOUBT, true);
    assert!(region.unkept > 0, "it does not pay elsewhere either");
}

impl Keeping {
    /// From now on the client keeps nothing for so many reads.
    pub fn keep_nothing(&mut self) {
        self.regions.iter_mut().for_each(|region| region.unkept = MOST_READS);
    }
}
