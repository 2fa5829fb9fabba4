//! Acknowledgements that need no message of their own.
//!
//! Each message of a client acknowledges the last push that it has. A server needs that before its
//! next push to the same client, and has none to make as long as the client waits for nothing. So
//! the acknowledgement of the last push for which the client has waited is left out: the client's
//! next message does it, or its next tick, which an idle client sends anyway before the server
//! repeats the push (`ACKNOWLEDGED_WITHIN` of the server). A repeated push is acknowledged at once.
//! A release that leaves with such an acknowledgement makes it too.
//!
//! What others wait for comes no later: a server calls it back when it has granted it, or its host
//! has it do so (`EventLoop::send`).
use crate::client::state::State;
use crate::proved::client_handle::Shown;
use crate::wire::frames::split;
use crate::wire::message::{Kind, Message};

/// How the client acknowledges what it has received since it last sent something.
#[derive(Clone, Copy, Debug, Default, PartialEq, Eq)]
pub enum Acknowledging {
    /// By a message.
    #[default]
    AtOnce,
    /// By its next message: it has received the one push for which it has waited.
    Later,
}

impl State {
    /// The client has received a message of this kind. `awaited` is whether it waited for a push.
    pub(in crate::client::state) fn note_received(&mut self, kind: Kind, awaited: bool) {
        self.held.acknowledging = if awaited && self.acknowledges_later(kind) {
            Acknowledging::Later
        } else {
            Acknowledging::AtOnce
        };
    }

    /// Whether its next message may acknowledge a message of this kind that it has awaited: it is the
    /// last push for which it waits.
    fn acknowledges_later(&self, kind: Kind) -> bool {
        kind.is_push() && !self.shows(Shown::awaits_a_push)
    }

    /// Leaves out the acknowledgement with which begins what the client sends from this place on, if
    /// it can wait and nothing but a release comes next.
    pub(in crate::client::state) fn leave_out_acknowledgement(
        &mut self,
        frames: &mut Vec<u8>,
        from: usize,
    ) {
        let how = std::mem::take(&mut self.held.acknowledging);
        if how == Acknowledging::Later
            && let Some(length) = needless_acknowledgement(&frames[from..])
        {
            frames.drain(from..from + length);
        }
    }
}

/// The length of the first frame, if it is an acknowledgement, and is the only frame or is followed
/// by a release, which acknowledges as well.
fn needless_acknowledgement(frames: &[u8]) -> Option<usize> {
    let kinds = split(frames).map(|(message, frame)| (Message::read(message).kind(), frame.len()));
    let mut kinds = kinds.take(2);
    let (first, length) = kinds.next()?;
    let is_last = kinds.next().is_none_or(|(next, _)| next == Kind::Release);
    (first == Kind::Ack && is_last).then_some(length)
}

#[cfg(test)]
mod tests {
    use super::needless_acknowledgement;
    use crate::client::state::world::{World, row};
    use crate::model::change::{Outcome, Write};
    use crate::wire::message::kind::{ACK, LOCK, RELEASE};
    use crate::wire::message::tests::message;

    /// The kind of a put.
    const PUT: u8 = 5;

    /// The kinds of what the client sends.
    fn kinds_sent(world: &mut World, client: usize) -> Vec<u8> {
        world.messages_of(client).iter().map(|message| message[1]).collect()
    }

    #[test]
    fn the_last_push_for_which_a_client_waits_is_acknowledged_by_its_next_message() {
        let mut world = World::new();
        let read = world.clients[0].read(0..5);
        let asked = world.messages_of(0);
        world.deliver_to_server(&asked);
        assert_eq!(world.deliver_to_clients(), 1);
        assert_eq!(read.answer.try_recv(), Ok(Ok(vec![])));
        assert!(kinds_sent(&mut world, 0).is_empty());
        // The next request does it, so the server answers.
        assert_eq!(world.write(0, Write::Insert(row(3, 1))), Outcome::Applied);
        assert_eq!(world.read(1, 0..5), [row(3, 1)]);
    }

    #[test]
    fn a_push_that_comes_again_is_acknowledged_at_once() {
        let mut world = World::new();
        let _read = world.clients[0].read(0..5);
        let asked = world.messages_of(0);
        world.deliver_to_server(&asked);
        assert_eq!(world.deliver_to_clients(), 1);
        assert!(kinds_sent(&mut world, 0).is_empty());
        world.server.nudge(0).unwrap();
        assert_eq!(world.deliver_to_clients(), 1, "the server lacks the acknowledgement");
        assert_eq!(kinds_sent(&mut world, 0), [ACK]);
    }

    #[test]
    fn only_a_release_acknowledges_in_place_of_an_acknowledgement() {
        let frame = |kind: &u8| {
            let message = message(*kind, &[3, 1, 1, 4]);
            [&(message.len() as u64).to_le_bytes()[..], &message].concat()
        };
        let length = Some(frame(&ACK).len());
        for (kinds, left_out) in [
            (&[ACK][..], length),
            (&[ACK, RELEASE], length),
            (&[ACK, RELEASE, LOCK], length),
            (&[ACK, PUT], None),
            (&[ACK, LOCK], None),
            (&[RELEASE, ACK], None),
            (&[], None),
        ] {
            let frames: Vec<u8> = kinds.iter().flat_map(frame).collect();
            assert_eq!(needless_acknowledgement(&frames), left_out, "{kinds:?}");
        }
    }

    #[test]
    fn a_tick_acknowledges() {
        let mut world = World::new();
        world.read(0, 0..5);
        world.clients[0].tick();
        assert_eq!(kinds_sent(&mut world, 0), [ACK]);
    }

    #[test]
    fn a_client_that_waits_for_another_push_acknowledges_at_once() {
        let mut world = World::new();
        assert_eq!(world.write(1, Write::Insert(row(10, 1))), Outcome::Applied);
        assert_eq!(world.write(0, Write::Insert(row(3, 1))), Outcome::Applied);
        let write = world.clients[0].write(Write::Put(row(3, 2)));
        let read = world.clients[0].read(10..11);
        let asked = world.messages_of(0);
        assert_eq!(asked.len(), 2);
        world.deliver_to_server(&asked);
        world.deliver_to_clients();
        assert!(read.answer.try_recv().is_err());
        let sent = world.messages_of(0);
        assert!(sent.iter().any(|message| message[1] == ACK));
        world.deliver_to_server(&sent);
        // The server has passed over the request, which left before the answer had come.
        world.clients[0].tick();
        world.settle();
        assert_eq!(write.answer.try_recv(), Ok(Ok(Outcome::Applied)));
        assert_eq!(read.answer.try_recv(), Ok(Ok(vec![row(10, 1)])));
    }
}
