//! Messages to clients that are repeated too soon.
use crate::model::client_number::PerClient;
use crate::wire::message::{Kind, Message};
use std::array;
use std::time::{Duration, Instant};

/// How long a repeat is held back.
///
/// A server repeats a push if a client seems not to have seen it, and a client acknowledges what it
/// receives again. Without this, one late acknowledgement brings a repeat, the repeat another late
/// acknowledgement, and so on forever.
///
/// A server calls back again, for each waiter, with each message that acts. A client answers each
/// callback by a release. So a busy server would repeat a callback many times before the first
/// release comes, and would have to judge as many releases.
const PAUSE_BETWEEN_REPEATS: Duration = Duration::from_millis(5);

/// What went to each client just now.
pub(crate) struct HeldBack {
    last: PerClient<Sent>,
    count: u64,
}

/// What went to a client just now.
#[derive(Default)]
struct Sent {
    push: Option<SentMessage>,
    /// The callbacks after that push. The client's release for one before it may have crossed the
    /// push, and the server passes over such a release: so that callback is not held back.
    callbacks: Vec<SentMessage>,
}

/// A message that was sent, and when.
struct SentMessage {
    message: Vec<u8>,
    sent: Instant,
}

impl HeldBack {
    pub fn new() -> HeldBack {
        HeldBack { last: array::from_fn(|_| Sent::default()), count: 0 }
    }

    /// How many repeats were held back.
    pub fn count(&self) -> u64 {
        self.count
    }

    /// Whether a push went to the client within this time.
    pub fn has_pushed_within(&self, client: u8, time: Duration, now: Instant) -> bool {
        let push = self.last.get(usize::from(client)).and_then(|sent| sent.push.as_ref());
        push.is_some_and(|push| now.saturating_duration_since(push.sent) < time)
    }

    /// Whether the message went to the client just now. One that is held back counts as lost, which
    /// the protocol allows; a tick or a nudge brings it again.
    pub fn holds(&mut self, client: u8, message: Message<'_>, now: Instant) -> bool {
        let Some(sent) = self.last.get_mut(usize::from(client)) else { return false };
        let is_held = match message.kind() {
            kind if kind.is_push() => sent.holds_push(message.bytes(), now),
            Kind::Callback => sent.holds_callback(message.bytes(), now),
            _ => false,
        };
        self.count += u64::from(is_held);
        is_held
    }
}

impl Sent {
    fn holds_push(&mut self, push: &[u8], now: Instant) -> bool {
        if self.push.as_ref().is_some_and(|last| last.is(push) && last.is_of_just_now(now)) {
            return true;
        }
        self.callbacks.clear();
        let last = self.push.get_or_insert_with(|| SentMessage { message: Vec::new(), sent: now });
        last.sent = now;
        last.message.clear();
        last.message.extend_from_slice(push);
        false
    }

    fn holds_callback(&mut self, callback: &[u8], now: Instant) -> bool {
        self.callbacks.retain(|other| other.is_of_just_now(now));
        if self.callbacks.iter().any(|other| other.is(callback)) {
            return true;
        }
        self.callbacks.push(SentMessage { message: callback.to_vec(), sent: now });
        false
    }
}

impl SentMessage {
    fn is(&self, message: &[u8]) -> bool {
        self.message == message
    }

    fn is_of_just_now(&self, now: Instant) -> bool {
        now.saturating_duration_since(self.sent) < PAUSE_BETWEEN_REPEATS
    }
}

#[cfg(test)]
mod tests {
    use super::*;
    use crate::wire::message::kind::{ANSWER, CALLBACK, GRANT};
    use crate::wire::message::tests::message;

    #[test]
    fn repeats_wait() {
        let (mut held, start) = (HeldBack::new(), Instant::now());
        for kind in [GRANT, CALLBACK] {
            let [first, second] = [1, 2].map(|number| message(kind, &[3, 1, number]));
            let mut holds = |client, bytes: &[u8], after| {
                held.holds(client, Message::read(bytes), start + after)
            };
            assert!(!holds(3, &first, Duration::ZERO));
            assert!(holds(3, &first, PAUSE_BETWEEN_REPEATS / 2));
            assert!(!holds(4, &first, PAUSE_BETWEEN_REPEATS / 2), "it is another client");
            assert!(!holds(3, &first, PAUSE_BETWEEN_REPEATS));
            assert!(!holds(3, &second, PAUSE_BETWEEN_REPEATS), "it is another message");
            assert!(!holds(64, &first, Duration::ZERO));
        }
        assert_eq!(held.count(), 2);
    }

    #[test]
    fn a_callback_that_a_push_may_have_crossed_is_sent_again() {
        let (mut held, now) = (HeldBack::new(), Instant::now());
        let [callback, other] = [5, 6].map(|lo| message(CALLBACK, &[3, 1, 1, lo, 9, 0]));
        let push = message(ANSWER, &[3, 1, 1, 7]);
        let mut holds = |bytes: &[u8]| held.holds(3, Message::read(bytes), now);
        assert!(!holds(&callback) && !holds(&other));
        assert!(holds(&callback) && holds(&other));
        assert!(!holds(&push) && !holds(&callback));
        assert!(holds(&push) && holds(&callback), "a push that is held back crosses nothing");
    }

    #[test]
    fn a_message_that_is_neither_is_never_held_back() {
        let (mut held, now) = (HeldBack::new(), Instant::now());
        let epoch = message(16, &[3, 1, 1]);
        assert!((0..2).all(|_| !held.holds(3, Message::read(&epoch), now)));
    }
}
