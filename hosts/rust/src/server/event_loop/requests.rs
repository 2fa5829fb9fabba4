//! Which requests for locks wait, and since when; and which callbacks no release has answered.
//!
//! Which further requests are kept, and who is called back after a release, follows from it. How
//! long each took is measured too.
use crate::model::client_number::{ClientNumber, PerClient};
use crate::server::shown::timings::Timings;
use crate::wire::message::{Kind, Message};
use std::time::{Duration, Instant};

/// What a client was last seen to ask for, and since when.
#[derive(Clone, Copy)]
struct Asked {
    request: u64,
    since: Instant,
}

/// The requests that are not granted yet, and the callbacks that no release has answered yet.
pub(crate) struct OpenRequests {
    asked: PerClient<Option<Asked>>,
    last_request: PerClient<u64>,
    called_back: PerClient<Option<Instant>>,
}

impl OpenRequests {
    pub fn new() -> OpenRequests {
        OpenRequests {
            asked: [None; ClientNumber::COUNT as usize],
            last_request: [0; ClientNumber::COUNT as usize],
            called_back: [None; ClientNumber::COUNT as usize],
        }
    }

    /// A message of the client was taken.
    pub fn received(&mut self, client: u8, message: Message<'_>, now: Instant, timings: &Timings) {
        let place = usize::from(client);
        match (message.kind(), message.request()) {
            // Only a request that is new begins: a client repeats one that is not answered, and a
            // repeat may come after the grant.
            (Kind::Lock, Some(request)) if request != self.last_request[place] => {
                self.last_request[place] = request;
                self.asked[place] = Some(Asked { request, since: now });
            }
            (Kind::Release, _) => {
                if let Some(since) = self.called_back[place].take() {
                    timings.released(now.saturating_duration_since(since));
                }
            }
            // What an earlier incarnation asked, or was asked to give back, is over.
            (Kind::Hello, _) => self.forget(place),
            _ => {}
        }
    }

    /// Whether a request for a lock is another one than the client's last one.
    pub fn is_new(&self, client: u8, message: Message<'_>) -> bool {
        let last = self.last_request.get(usize::from(client));
        last.is_some_and(|last| message.request().is_some_and(|request| request != *last))
    }

    /// How many requests wait that have waited for less than this.
    pub fn count_waiting(&self, now: Instant, less_than: Duration) -> usize {
        self.left_until(now, less_than).count()
    }

    /// How long until the first of them has waited for that time.
    pub fn youth_left(&self, now: Instant, less_than: Duration) -> Option<Duration> {
        self.left_until(now, less_than).min()
    }

    /// How soon each request that has waited for less than this will have waited for so long.
    fn left_until(&self, now: Instant, end: Duration) -> impl Iterator<Item = Duration> {
        let waited = move |asked: &Asked| now.saturating_duration_since(asked.since);
        let left = move |asked: &Asked| end.saturating_sub(waited(asked));
        self.asked.iter().flatten().map(left).filter(|left| !left.is_zero())
    }

    /// A message to the client leaves.
    pub fn sent(&mut self, client: u8, message: Message<'_>, now: Instant, timings: &Timings) {
        let place = usize::from(client);
        match (message.kind(), message.request()) {
            (Kind::Grant, Some(request)) => {
                if let Some(asked) = self.asked[place].take_if(|it| it.request == request) {
                    timings.granted(now.saturating_duration_since(asked.since));
                }
            }
            // The request that waits is answered by this.
            (Kind::Absent, _) => self.asked[place] = None,
            // A callback that is sent again is as old as it was.
            (Kind::Callback, _) => {
                self.called_back[place].get_or_insert(now);
            }
            _ => {}
        }
    }

    /// The clients whose last request for a lock is not answered.
    pub fn waiting(&self) -> impl Iterator<Item = u8> {
        let asked = ClientNumber::all().zip(&self.asked);
        asked.filter_map(|(client, asked)| asked.map(|_| client))
    }

    /// Whether the client's last request for a lock is not answered.
    pub fn waits(&self, client: u8) -> bool {
        self.asked.get(usize::from(client)).is_some_and(Option::is_some)
    }

    /// The client has left: it waits for nothing, and has nothing to give back.
    pub fn left(&mut self, client: u8) {
        self.forget(usize::from(client));
    }

    fn forget(&mut self, place: usize) {
        self.asked[place] = None;
        self.last_request[place] = 0;
        self.called_back[place] = None;
    }
}

#[cfg(test)]
mod tests {
    use super::*;
    use crate::wire::message::tests::{callback, grant, hello, lock, release};

    const MS: Duration = Duration::from_millis(1);

    #[test]
    fn a_request_lasts_from_its_first_message_to_its_grant() {
        let (timings, mut open, start) = (Timings::new(), OpenRequests::new(), Instant::now());
        open.received(3, Message::read(&lock(3, 5)), start, &timings);
        open.received(3, Message::read(&lock(3, 5)), start + MS, &timings);
        open.sent(3, Message::read(&grant(3, 4)), start + 2 * MS, &timings);
        open.sent(4, Message::read(&grant(4, 5)), start + 2 * MS, &timings);
        assert_eq!(timings.read().grants.count, 0);
        open.sent(3, Message::read(&grant(3, 5)), start + 7 * MS, &timings);
        open.sent(3, Message::read(&grant(3, 5)), start + 9 * MS, &timings);
        let grants = timings.read().grants;
        assert_eq!((grants.count, grants.sum), (1, 7_000));
    }

    #[test]
    fn requests_that_have_waited_for_long_are_not_counted() {
        let (timings, mut open, start) = (Timings::new(), OpenRequests::new(), Instant::now());
        assert_eq!((open.count_waiting(start, 9 * MS), open.youth_left(start, 9 * MS)), (0, None));
        open.received(3, Message::read(&lock(3, 5)), start, &timings);
        open.received(4, Message::read(&lock(4, 5)), start + 2 * MS, &timings);
        let counted = |open: &OpenRequests, after: u32| {
            let now = start + after * MS;
            (open.count_waiting(now, 9 * MS), open.youth_left(now, 9 * MS))
        };
        assert_eq!(counted(&open, 8), (2, Some(MS)));
        assert_eq!(counted(&open, 9), (1, Some(2 * MS)));
        open.sent(4, Message::read(&grant(4, 5)), start + 10 * MS, &timings);
        assert_eq!(counted(&open, 10), (0, None));
    }

    #[test]
    fn a_late_repeat_of_a_request_is_no_new_one() {
        let (timings, mut open, start) = (Timings::new(), OpenRequests::new(), Instant::now());
        open.received(3, Message::read(&lock(3, 5)), start, &timings);
        open.sent(3, Message::read(&grant(3, 5)), start + MS, &timings);
        open.received(3, Message::read(&lock(3, 5)), start + 2 * MS, &timings);
        open.sent(3, Message::read(&grant(3, 5)), start + 9 * MS, &timings);
        assert_eq!(timings.read().grants.count, 1);
        // Another incarnation counts its requests again.
        open.received(3, Message::read(&hello(3)), start, &timings);
        open.received(3, Message::read(&lock(3, 5)), start, &timings);
        open.sent(3, Message::read(&grant(3, 5)), start + MS, &timings);
        assert_eq!(timings.read().grants.count, 2);
    }

    #[test]
    fn a_callback_lasts_until_the_next_release() {
        let (timings, mut open, start) = (Timings::new(), OpenRequests::new(), Instant::now());
        open.received(3, Message::read(&release(3)), start, &timings);
        open.sent(3, Message::read(&callback(3)), start, &timings);
        open.sent(3, Message::read(&callback(3)), start + 3 * MS, &timings);
        open.received(4, Message::read(&release(4)), start + 4 * MS, &timings);
        assert_eq!(timings.read().releases.count, 0);
        open.received(3, Message::read(&release(3)), start + 5 * MS, &timings);
        open.received(3, Message::read(&release(3)), start + 6 * MS, &timings);
        let releases = timings.read().releases;
        assert_eq!((releases.count, releases.sum), (1, 5_000));
    }
}
