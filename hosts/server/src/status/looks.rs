//! Looks at who holds what, for pictures: no more than the server's loop has time for.
//!
//! The server goes through its whole table for each client, and every viewer reads a page again
//! each second. So all viewers share one look at each range, which a thread makes again for as long
//! as somebody asks. After each part of it, that thread pauses for long enough that all looks take
//! less than one percent of the loop's time.
use krl::operate::Monitor;
use krl::operate::{HeldPage, HeldRun, HeldSearch, LocksError};
use std::collections::BTreeMap;
use std::ops::Range;
use std::sync::{Arc, Mutex, MutexGuard, PoisonError};
use std::thread;
use std::time::{Duration, Instant};
use tokio::sync::Notify;
use tokio::time::timeout;

/// The time from one look to the next, if there is time for it.
const LOOK_PERIOD: Duration = Duration::from_millis(500);

/// How many clients a server may have.
const CLIENTS: usize = 64;

/// Looks take one part in this many of the loop's time.
const SHARE: u32 = 125;

/// The most bars of a picture.
const MAX_BARS: usize = 1000;

/// The most ranges that are looked at.
const MAX_VIEWS: usize = 8;

/// A range for which nobody has asked for this long is no longer looked at.
const FORGOTTEN: Duration = Duration::from_secs(10);

/// How long the first viewers wait for a look to be complete.
const FIRST_LOOK_WAIT: Duration = Duration::from_secs(1);

/// The looks of a process at its server.
#[derive(Clone, Debug, Default)]
pub struct Looks(Arc<Shared>);

#[derive(Debug, Default)]
struct Shared {
    views: Mutex<Views>,
    has_seen: Notify,
}

/// What was seen of a range.
#[derive(Clone, Debug, Default, PartialEq, Eq)]
pub struct Held {
    /// The runs that meet the range, in ascending order. Those of one client do not overlap.
    pub runs: Vec<HeldRun>,
    /// Where the points begin for which nothing is shown, if there are more runs than a picture
    /// has.
    pub next: Option<u64>,
    /// The clients that were looked at.
    pub seen: Vec<u8>,
    /// How old the oldest part of what was seen is; none if not all clients were seen.
    pub age: Option<Duration>,
}

/// The ranges that are looked at.
#[derive(Debug, Default)]
struct Views {
    views: Vec<View>,
    /// A thread looks.
    are_looked_at: bool,
}

/// A range, and what was seen of it.
#[derive(Debug)]
struct View {
    monitor: Monitor,
    /// The epoch of the server.
    epoch: u64,
    points: Range<u64>,
    asked_first: Instant,
    asked: Instant,
    /// The look that continues, and when it began.
    search: Option<HeldSearch>,
    began: Option<Instant>,
    seen: BTreeMap<u8, Seen>,
    failure: Option<LocksError>,
}

/// What was seen of a client.
#[derive(Clone, Debug)]
struct Seen {
    at: Instant,
    runs: Vec<HeldRun>,
}

/// How long to pause after a look that kept the loop busy for this time.
fn rest_after(took: Duration) -> Duration {
    took * (SHARE - 1)
}

impl Looks {
    /// Who holds what of these points, as it was seen last.
    ///
    /// # Errors
    ///
    /// Those of [`HeldSearch::go_on`].
    pub async fn at(
        &self,
        monitor: &Monitor,
        epoch: u64,
        points: &Range<u64>,
    ) -> Result<Held, LocksError> {
        self.ask(monitor, epoch, points);
        while !self.lock().shows(epoch, points, Instant::now()) {
            // What is seen just now is found by the next try.
            let _ = timeout(Duration::from_millis(20), self.0.has_seen.notified()).await;
        }
        self.lock().held(epoch, points, Instant::now())
    }

    /// Has the range looked at.
    fn ask(&self, monitor: &Monitor, epoch: u64, points: &Range<u64>) {
        let mut views = self.lock();
        views.ask(monitor, epoch, points, Instant::now());
        if !views.are_looked_at {
            let looks = self.clone();
            let looker = thread::Builder::new().name("looks".to_string());
            // Without a thread nothing is seen until a viewer asks again.
            views.are_looked_at = looker.spawn(move || looks.look()).is_ok();
        }
    }

    /// Looks until nobody asks any more.
    fn look(&self) {
        while let Some(work) = self.next() {
            let took = match work {
                Work::Rest(time) => {
                    thread::sleep(time);
                    continue;
                }
                Work::Look { monitor, mut search, epoch, points } => {
                    let page = search.go_on(&monitor);
                    let took = page.as_ref().map_or(LOOK_PERIOD / SHARE, |page| page.took);
                    self.lock().take(epoch, &points, search, page, Instant::now());
                    took
                }
            };
            self.0.has_seen.notify_waiters();
            thread::sleep(rest_after(took));
        }
    }

    fn next(&self) -> Option<Work> {
        let mut views = self.lock();
        let work = views.next(Instant::now());
        views.are_looked_at = work.is_some();
        work
    }

    fn lock(&self) -> MutexGuard<'_, Views> {
        self.0.views.lock().unwrap_or_else(PoisonError::into_inner)
    }
}

/// What the thread that looks does next.
#[derive(Debug)]
enum Work {
    Rest(Duration),
    Look { monitor: Monitor, search: HeldSearch, epoch: u64, points: Range<u64> },
}

impl Views {
    /// Somebody asks for this range now. If there are too many ranges, what was seen of the one
    /// that has not been asked for the longest is dropped.
    fn ask(&mut self, monitor: &Monitor, epoch: u64, points: &Range<u64>, now: Instant) {
        if let Some(view) = self.view(epoch, points) {
            view.asked = now;
            return;
        }
        self.views.sort_by_key(|view| std::cmp::Reverse(view.asked));
        self.views.truncate(MAX_VIEWS - 1);
        self.views.push(View {
            monitor: monitor.clone(),
            epoch,
            points: points.clone(),
            asked_first: now,
            asked: now,
            search: None,
            began: None,
            seen: BTreeMap::new(),
            failure: None,
        });
    }

    fn view(&mut self, epoch: u64, points: &Range<u64>) -> Option<&mut View> {
        self.views.iter_mut().find(|view| view.epoch == epoch && view.points == *points)
    }

    /// What to do next, or none if nobody asks for anything any more.
    fn next(&mut self, now: Instant) -> Option<Work> {
        self.views.retain(|view| now.saturating_duration_since(view.asked) < FORGOTTEN);
        let place = (0..self.views.len()).min_by_key(|place| self.views[*place].rest(now))?;
        let rest = self.views[place].rest(now);
        if !rest.is_zero() {
            return Some(Work::Rest(rest));
        }
        // The others have their turns before it has the next one.
        let mut view = self.views.remove(place);
        let work = view.work(now);
        self.views.push(view);
        Some(work)
    }

    /// A page of the range was looked up.
    fn take(
        &mut self,
        epoch: u64,
        points: &Range<u64>,
        search: HeldSearch,
        page: Result<HeldPage, LocksError>,
        now: Instant,
    ) {
        let Some(view) = self.view(epoch, points) else { return };
        view.search = (!search.is_done()).then_some(search);
        match page {
            Ok(page) => {
                let seen = page.clients.into_iter();
                view.seen.extend(seen.map(|(client, runs)| (client, Seen { at: now, runs })));
                view.failure = None;
            }
            Err(error) => view.failure = Some(error),
        }
    }

    /// Whether what was seen of the range is shown now. A look at a large table continues after
    /// that.
    fn shows(&mut self, epoch: u64, points: &Range<u64>, now: Instant) -> bool {
        self.view(epoch, points).is_none_or(|view| {
            let age = now.saturating_duration_since(view.asked_first);
            view.is_whole() || view.failure.is_some() || age >= FIRST_LOOK_WAIT
        })
    }

    fn held(&mut self, epoch: u64, points: &Range<u64>, now: Instant) -> Result<Held, LocksError> {
        let Some(view) = self.view(epoch, points) else { return Ok(Held::default()) };
        match view.failure {
            Some(error) => Err(error),
            None => Ok(view.held(now)),
        }
    }
}

impl View {
    /// For how long nothing has to be done for it.
    fn rest(&self, now: Instant) -> Duration {
        match (self.began, &self.search) {
            (Some(began), None) => LOOK_PERIOD.saturating_sub(now.saturating_duration_since(began)),
            _ => Duration::ZERO,
        }
    }

    /// Continues with its look, or begins one.
    fn work(&mut self, now: Instant) -> Work {
        let Range { start, end } = self.points;
        let search = self.search.take().or_else(|| {
            self.began = Some(now);
            HeldSearch::new(start..end, MAX_BARS + 1).ok()
        });
        match search {
            Some(search) => {
                let (monitor, points) = (self.monitor.clone(), self.points.clone());
                Work::Look { monitor, search, epoch: self.epoch, points }
            }
            None => Work::Rest(LOOK_PERIOD),
        }
    }

    /// Whether each client was seen.
    fn is_whole(&self) -> bool {
        self.seen.len() == CLIENTS
    }

    fn held(&self, now: Instant) -> Held {
        let oldest = self.seen.values().map(|seen| seen.at).min().filter(|_| self.is_whole());
        let mut runs: Vec<_> = self.seen.values().flat_map(|seen| &seen.runs).copied().collect();
        let next = cut(&mut runs, MAX_BARS);
        let age = oldest.map(|oldest| now.saturating_duration_since(oldest));
        Held { runs, next, seen: self.seen.keys().copied().collect(), age }
    }
}

/// Puts the runs in order, and leaves out those after the first `most`, and all that begin where
/// the first of these does. Returns where those begin, if there are any.
fn cut(runs: &mut Vec<HeldRun>, most: usize) -> Option<u64> {
    runs.sort_unstable();
    let next = runs.get(most)?.lo;
    runs.retain(|run| run.lo < next);
    for run in runs {
        run.hi = run.hi.min(next);
    }
    Some(next)
}

#[cfg(test)]
mod tests;
