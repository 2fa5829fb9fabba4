//! The log, on standard error.
//!
//! A thread of its own writes it. So logging never waits for the reader of the log, and a line
//! that can't be written is lost and counted: the server continues.
use super::output;
use crate::settings::{LogFormat, Settings};
use krl::operate::RateLimit;
use std::io::{self, Write};
use std::sync::atomic::{AtomicU64, Ordering};
use std::sync::mpsc::{Receiver, SyncSender, TrySendError, sync_channel};
use std::thread;
use std::time::{Duration, Instant};
use tracing::level_filters::LevelFilter;
use tracing_subscriber::filter::Targets;
use tracing_subscriber::layer::SubscriberExt;
use tracing_subscriber::util::SubscriberInitExt;

/// The most lines that wait to be written. One more is lost.
const MAX_WAITING: usize = 1024;

/// How long a process that ends waits until its last lines are written.
const LAST_LINES_WAIT: Duration = Duration::from_millis(500);

/// How long to wait before a queue that is full is tried again.
const FULL_QUEUE_PAUSE: Duration = Duration::from_millis(5);

/// How many lines were lost.
static LOST: AtomicU64 = AtomicU64::new(0);

/// What the writing thread receives.
enum Order {
    Write(Vec<u8>),
    /// All before is to be written, and then this is answered.
    Finish(SyncSender<()>),
}

/// The way to the writing thread.
#[derive(Clone)]
struct Queue(SyncSender<Order>);

/// The log. What was logged is written when it is dropped, if it can be.
#[must_use = "the last lines are written when it is dropped"]
pub struct Log(Option<Queue>);

/// How many lines could not be written since the start.
pub fn lost() -> u64 {
    LOST.load(Ordering::Relaxed)
}

/// From now on events are written to standard error, as configured. A second call keeps the first
/// log.
pub fn start(settings: &Settings) -> io::Result<Log> {
    let queue = Queue::new(io::stderr())?;
    let writer = queue.clone();
    let level = settings.log_level;
    let log = tracing_subscriber::fmt()
        .with_max_level(level)
        .with_writer(move || writer.clone())
        .with_target(false);
    let shown = shown_at(level);
    let started = match settings.log_format {
        LogFormat::Text => log.finish().with(shown).try_init(),
        LogFormat::Json => log.json().flatten_event(true).finish().with(shown).try_init(),
    };
    // It fails if there is a log already.
    Ok(Log(started.is_ok().then_some(queue)))
}

/// Which events are shown at this level: those of krl up to it, and warnings and errors of the
/// libraries that it uses.
fn shown_at(level: LevelFilter) -> Targets {
    Targets::new().with_target("krl", level).with_default(level.min(LevelFilter::WARN))
}

impl Drop for Log {
    fn drop(&mut self) {
        if let Some(queue) = &self.0 {
            queue.finish(LAST_LINES_WAIT);
        }
    }
}

impl Queue {
    /// Has a thread of its own write to this.
    fn new(output: impl Write + Send + 'static) -> io::Result<Queue> {
        let (queue, orders) = sync_channel(MAX_WAITING);
        thread::Builder::new().name("log".to_string()).spawn(move || write_all(&orders, output))?;
        Ok(Queue(queue))
    }

    /// Waits until all is written, but not longer than this.
    fn finish(&self, longest: Duration) {
        let end = Instant::now() + longest;
        let (reply, answer) = sync_channel(1);
        let mut order = Order::Finish(reply);
        while let Err(TrySendError::Full(refused)) = self.0.try_send(order) {
            if Instant::now() >= end {
                return;
            }
            order = refused;
            thread::sleep(FULL_QUEUE_PAUSE);
        }
        let _ = answer.recv_timeout(end.saturating_duration_since(Instant::now()));
    }
}

/// Each event is written by one call.
impl Write for Queue {
    fn write(&mut self, line: &[u8]) -> io::Result<usize> {
        if self.0.try_send(Order::Write(line.to_vec())).is_err() {
            LOST.fetch_add(1, Ordering::Relaxed);
        }
        Ok(line.len())
    }

    fn flush(&mut self) -> io::Result<()> {
        Ok(())
    }
}

fn write_all(orders: &Receiver<Order>, mut output: impl Write) {
    let mut losses = Losses::default();
    for order in orders {
        match order {
            Order::Write(line) => match output.write_all(&line) {
                Ok(()) => losses.report(),
                Err(_) => {
                    LOST.fetch_add(1, Ordering::Relaxed);
                }
            },
            Order::Finish(reply) => {
                // A caller that waits no longer needs no answer.
                let _ = reply.send(());
            }
        }
    }
}

/// How many lost lines the log itself has reported.
#[derive(Default)]
struct Losses {
    reported: u64,
    limit: RateLimit,
}

impl Losses {
    /// The log can be written again.
    fn report(&mut self) {
        let lost = lost();
        if lost > self.reported && self.limit.admits(Instant::now()).is_some() {
            self.reported = lost;
            tracing::warn!(lost, "lines of the log were lost");
        }
    }
}

/// Logs now and then that the store does not answer.
#[derive(Debug, Default)]
pub struct Unanswered(RateLimit);

impl Unanswered {
    pub fn log(&mut self, why: &str) {
        if let Some(passed_over) = self.0.admits(Instant::now()) {
            tracing::warn!(%why, passed_over, "the store does not answer");
        }
    }

    /// The same of a command, which has no log.
    pub fn report(&mut self, why: &str) {
        if self.0.admits(Instant::now()).is_some() {
            output::report(why);
        }
    }
}

#[cfg(test)]
mod tests {
    use super::*;
    use std::sync::mpsc::channel;

    /// An output that fails, or takes a line only when it may.
    struct Gate {
        lets: Receiver<bool>,
        took: std::sync::mpsc::Sender<Vec<u8>>,
    }

    impl Write for Gate {
        fn write(&mut self, line: &[u8]) -> io::Result<usize> {
            if !self.lets.recv().unwrap_or(false) {
                return Err(io::ErrorKind::StorageFull.into());
            }
            let _ = self.took.send(line.to_vec());
            Ok(line.len())
        }

        fn flush(&mut self) -> io::Result<()> {
            Ok(())
        }
    }

    #[test]
    fn only_events_of_krl_are_shown_below_a_warning() {
        use tracing::Level;
        let shown = shown_at(LevelFilter::TRACE);
        for target in ["krl::connections", "krl_server::log", "krl_etcd"] {
            assert!(shown.would_enable(target, &Level::TRACE), "{target}");
        }
        assert!(!shown.would_enable("hyper::proto", &Level::INFO));
        assert!(shown.would_enable("hyper::proto", &Level::WARN));
        assert!(!shown_at(LevelFilter::ERROR).would_enable("hyper::proto", &Level::WARN));
        assert!(!shown_at(LevelFilter::INFO).would_enable("krl::connections", &Level::DEBUG));
    }

    #[test]
    fn who_logs_never_waits_and_never_fails() {
        let (letting, lets) = channel();
        let (took, taken) = channel();
        let mut queue = Queue::new(Gate { lets, took }).unwrap();
        let before = lost();
        // The thread has taken one line at most, and is stopped.
        for _ in 0..MAX_WAITING + 10 {
            queue.write_all(b"line").unwrap();
        }
        assert!((9..=10).contains(&(lost() - before)), "{}", lost() - before);
        letting.send(false).unwrap();
        letting.send(true).unwrap();
        assert_eq!(taken.recv().unwrap(), b"line", "one failed, and the next one was written");
        assert!(lost() - before >= 10);
        drop(letting);
        queue.finish(Duration::from_secs(60));
        assert!(lost() - before >= MAX_WAITING as u64, "{}", lost() - before);
    }
}
