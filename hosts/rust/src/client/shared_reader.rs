//! What a client of one server reads and does not keep, by a connection of its own.
use crate::call::error::ErrorKind;
use crate::client::alarm::Alarm;
use crate::client::answer::{Answering, place};
use crate::client::link::Link;
use crate::client::reader::{ServerReader, Until};
use crate::client::turns::Turns;
use crate::client::waiting::Waiting;
use crate::client::wakes::Wakes;
use crate::model::row::Row;
use std::io;
use std::ops::Range;
use std::panic::{AssertUnwindSafe, catch_unwind};
use std::sync::mpsc::{Receiver, Sender, channel};
use std::sync::{Arc, Mutex, MutexGuard, PoisonError};
use std::thread;
use std::time::{Duration, Instant};

/// How long after its deadline a task waits for the thread that reads for it: that may know why it has
/// no answer.
const LATE: Duration = Duration::from_millis(50);

/// A reader for threads, which take turns, and for tasks: a thread reads for these, one after the
/// other.
pub(crate) struct SharedReader {
    source: Arc<Source>,
    /// What tasks ask. It is made, and the thread started, when one asks first; and the thread ends
    /// after it.
    asked: Mutex<Option<Sender<Question>>>,
    wakes: Wakes,
    /// When tasks give up whose turn does not come.
    alarm: Arc<Alarm>,
}

/// What answers one call after the other.
struct Source {
    reader: Turns<ServerReader>,
    /// The client's own connection, which knows when the client leaves.
    link: Arc<Link>,
}

/// What a task asks.
#[derive(Debug)]
struct Question {
    keys: Range<u64>,
    deadline: Instant,
    answering: Answering<Answered>,
}

type Answered = Result<Vec<Row>, ErrorKind>;

impl SharedReader {
    /// It connects at its first call.
    pub fn new(link: Arc<Link>) -> SharedReader {
        let reader = Turns::new(ServerReader::new(link.servers().clone()));
        let source = Arc::new(Source { reader, link });
        let (asked, wakes, alarm) = (Mutex::default(), Wakes::default(), Arc::default());
        SharedReader { source, asked, wakes, alarm }
    }

    /// The rows of the keys, as the store has them. It ends at its deadline, also if others read that
    /// have a later one.
    pub async fn read(&self, keys: Range<u64>, deadline: Instant, waiting: Waiting) -> Answered {
        let asked = match waiting {
            Waiting::OnThread => None,
            // If the system gives no thread, this one reads.
            Waiting::InTask => self.asked().ok(),
        };
        let Some(asked) = asked else { return self.source.read(keys, deadline) };
        let (answering, answer) = place(&self.wakes);
        // It would fail only without the thread, which then answers nothing.
        let _ = asked.send(Question { keys, deadline, answering });
        let end = deadline + LATE;
        match self.alarm.until(end, waiting, |context| answer.poll(context)).await {
            Some(answered) => answered.unwrap_or(Err(ErrorKind::Stopped)),
            None => Err(ErrorKind::TimedOut),
        }
    }

    /// Where tasks ask.
    fn asked(&self) -> io::Result<Sender<Question>> {
        let mut asked = lock(&self.asked);
        match &*asked {
            Some(asked) => Ok(asked.clone()),
            None => Ok(asked.insert(self.start()?).clone()),
        }
    }

    /// Starts the thread that reads for tasks.
    fn start(&self) -> io::Result<Sender<Question>> {
        let (sender, asked) = channel();
        let (source, wakes) = (Arc::clone(&self.source), self.wakes.clone());
        let thread = thread::Builder::new().name("krl-reader".into());
        thread.spawn(move || answer_all(&asked, &source, &wakes))?;
        Ok(sender)
    }
}

impl Source {
    /// The rows of the keys, as the store has them. It ends with `Left` once the client leaves.
    fn read(&self, keys: Range<u64>, deadline: Instant) -> Answered {
        let read = |reader: &mut ServerReader| {
            let mut until = Until { deadline, standing: &mut || self.link.standing() };
            until.refuse_elsewhere()?;
            reader.read(keys, &mut until)
        };
        self.reader.use_by(deadline, read).unwrap_or(Err(ErrorKind::TimedOut))
    }
}

/// Reads what is asked, until nobody can ask any more.
fn answer_all(asked: &Receiver<Question>, source: &Source, wakes: &Wakes) {
    for Question { keys, deadline, answering } in asked {
        // A panic ends the call, and no other one.
        let read = AssertUnwindSafe(|| source.read(keys, deadline));
        answering.give(catch_unwind(read).unwrap_or(Err(ErrorKind::Stopped)));
        wakes.wake_all();
    }
}

fn lock<T>(mutex: &Mutex<T>) -> MutexGuard<'_, T> {
    mutex.lock().unwrap_or_else(PoisonError::into_inner)
}
