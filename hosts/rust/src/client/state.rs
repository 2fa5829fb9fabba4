//! What a client has been asked to do, as far as it has come.
mod batch;
mod bound;
mod hold;
mod leased;
mod life;
mod pins;
mod policy;
mod request;
mod watched;
mod writing;

use crate::call::error::ErrorKind;
use crate::client::answer::{Answer, Answering, place};
use crate::client::scratch::{copied, with_room};
use crate::client::wakes::Wakes;
use crate::lease::clocks::Now;
use crate::model::change::{Outcome, Write};
use crate::model::code::Code;
use crate::model::row::Row;
use crate::proved::client_handle::{Cache, ClientHandle, Scan};
use crate::wire::message::Message;
use std::ops::Range;
use std::time::{Duration, Instant};

use batch::Report;
use bound::Wanted;
use hold::Taking;
pub use hold::{Held, PATIENCE, Purpose};
pub(crate) use life::Dropped;
use life::{Life, PerIncarnation, Stage};
use policy::contended::Attempts;
use policy::keeping::Keeping;
use policy::sharing::SharedRows;
pub(crate) use request::Asking;
use watched::Watches;

/// How often a client repeats unanswered requests, and how often an idle one shows that it is alive.
pub(crate) const BUSY_TICK: Duration = Duration::from_millis(20);
pub(crate) const IDLE_TICK: Duration = Duration::from_millis(250);

/// A read of this many keys at most asks only for those that the client does not know.
const SMALL_READ: usize = 64;

/// The name of a job.
pub(crate) type JobId = u64;

/// A job that was asked for: its name, and where its answer comes.
pub(crate) struct Asked<T> {
    pub id: JobId,
    pub answer: Answer<Result<T, ErrorKind>>,
}

/// Where the answer to a job goes, once.
struct Reply<T>(Answering<Result<T, ErrorKind>>);

impl<T> Reply<T> {
    fn end(self, answer: Result<T, ErrorKind>) {
        self.0.give(answer);
    }

    /// Gives the answer, if there is one. Otherwise the job continues.
    fn give(self, found: Result<Option<T>, Code>) -> Option<Reply<T>> {
        match found.transpose() {
            Some(answer) => {
                self.end(answer.map_err(ErrorKind::from));
                None
            }
            None => Some(self),
        }
    }
}

/// Something that takes answers of the server, with where its own answer goes.
enum Job {
    Join(Reply<()>),
    Read(Range<u64>, Reply<Vec<Row>>),
    Write(Wanted, Report),
    Forget(Range<u64>, Reply<()>),
    Hold(Taking, Reply<Held>),
    Leave(Reply<()>),
}

/// Whether a write was sent for a job, which the server may have applied.
#[derive(Clone, Copy, Debug, PartialEq, Eq)]
pub(crate) enum WasSent {
    Yes,
    No,
}

/// The state of a client: the library's client, what callers have asked, and by what the host
/// decides.
///
/// Each call takes microseconds, and none waits or reads a clock: what is decided by a clock is
/// decided by the moment that [`State::at`] was given last. There are four kinds of methods:
///
/// - A. What callers ask: [`State::read`], [`State::write`], [`State::hold`], [`State::watch`] and
///   others return an [`Asked`], whose answer comes later, or has come already. [`State::abandon`]
///   ends one for which nobody waits any more.
/// - B. What comes from the server: [`State::receive`] takes a message of the library, and
///   [`State::receive_answer`] and [`State::receive_rows`] what the server's host answers to a sign
///   and to a question.
/// - C. What time and connections bring: [`State::greet`] and [`State::disconnect`];
///   [`State::end_lease_if_over`], [`State::advance`] and [`State::tick_if_due`]; and
///   [`State::drop_all`] and [`State::begin_again`], between which the client has no incarnation.
/// - D. What is to be done next: [`State::take`] returns what leaves, [`State::next_tick`] and
///   [`State::longest_sleep`] how long nothing is due, and [`State::wakes`] the tasks to wake.
///
/// Each call begins with [`State::at`]. After all that has come is taken, [`State::advance`] lets the
/// jobs ask for locks, and then [`State::take`] follows, as it does after each call of the kind A.
pub(crate) struct State {
    client: ClientHandle,
    now: Now,
    /// None if a tick is due.
    ticked: Option<Instant>,
    /// In the order in which they came.
    open: Vec<(JobId, Job)>,
    /// Room for them, which is used again.
    spare: Vec<(JobId, Job)>,
    /// The last name that was given to a job or to a pin.
    last_name: u64,
    asking: Asking,
    watches: Watches,
    wakes: Wakes,
    life: Life,
    held: PerIncarnation,
    shared: SharedRows,
    keeping: Keeping,
    attempts: Attempts,
}

impl State {
    pub fn new(client: ClientHandle, now: Now) -> State {
        State {
            now,
            ticked: None,
            open: Vec::new(),
            spare: Vec::new(),
            last_name: 0,
            asking: Asking::Allowed,
            watches: Watches::default(),
            wakes: Wakes::default(),
            life: Life::of(client.lease().incarnation()),
            held: PerIncarnation::default(),
            shared: SharedRows::default(),
            keeping: Keeping::default(),
            attempts: Attempts::default(),
            client,
        }
    }

    /// The client at this moment, which is not before the last one. Whoever makes a call of the
    /// client gives it the moment first, read after all that the call takes has come.
    pub fn at(&mut self, now: Now) -> &mut State {
        self.now = now;
        self
    }

    /// The moment of the call that is made.
    pub fn now(&self) -> Now {
        self.now
    }

    /// Waits until the server has sent its epoch.
    pub fn join(&mut self) -> Asked<()> {
        self.add(Job::Join)
    }

    /// The rows of a range that is not empty.
    pub fn read(&mut self, keys: Range<u64>) -> Asked<Vec<Row>> {
        self.add(|reply| Job::Read(keys, reply))
    }

    pub fn write(&mut self, write: Write) -> Asked<Outcome> {
        self.add(|reply| Job::Write(Wanted::free(write), Report::Once(reply)))
    }

    /// Gives back a range that is not empty.
    pub fn forget(&mut self, keys: Range<u64>) -> Asked<()> {
        self.add(|reply| Job::Forget(keys, reply))
    }

    fn add<T>(&mut self, job: impl FnOnce(Reply<T>) -> Job) -> Asked<T> {
        let id = self.next_name();
        self.end_lease_if_over();
        let (reply, answer) = place(&self.wakes);
        let job = job(Reply(reply));
        match self.life.stage {
            Stage::Ended => job.refuse(ErrorKind::Stopped),
            Stage::Gone => job.end_after_bye(),
            Stage::Here | Stage::Returning | Stage::Finishing | Stage::Leaving => {
                self.open.push((id, job));
                self.advance(Asking::Allowed);
            }
        }
        Asked { id, answer }
    }

    /// The answer to something that needs no job.
    fn answer_at_once<T>(&mut self, answer: Result<T, ErrorKind>) -> Asked<T> {
        let (reply, asked) = place(&self.wakes);
        reply.give(answer);
        Asked { id: self.next_name(), answer: asked }
    }

    /// A name that no job and no pin of this client has.
    fn next_name(&mut self) -> u64 {
        self.last_name += 1;
        self.last_name
    }

    /// Nobody waits for the job any more: it ends for this reason.
    pub fn abandon(&mut self, job: JobId, why: ErrorKind) {
        if let Some(written) = self.held.written.take_if(|written| written.id == job) {
            written.refuse(why);
        }
        self.unwatch(job);
        self.refuse(job, why);
    }

    /// Whether a write was sent for this job and is not judged.
    pub fn was_sent(&self, job: JobId) -> WasSent {
        let is_its = self.held.written.as_ref().is_some_and(|written| written.id == job);
        if is_its { WasSent::Yes } else { WasSent::No }
    }

    /// Whether the job waits for its answer.
    pub fn is_open(&self, job: JobId) -> bool {
        self.open.iter().any(|(id, _)| *id == job)
    }

    /// Ends this job for this reason, if it is open.
    pub fn refuse(&mut self, job: JobId, why: ErrorKind) {
        if let Some(place) = self.open.iter().position(|(id, _)| *id == job) {
            let (id, job) = self.open.remove(place);
            self.refuse_one(id, job, why);
        }
    }

    /// Ends each job for this reason; but a write that was sent for the other one, if there is one,
    /// and otherwise it continues.
    pub fn refuse_all(&mut self, why: ErrorKind, of_sent: Option<ErrorKind>) {
        for (id, job) in std::mem::take(&mut self.open) {
            self.refuse_one(id, job, why);
        }
        self.watches.refuse_all(why);
        if let Some(why) = of_sent
            && let Some(written) = self.held.written.take()
        {
            written.refuse(why);
        }
    }

    /// The job ends for this reason, and what it has pinned on its way is free again.
    fn refuse_one(&mut self, id: JobId, mut job: Job, why: ErrorKind) {
        self.withdraw_question(id);
        match &mut job {
            Job::Hold(taking, _) => self.give_up(id, taking),
            Job::Write(wanted, _) => self.let_go(id, wanted),
            _ => {}
        }
        job.refuse(why);
    }

    /// Whether something is asked that the server has not answered.
    pub fn are_open(&self) -> bool {
        let is_asked =
            !self.open.is_empty() || self.held.written.is_some() || self.held.pins.are_open();
        is_asked || self.life.is_leaving()
    }

    /// What the client knows, for threads that read it next to these calls.
    pub fn cache(&self) -> Cache {
        self.client.cache()
    }

    /// The tasks that were answered. Whoever makes a call of the client wakes them after it.
    pub fn wakes(&self) -> Wakes {
        self.wakes.clone()
    }

    /// Gives the client a message of the server, and continues with its jobs at once: a callback
    /// after it may take away what it gave.
    ///
    /// A void client drops what comes: it was meant for the incarnation before. So does one whose
    /// lease has ended.
    pub fn receive(&mut self, message: &[u8]) -> Result<(), Code> {
        self.end_lease_if_over();
        if self.is_void() {
            return Ok(());
        }
        if message.is_empty() {
            self.life.note_bye_kept();
        } else {
            self.step(Message::read(message))?;
        }
        self.watches.note_change();
        self.advance(Asking::Later);
        Ok(())
    }

    /// The next tick is due at once: there is a new connection.
    pub fn tick_soon(&mut self) {
        self.ticked = None;
    }

    /// How long a tick comes after the one before.
    pub fn pace(&self) -> Duration {
        if self.are_open() { BUSY_TICK } else { IDLE_TICK }
    }

    /// How soon the next tick is due.
    pub fn next_tick(&self) -> Duration {
        let since = |ticked| self.now.monotonic.saturating_duration_since(ticked);
        self.ticked.map_or(Duration::ZERO, |ticked| self.pace().saturating_sub(since(ticked)))
    }

    /// Ticks, if the last tick is long enough ago.
    pub fn tick_if_due(&mut self) {
        if self.next_tick().is_zero() {
            self.ticked = Some(self.now.monotonic);
            self.tick();
        }
    }

    /// Repeats what is not answered. A tick that gets no memory counts as a lost message. Before the
    /// incarnation is kept nothing can leave, and nothing more has to wait.
    pub fn tick(&mut self) {
        if !self.client.is_kept() {
            return;
        }
        let _ = match self.life.stage {
            Stage::Here | Stage::Returning | Stage::Finishing => {
                self.yield_again();
                self.repeat_question();
                self.client.tick()
            }
            Stage::Leaving => self.client.leave(),
            Stage::Gone | Stage::Ended => Ok(()),
        };
    }

    /// Continues with every job as far as it comes without another message.
    pub fn advance(&mut self, asking: Asking) {
        if self.is_void() {
            return;
        }
        self.asking = asking;
        self.end_written();
        self.finish_if_leaving();
        self.free_pins();
        let spare = std::mem::take(&mut self.spare);
        let mut jobs = std::mem::replace(&mut self.open, spare);
        for (id, job) in jobs.drain(..) {
            if let Some(job) = self.advance_one(id, job) {
                self.open.push((id, job));
            }
        }
        self.spare = jobs;
        self.give_back();
        self.give_back_unkept();
        self.report_changes();
    }

    /// The job as far as it has come, unless it has ended or its write is on its way.
    fn advance_one(&mut self, id: JobId, job: Job) -> Option<Job> {
        match job {
            Job::Join(reply) => {
                let shown = self.client.status();
                reply.give(shown.map(|shown| (shown.epoch > 0).then_some(()))).map(Job::Join)
            }
            Job::Read(keys, reply) => {
                let rows = self.try_read(id, &keys);
                if !matches!(rows, Ok(None)) {
                    self.withdraw_question(id);
                }
                reply.give(rows).map(|reply| Job::Read(keys, reply))
            }
            Job::Write(wanted, report) => self.advance_write(id, wanted, report),
            Job::Forget(keys, reply) => {
                let is_done = self.try_forget(&keys);
                let done = is_done.map(|is_done| is_done.then_some(()));
                reply.give(done).map(|reply| Job::Forget(keys, reply))
            }
            Job::Hold(taking, reply) => self.advance_hold(id, taking, reply),
            Job::Leave(reply) => {
                let is_gone = self.life.stage == Stage::Gone;
                reply.give(Ok(is_gone.then_some(()))).map(Job::Leave)
            }
        }
    }

    fn try_read(&mut self, id: JobId, keys: &Range<u64>) -> Result<Option<Vec<Row>>, Code> {
        with_room(|room| match self.client.scan(keys, room, self.now)? {
            Scan::Rows => {
                if self.has_asked(id) {
                    self.note_locked_read(keys, room.len());
                }
                copied(room).map(Some)
            }
            Scan::Miss(_) if self.reads_without_lock(id, keys) => {
                self.ask_for_rows(id, keys);
                Ok(None)
            }
            Scan::Miss(point) if self.may_ask(id, point) => {
                let unknown = point..self.end_of_unknown(&(point..keys.end), room);
                self.ask_to_read(id, unknown).map(|_| None)
            }
            Scan::Miss(_) | Scan::Pending | Scan::Ended => Ok(None),
        })
    }

    /// Where the last of these points that the client does not know ends, if they are few: a grant
    /// brings each row that is asked for, also one that the client has. The client does not know
    /// the first of them.
    fn end_of_unknown(&self, points: &Range<u64>, room: &mut Vec<Row>) -> u64 {
        let Range { start: mut unknown, end: mut known } = *points;
        if known - unknown > SMALL_READ as u64 {
            return known;
        }
        room.clear();
        // Without room for the few rows each question would be answered that it is too short.
        if room.try_reserve(SMALL_READ).is_err() {
            return known;
        }
        while known - unknown > 1 {
            let middle = u64::midpoint(unknown, known);
            match self.client.known(&(middle..points.end), room) {
                Ok(Scan::Rows) => known = middle,
                _ => unknown = middle,
            }
        }
        known
    }

    /// Gives back what the client holds of the keys, if nothing hinders it just now.
    fn try_forget(&mut self, keys: &Range<u64>) -> Result<bool, Code> {
        let is_given_back = is_taken(self.client.forget(keys))?;
        if is_given_back {
            self.watches.note_change();
        }
        Ok(is_given_back)
    }
}

/// Whether the library has taken a request, which it does not while something hinders it.
fn is_taken(request: Result<(), Code>) -> Result<bool, Code> {
    match request {
        Ok(()) => Ok(true),
        Err(Code::Busy | Code::Writing | Code::NotJoined) => Ok(false),
        Err(code) => Err(code),
    }
}

#[cfg(test)]
mod tests;
#[cfg(test)]
pub(crate) mod world;
