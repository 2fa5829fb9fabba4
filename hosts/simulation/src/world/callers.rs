//! What the callers of a client do, and what they are answered.
use super::{Event, Task, World};
use crate::calls::{self, Ended, Made, Pinned, Waiting, Watched, cached};
use crate::judge::{Version, Window};
use crate::record::Node;
use crate::weather::Ask;
use krl::error::{Refusal, Unsent};
use krl::sans_io::{Cached, Held, Purpose};
use krl::store::{ClientSet, Write};
use krl::{END, Error, ErrorKind, Outcome, Row, Value};
use std::ops::Range;
use std::time::Duration;

/// A client that waits is made to continue after this time.
const BUSY: Duration = Duration::from_millis(20);

/// A hasty caller waits no longer than this for its next call.
const NEXT: Duration = Duration::from_millis(20);

/// How long a caller waits for an answer, in microseconds.
const PATIENCE: Range<u64> = 50_000..20_000_000;

/// The same when all is well.
const LONG_PATIENCE: Duration = Duration::from_secs(60);

/// The longest time that a call takes when all is calm.
pub const LONGEST: Duration = Duration::from_secs(2);

impl World {
    /// The client's callers look for something to do.
    pub(super) fn call(&mut self, client: usize) {
        let pause = self.call_dice.time(self.weather.pauses[client].clone());
        self.after(pause.max(self.least_pause(client)), Event::Call { client });
        let is_quiet = self.settings.quiet.contains(&client);
        if self.machines[client].client.is_none() || is_quiet {
            return;
        }
        self.happened += 1;
        let ask = self.call_dice.weighed(&self.weather.asks).map(|place| Ask::ALL[place]);
        match ask {
            Some(Ask::Read) => self.ask_to_read(client),
            Some(Ask::Write) => self.ask_to_write(client),
            Some(Ask::Hold) => self.ask_to_hold(client),
            Some(Ask::Forget) => self.ask_to_forget(client),
            Some(Ask::Watch) => self.ask_to_watch(client),
            Some(Ask::Leave) => self.ask_to_leave(client),
            None => {}
        }
        self.send_to_server(client);
        self.look(client);
        if self.machines[client].timer.due() > self.now + BUSY {
            self.proceed_in(client, BUSY);
        }
    }

    /// A hasty caller that waits for an answer is woken by that.
    fn least_pause(&self, client: usize) -> Duration {
        let calls = &self.machines[client].calls;
        let waits = calls.reading.is_some() || calls.may_write();
        if waits { NEXT } else { Duration::ZERO }
    }

    fn made(&self) -> Made {
        Made { version: self.judge.version(), moment: self.now }
    }

    /// Until when a caller waits, by the clock of its machine.
    fn draw_deadline(&mut self, time: Duration) -> Duration {
        let drawn = self.call_dice.time(PATIENCE);
        time + if self.healed.is_some() { LONG_PATIENCE } else { drawn }
    }

    fn ask_to_read(&mut self, client: usize) {
        let (keys, made) = (self.draw_keys(), self.made());
        let machine = &mut self.machines[client];
        let time = machine.clock.at(self.now);
        let Some(it) = &mut machine.client else { return };
        match cached(it, &keys, time) {
            (Cached::Rows, rows) => {
                self.counts.cached += 1;
                machine.is_served[0] |= self.healed.is_some();
                let now = self.window(client, self.judge.version());
                self.judge.read(&format_cache(client), &keys, &rows, &now);
            }
            _ if machine.calls.reading.is_none() => {
                let deadline = self.draw_deadline(time);
                let machine = &mut self.machines[client];
                let Some(it) = &mut machine.client else { return };
                let call = it.read(time, keys.clone());
                machine.calls.reading = Some(Waiting::new(keys, call, made, deadline));
            }
            _ => {}
        }
    }

    fn ask_to_write(&mut self, client: usize) {
        let (write, made) = (self.draw_write(), self.made());
        let time = self.machines[client].time(self.now);
        let deadline = self.draw_deadline(time);
        let machine = &mut self.machines[client];
        let Some(it) = &mut machine.client else { return };
        if !machine.calls.may_write() {
            let call = it.write(time, write, None);
            machine.calls.writing = Some(Waiting::new(write, call, made, deadline));
        }
    }

    fn ask_to_hold(&mut self, client: usize) {
        let (keys, made) = (self.draw_keys(), self.made());
        let purposes = [Purpose::Read, Purpose::Update, Purpose::Update, Purpose::Write];
        let purpose = self.call_dice.pick(&purposes);
        let time = self.machines[client].time(self.now);
        let deadline = self.draw_deadline(time);
        let machine = &mut self.machines[client];
        let Some(it) = &mut machine.client else { return };
        if !machine.calls.may_write() {
            let call = it.hold(time, keys.clone(), purpose);
            machine.calls.holding = Some(Waiting::new((keys, purpose), call, made, deadline));
        }
    }

    fn ask_to_forget(&mut self, client: usize) {
        let (keys, made) = (self.draw_keys(), self.made());
        let time = self.machines[client].time(self.now);
        let deadline = self.draw_deadline(time);
        let machine = &mut self.machines[client];
        let Some(it) = &mut machine.client else { return };
        if machine.calls.forgetting.is_none() {
            let call = it.forget(time, keys.clone());
            machine.calls.forgetting = Some(Waiting::new(keys, call, made, deadline));
        }
    }

    /// Waits for a change of what the client knows.
    fn ask_to_watch(&mut self, client: usize) {
        let keys = self.draw_keys();
        let machine = &mut self.machines[client];
        let time = machine.clock.at(self.now);
        let Some(it) = &mut machine.client else { return };
        if machine.calls.watched.is_none()
            && let (Cached::Rows, rows) = cached(it, &keys, time)
        {
            let call = it.watch(time, keys.clone(), rows.clone());
            machine.calls.watched = Some(Watched { keys, rows, call });
        }
    }

    fn ask_to_leave(&mut self, client: usize) {
        if self.healed.is_some() || !self.call_dice.happens(100) {
            return;
        }
        let made = self.made();
        let time = self.machines[client].time(self.now);
        let deadline = self.draw_deadline(time);
        let machine = &mut self.machines[client];
        let Some(it) = &mut machine.client else { return };
        if machine.calls.leaving.is_none() {
            let call = it.leave(time);
            machine.calls.leaving = Some(Waiting::new((), call, made, deadline));
        }
    }

    fn draw_keys(&mut self) -> Range<u64> {
        let start = self.call_dice.among(0..self.weather.keys);
        start..self.call_dice.among(start + 1..self.weather.keys + 1)
    }

    fn draw_row(&mut self, keys: Range<u64>) -> Row {
        self.next_value += 1;
        Row { key: self.call_dice.among(keys), value: Value::from(self.next_value) }
    }

    fn draw_write(&mut self) -> Write {
        let row = self.draw_row(0..self.weather.keys);
        match self.call_dice.among(0..5) {
            0 | 1 => Write::Insert(row),
            2 | 3 => Write::Put(row),
            _ => Write::Delete(row.key),
        }
    }

    /// The callers take the answers that have come.
    pub(super) fn look(&mut self, client: usize) {
        if matches!(self.machines[client].task, Task::Evict { .. }) {
            return self.look_at_eviction(client);
        }
        self.look_at_reading(client);
        self.look_at_writing(client);
        self.look_at_forgetting(client);
        self.look_at_watched(client);
        self.look_at_holding(client);
        self.look_at_bound(client);
        self.look_at_pinned(client);
        self.look_at_leaving(client);
    }

    /// What a client that asked at this version may be answered.
    fn window(&self, client: usize, since: Version) -> Window {
        Window { since, or_before: self.machines[client].before.clone() }
    }

    /// A call that has ended.
    fn ended<Asked, Answer>(
        &mut self,
        client: usize,
        place: impl FnOnce(&mut calls::Calls) -> &mut Option<Waiting<Asked, Answer>>,
    ) -> Option<(Ended<Asked, Answer>, Window)> {
        let machine = &mut self.machines[client];
        let place = place(&mut machine.calls);
        place.as_ref()?;
        let time = machine.clock.at(self.now);
        let ended = calls::ended(place, machine.client.as_mut()?, time)?;
        let when = self.window(client, ended.made.version);
        let took = self.now.saturating_sub(ended.made.moment);
        if self.calm_since.is_some_and(|calm| ended.made.moment >= calm) {
            self.longest = self.longest.max(took);
            if took > LONGEST {
                self.judge.find(format!("client {client} waits {took:?} when all is calm"));
            }
        }
        if let Err(why) = &ended.answer {
            self.counts.refused += 1;
            let why = *why;
            self.judge_refusal(client, why);
        }
        Some((ended, when))
    }

    /// Finds calls that were made when all was calm and wait for long.
    pub(super) fn find_who_waits(&mut self) {
        for client in 0..self.weather.clients {
            let calls = &self.machines[client].calls;
            let (reading, writing) = (calls.reading.as_ref(), calls.writing.as_ref());
            let made = [reading.map(Waiting::made), writing.map(Waiting::made)];
            let made = made.into_iter().flatten().map(|made| made.moment);
            let oldest = made.filter(|moment| self.calm_since.is_some_and(|calm| *moment >= calm));
            let took =
                oldest.map(|moment| self.now.saturating_sub(moment)).max().unwrap_or_default();
            if took > LONGEST {
                self.judge.find(format!("client {client} waits {took:?} when all is calm"));
            }
        }
    }

    fn look_at_reading(&mut self, client: usize) {
        let Some((ended, when)) = self.ended(client, |calls| &mut calls.reading) else { return };
        let Ended { asked, made, answer: Ok(rows) } = ended else { return };
        self.counts.reads += 1;
        self.judge.read(&format_client(client), &asked, &rows, &when);
        self.judge_pins_of_others(client, &rows);
        self.decide_unknown(client, made, &asked);
        self.note_served(client, made, 0);
        self.note(Node::Client(client), 20, || format!("reads {asked:?}: {}", spelled(&rows)));
    }

    /// No client reads what another one has written under a pin by which it keeps the range for
    /// itself, as long as that holds.
    fn judge_pins_of_others(&mut self, client: usize, rows: &[Row]) {
        for other in (0..self.machines.len()).filter(|other| *other != client) {
            let machine = &mut self.machines[other];
            let time = machine.clock.at(self.now);
            let (Some(pinned), Some(it)) = (&machine.calls.pinned, &mut machine.client) else {
                continue;
            };
            let is_written = |row: &Row| pinned.written.contains(&row.value);
            let is_read = pinned.purpose == Purpose::Write && rows.iter().any(is_written);
            if is_read && it.holds_pin(time, pinned.pin) {
                let keys = pinned.keys.clone();
                self.judge
                    .find(format!("client {client} reads what {other} has pinned of {keys:?}"));
            }
        }
    }

    fn look_at_writing(&mut self, client: usize) {
        let Some((ended, when)) = self.ended(client, |calls| &mut calls.writing) else { return };
        let Ended { asked, made, answer } = ended;
        self.take_written(client, asked, answer, &when);
        if answer.is_ok() {
            self.decide_unknown(client, made, &(0..END));
            self.note_served(client, made, 1);
        }
    }

    /// The client was answered a call about these keys: its earlier writes there are made by now, or
    /// never.
    fn decide_unknown(&mut self, client: usize, made: Made, keys: &Range<u64>) {
        let unknown = &mut self.machines[client].calls.unknown;
        let is_decided = |(write, ended): &mut (Write, Duration)| {
            *ended < made.moment && keys.contains(&write.key())
        };
        let decided: Vec<_> = unknown.extract_if(.., is_decided).collect();
        for (write, _) in decided {
            self.judge.is_decided(write);
        }
    }

    fn take_written(
        &mut self,
        client: usize,
        write: Write,
        answer: Result<Outcome, Error>,
        when: &Window,
    ) {
        let who = format_client(client);
        match answer {
            Ok(outcome) => {
                self.counts.writes += 1;
                self.judge.write(&who, write, outcome, when);
            }
            Err(why) if why.is_unknown_outcome() => {
                self.machines[client].calls.unknown.push((write, self.now));
            }
            Err(why) => self.judge.is_not_made(&who, write, &why.to_string()),
        }
        self.note(Node::Client(client), 21, || format!("writes {write:?}: {answer:?}"));
    }

    /// A call that was made after the last fault was answered.
    fn note_served(&mut self, client: usize, made: Made, what: usize) {
        if self.healed.is_some_and(|healed| made.moment >= healed) {
            self.machines[client].is_served[what] = true;
        }
    }

    fn look_at_forgetting(&mut self, client: usize) {
        let ended = self.ended(client, |calls| &mut calls.forgetting);
        if let Some((Ended { asked, answer: Ok(()), .. }, _)) = ended {
            self.note(Node::Client(client), 22, || format!("has forgotten {asked:?}"));
        }
    }

    /// A caller that watches a range learns of it as soon as its client knows other rows, or not
    /// all of them.
    fn look_at_watched(&mut self, client: usize) {
        let machine = &mut self.machines[client];
        let time = machine.clock.at(self.now);
        let Some(Watched { keys, rows, call }) = &machine.calls.watched else { return };
        let Some(it) = &mut machine.client else { return };
        if call.answer().is_some() {
            machine.calls.watched = None;
            self.counts.watched += 1;
            return;
        }
        let is_news = match cached(it, keys, time) {
            (Cached::Rows, known) => known != *rows,
            (Cached::Missing, _) => true,
            (Cached::Pending | Cached::Ended, _) => false,
        };
        if is_news {
            let keys = keys.clone();
            self.judge.find(format!("client {client} does not learn of a change of {keys:?}"));
        }
    }

    fn look_at_holding(&mut self, client: usize) {
        let Some((ended, when)) = self.ended(client, |calls| &mut calls.holding) else { return };
        let Ended { asked: (keys, purpose), answer: Ok(Held { rows, pin }), .. } = ended else {
            return;
        };
        self.counts.pins += 1;
        self.judge.read(&format_client(client), &keys, &rows, &when);
        self.note(Node::Client(client), 23, || format!("pins {keys:?}: {}", spelled(&rows)));
        let life = self.call_dice.time(self.weather.pin_lives.clone());
        let machine = &mut self.machines[client];
        let until = machine.time(self.now) + life;
        let written = Vec::new();
        machine.calls.pinned = Some(Pinned { keys, rows, pin, purpose, written, until });
    }

    /// While a pin holds, the rows are as the client knows them.
    fn look_at_pinned(&mut self, client: usize) {
        let now = self.window(client, self.judge.version());
        let machine = &mut self.machines[client];
        let time = machine.clock.at(self.now);
        let is_writing = machine.calls.bound.is_some();
        let (Some(pinned), Some(it)) = (&machine.calls.pinned, &mut machine.client) else { return };
        let Pinned { keys, rows, pin, until, .. } = pinned;
        let holds = it.holds_pin(time, *pin);
        // A write under the pin may be made, and not be answered yet.
        if holds && !is_writing && !self.judge.has(keys, rows, &now) {
            self.judge.find(format!("client {client} has {keys:?} pinned as {rows:?}"));
        }
        if !holds || time >= *until {
            self.unpin(client);
            self.note(Node::Client(client), 24, || format!("unpins, and the pin held: {holds}"));
        } else if !is_writing {
            self.write_under_pin(client);
        }
    }

    fn unpin(&mut self, client: usize) {
        let machine = &mut self.machines[client];
        let time = machine.clock.at(self.now);
        if let (Some(pinned), Some(it)) = (machine.calls.pinned.take(), &mut machine.client) {
            it.unpin(time, pinned.pin);
            self.send_to_server(client);
        }
    }

    fn write_under_pin(&mut self, client: usize) {
        let Some(pinned) = &self.machines[client].calls.pinned else { return };
        let keys = pinned.keys.clone();
        let row = self.draw_row(keys);
        let write = if self.call_dice.happens(500) { Write::Insert(row) } else { Write::Put(row) };
        let made = self.made();
        let time = self.machines[client].time(self.now);
        let deadline = self.draw_deadline(time);
        let machine = &mut self.machines[client];
        let Some(pinned) = &mut machine.calls.pinned else { return };
        let Some(it) = &mut machine.client else { return };
        pinned.written.push(row.value);
        self.judge.bind(write, pinned.keys.clone(), pinned.rows.clone());
        let call = it.write(time, write, Some(pinned.pin));
        machine.calls.bound = Some(Waiting::new(write, call, made, deadline));
        self.send_to_server(client);
    }

    /// Looks at the write under a pin. After an outcome that is not known the pin is dropped.
    fn look_at_bound(&mut self, client: usize) {
        let Some((ended, when)) = self.ended(client, |calls| &mut calls.bound) else { return };
        let Ended { asked, answer, .. } = ended;
        self.take_written(client, asked, answer, &when);
        self.counts.bound += u64::from(answer.is_ok());
        if answer.is_err() {
            return self.unpin(client);
        }
        let Some(pinned) = &mut self.machines[client].calls.pinned else { return };
        if let (Ok(Outcome::Applied), Write::Insert(row) | Write::Put(row)) = (answer, asked) {
            pinned.rows.retain(|other| other.key != row.key);
            let place = pinned.rows.partition_point(|other| other.key < row.key);
            pinned.rows.insert(place, row);
        }
    }

    fn look_at_leaving(&mut self, client: usize) {
        let Some((ended, _)) = self.ended(client, |calls| &mut calls.leaving) else { return };
        self.counts.left += u64::from(ended.answer.is_ok());
        // The process ends, whether its Bye is kept or not.
        self.kill_client(client, true);
    }

    /// Whether a call may be refused with this error.
    fn judge_refusal(&mut self, client: usize, why: Error) {
        let machine = &self.machines[client];
        let is_so = match why.kind {
            ErrorKind::TimedOut
            | ErrorKind::NotSent(Unsent::TimedOut)
            | ErrorKind::PinIsVoid
            | ErrorKind::Pinned
            | ErrorKind::LeaseEnded => true,
            ErrorKind::Unserved(refusal) | ErrorKind::NotSent(Unsent::Unserved(refusal)) => {
                may_be_refused(refusal)
            }
            ErrorKind::TurnedAway => machine.rejections > 0,
            ErrorKind::StoreWentBack | ErrorKind::NotSent(Unsent::StoreWentBack) => {
                self.judge.went_back() || machine.calls.leaving.is_some()
            }
            // One that has left answers nothing.
            ErrorKind::Left | ErrorKind::Other(_) => machine.calls.leaving.is_some(),
            _ => false,
        };
        if !is_so {
            self.judge.find(format!("client {client} is refused without cause: {why}"));
        }
    }
}

/// Whether a server may refuse a client for this reason. The reasons that are left out are those of
/// other worlds.
fn may_be_refused(refusal: Refusal) -> bool {
    match refusal {
        Refusal::Missing(clients) => clients != ClientSet::default(),
        Refusal::Denied | Refusal::OtherStore | Refusal::OtherShard(_) => false,
        _ => true,
    }
}

fn format_client(client: usize) -> String {
    format!("client {client}")
}

fn format_cache(client: usize) -> String {
    format!("the cache of client {client}")
}

fn spelled(rows: &[Row]) -> String {
    let rows: Vec<_> = rows.iter().map(|row| (row.key, row.value.to_u64())).collect();
    format!("{rows:?}")
}
