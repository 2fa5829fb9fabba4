//! What happens at the clients.
use super::{Down, Event, Machine, Task, World};
use crate::calls::Calls;
use crate::lock_file::LockFile;
use crate::network::{Carried, PREFIX, Side};
use crate::record::{Delivery, Fate, Happened, Node};
use crate::timer::Timer;
use crate::weather::Keeps;
use krl::sans_io::{Call, Client, Incarnations};
use krl::simulated::{self, FrameKind};
use std::io::{self, ErrorKind};
use std::time::Duration;

/// What the clocks that operators set show as machines start. Incarnations are moments of them.
const STARTED: u64 = 1_800_000_000_000_000_000;

/// How far a clock that is set wrong is ahead.
const FAR: Duration = Duration::from_secs(3 * 24 * 3600);

/// This many connections in a row without a message take this long at least.
const ATTEMPTS: u32 = 20;
const TAKE_AT_LEAST: Duration = Duration::from_secs(2);

/// An operator gives up an eviction after this time, as `evict` does: a process of a greater
/// incarnation may have joined since, and then none of the operator's messages is taken.
const EVICTION: Duration = Duration::from_secs(10);

/// The incarnation that begins at this time of a clock.
pub(super) fn incarnation_at(time: Duration) -> u64 {
    STARTED + super::nanoseconds(time)
}

impl Machine {
    pub(super) fn time(&self, now: Duration) -> Duration {
        self.clock.at(now)
    }

    /// What its clock shows that operators set.
    fn wall_clock(&self, now: Duration) -> u64 {
        incarnation_at(self.time(now) + self.ahead)
    }
}

impl World {
    /// A client is started.
    pub(super) fn join(&mut self, client: usize) {
        let (now, seed) = (self.now, self.dice.draw());
        let is_far_ahead = self.dice.happens(self.weather.far_ahead);
        let ahead = if is_far_ahead { FAR } else { Duration::ZERO };
        let machine = &mut self.machines[client];
        if machine.client.is_some() || machine.stays_down.is_some() {
            return;
        }
        // The clock was set right, and the client has a new lock file.
        if std::mem::replace(&mut machine.ahead, ahead) > Duration::ZERO {
            machine.kept = 0;
        }
        let taken = LockFile::taken(machine.number, machine.kept, machine.wall_clock(now));
        self.start_client(client, taken, seed);
    }

    fn start_client(&mut self, client: usize, lock_file: LockFile, seed: u64) {
        let (servers, incarnation) = (self.sites.len(), lock_file.current());
        let machine = &mut self.machines[client];
        let started = Client::of(lock_file, servers, seed, machine.time(self.now));
        let started = machine.client.insert(started.expect("there is memory"));
        if self.weather.keeps == Keeps::All {
            started.keep_all();
        }
        self.happened += 1;
        machine.life += 1;
        machine.frozen_until = Duration::ZERO;
        machine.timer = Timer::IDLE;
        machine.before = None;
        machine.may_lack = false;
        machine.fruitless = (0, Duration::ZERO);
        let life = machine.life;
        self.note(Node::Client(client), 10, || format!("starts as incarnation {incarnation}"));
        self.after(Duration::ZERO, Event::Connect { client, life });
    }

    /// A client's process ends. Its server learns of it, or not.
    pub(super) fn kill_client(&mut self, client: usize, is_reported: bool) {
        let machine = &mut self.machines[client];
        if machine.client.take().is_none() {
            return;
        }
        machine.calls = Calls::default();
        machine.life += 1;
        match machine.link.take() {
            Some(link) if is_reported => self.end_link(link, Side::Client),
            Some(link) => drop(self.network.end(link, Side::Client)),
            None => {}
        }
        self.note(Node::Client(client), 11, || "ends".into());
        let pause = self.dice.time(1_000..4_000_000);
        self.after(pause, Event::Join { client });
    }

    /// A client of this life makes a connection.
    pub(super) fn connect(&mut self, client: usize, life: u64) {
        let now = self.now;
        let machine = &mut self.machines[client];
        let time = machine.time(now);
        if machine.life != life || machine.link.is_some() {
            return;
        }
        let Some(it) = &mut machine.client else { return };
        if it.has_to_begin_again(time) {
            if let Task::Evict { victim, .. } = machine.task {
                return self.end_eviction(client, victim);
            }
            machine.before = None;
        }
        let site = it.place();
        self.happened += 1;
        self.count_attempt(client);
        match self.open_link(client, site) {
            Ok(link) => self.greet(client, link),
            Err(error) => self.disconnect(client, error),
        }
    }

    /// Opens a connection to a server, if it runs and can be reached.
    fn open_link(&mut self, client: usize, site: usize) -> io::Result<u64> {
        let machine = &mut self.machines[client];
        if machine.rejected_until > self.now {
            machine.rejections += 1;
            return Err(simulated::not_taken());
        }
        let number = machine.number;
        let is_cut = machine.is_cut[site];
        let shown = self.weather.is_identified.then_some(number);
        let time = self.sites[site].clock.at(self.now);
        let serving = self.sites[site].serving.as_mut().filter(|_| !is_cut);
        let Some(serving) = serving else {
            let kinds =
                [ErrorKind::ConnectionRefused, ErrorKind::TimedOut, ErrorKind::PermissionDenied];
            return Err(self.dice.pick(&kinds).into());
        };
        let connection = serving.server.connect(shown, time);
        let link = self.network.connect(client, site, connection);
        serving.links.insert(connection, link);
        self.machines[client].link = Some(link);
        Ok(link)
    }

    fn greet(&mut self, client: usize, link: u64) {
        let machine = &mut self.machines[client];
        let (time, clock) = (machine.time(self.now), machine.wall_clock(self.now));
        let Some(it) = &mut machine.client else { return };
        it.incarnations_mut().set_clock(clock);
        let signs = machine.signs;
        let connected = if signs { it.connected(time) } else { it.connected_without_lease(time) };
        machine.kept = it.incarnations().kept();
        let is_kept = machine.kept == it.incarnations().current();
        if let Err(error) = connected {
            return self.disconnect(client, error);
        }
        if !is_kept {
            self.judge.find(format!("client {client} sends an incarnation that is not kept"));
        }
        self.note(Node::Client(client), 12, || format!("connects by {link}"));
        self.send_to_server(client);
        self.proceed(client);
    }

    /// Connections on which no message comes are made ever less often.
    fn count_attempt(&mut self, client: usize) {
        let fruitless = &mut self.machines[client].fruitless;
        if fruitless.0 == 0 {
            fruitless.1 = self.now;
        }
        fruitless.0 += 1;
        let took = self.now.saturating_sub(fruitless.1);
        if fruitless.0 == ATTEMPTS && took < TAKE_AT_LEAST {
            self.judge.find(format!("client {client} connects {ATTEMPTS} times within {took:?}"));
        }
        if fruitless.0 >= ATTEMPTS {
            *fruitless = (0, self.now);
        }
    }

    /// The client's connection has ended, or was not made.
    pub(super) fn disconnect(&mut self, client: usize, why: io::Error) {
        self.note(Node::Client(client), 13, || format!("is not connected: {why}"));
        let machine = &mut self.machines[client];
        let time = machine.clock.at(self.now);
        let Some(it) = &mut machine.client else { return };
        let pause = machine.clock.takes(it.disconnected(time, why).saturating_sub(time));
        let life = machine.life;
        if let Some(link) = machine.link.take() {
            self.end_link(link, Side::Client);
        }
        self.after(pause, Event::Connect { client, life });
    }

    /// Carries what is sent on a connection.
    pub(super) fn carry(&mut self, link: u64, to: Side, bytes: &[u8]) {
        if bytes.is_empty() {
            return;
        }
        for Carried { number, moment, is_lost, bytes } in
            self.network.carry(link, to, bytes, self.now)
        {
            if is_lost {
                self.note_frame(link, to, number, &bytes, Fate::Lost);
            } else {
                self.at(moment, Event::Comes { link, to, number, bytes });
            }
        }
    }

    /// This side ends a connection. The other one learns of it after what was sent before.
    pub(super) fn end_link(&mut self, link: u64, by: Side) {
        let moment = self.network.arrives(link, by.other(), self.now);
        if self.network.end(link, by) {
            self.at(moment, Event::Ends { link, to: by.other() });
        }
    }

    fn note_frame(&mut self, link: u64, to: Side, number: u64, bytes: &[u8], fate: Fate) {
        let Some(link) = self.network.link(link) else { return };
        let (client, site) = (Node::Client(link.client), Node::Server(link.site));
        let (from, to) = match to {
            Side::Client => (site, client),
            Side::Server => (client, site),
        };
        self.record.mix_bytes(bytes);
        self.record.note(self.now, &[number, u64::from(fate == Fate::Taken)], || {
            let what = simulated::describe(&bytes[PREFIX..]);
            Happened::Delivery(Delivery { number, from, to, fate, what })
        });
    }

    /// A frame comes to one side of a connection.
    pub(super) fn comes(&mut self, link: u64, to: Side, number: u64, bytes: &[u8]) {
        let Some(found) = self.network.link(link) else { return };
        let (client, site, connection) = (found.client, found.site, found.connection);
        let is_taken = !found.has_ended[to as usize] && !found.swallows(to, self.now);
        let fate = if is_taken { Fate::Taken } else { Fate::Lost };
        self.note_frame(link, to, number, bytes, fate);
        match (is_taken, to) {
            (false, _) => {}
            (true, Side::Server) => self.server_receives(site, connection, bytes),
            (true, Side::Client) => self.client_receives(client, link, bytes),
        }
    }

    fn client_receives(&mut self, client: usize, link: u64, bytes: &[u8]) {
        self.happened += 1;
        let kind = FrameKind::of(&bytes[PREFIX..]);
        let machine = &mut self.machines[client];
        let time = machine.clock.at(self.now);
        let Some(it) = &mut machine.client else { return };
        if kind == FrameKind::OtherStore || kind == FrameKind::WentBack && !machine.may_lack {
            self.judge.find(format!("client {client} gets {kind:?}, and it is not so"));
        }
        match it.received(time, bytes) {
            Ok(()) => self.proceed(client),
            Err(error) => self.disconnect(client, error),
        }
        self.look(client);
        let machine = &mut self.machines[client];
        if kind != FrameKind::Host {
            machine.fruitless.0 = 0;
            if link > self.last_before {
                machine.before = None;
                machine.may_lack = false;
            }
        }
    }

    /// One side learns that a connection has ended.
    pub(super) fn ends(&mut self, link: u64, to: Side) {
        let Some(found) = self.network.link(link).filter(|it| !it.swallows(to, self.now)) else {
            return;
        };
        let (client, site, connection) = (found.client, found.site, found.connection);
        if !self.network.end(link, to) {
            return;
        }
        match to {
            Side::Server => self.server_loses(site, connection),
            Side::Client if self.machines[client].link == Some(link) => {
                self.machines[client].link = None;
                self.happened += 1;
                self.disconnect(client, ErrorKind::UnexpectedEof.into());
                self.look(client);
            }
            Side::Client => {}
        }
    }

    /// The client continues with what it was asked, and sends what it has to send.
    pub(super) fn proceed(&mut self, client: usize) {
        let machine = &mut self.machines[client];
        let time = machine.clock.at(self.now);
        let (Some(it), Some(_)) = (&mut machine.client, machine.link) else { return };
        match it.proceed(time) {
            Ok(()) => {
                let due = machine.clock.takes(it.due().saturating_sub(time));
                self.send_to_server(client);
                self.proceed_in(client, due);
            }
            Err(error) => self.disconnect(client, error),
        }
    }

    pub(super) fn proceed_in(&mut self, client: usize, time: Duration) {
        let armed = self.now + time;
        let machine = &mut self.machines[client];
        let life = machine.life;
        if machine.timer.set(armed) {
            self.at(armed, Event::Proceed { client, life, armed });
        }
    }

    pub(super) fn send_to_server(&mut self, client: usize) {
        let machine = &mut self.machines[client];
        let time = machine.clock.at(self.now);
        let Some(it) = &mut machine.client else { return };
        let sent = it.output(time).to_vec();
        it.sent(sent.len());
        if let Some(link) = machine.link {
            self.carry(link, Side::Server, &sent);
        }
    }

    /// By which incarnation an operator evicts a client: if one is registered of which no process is
    /// left, but for one of a greater incarnation that waits for this.
    pub(super) fn successor(&self, victim: usize) -> Option<u64> {
        let machine = &self.machines[victim];
        let mut records = self.disk.snapshot().records.iter();
        let known = records.find(|record| record.client == machine.number && !record.left)?;
        let incarnation = known.incarnation + 1;
        let is_older = |it: &Client<LockFile>| it.incarnations().current() <= incarnation;
        (!machine.client.as_ref().is_some_and(is_older)).then_some(incarnation)
    }

    /// An operator evicts a client, if it may be evicted, and no other one is being evicted.
    pub(super) fn evict(&mut self, victim: usize) {
        let operator = self.weather.clients;
        let is_free = self.machines[operator].client.is_none();
        let Some(incarnation) = self.successor(victim).filter(|_| is_free) else { return };
        let Machine { number, clock, .. } = self.machines[victim];
        let seed = self.dice.draw();
        self.machines[victim].stays_down = Some(Down::Evicted);
        let machine = &mut self.machines[operator];
        machine.clock = clock;
        (machine.number, machine.kept) = (number, 0);
        self.start_client(operator, LockFile::of_operator(number, incarnation), seed);
        let machine = &mut self.machines[operator];
        let time = machine.clock.at(self.now);
        let joining = machine.client.as_mut().map(|it| it.join(time));
        let until = self.now + EVICTION;
        machine.task = Task::Evict { victim, joining, leaving: None, until };
    }

    /// The operator's client leaves when it has joined, and ends when it has left, or gives up.
    pub(super) fn look_at_eviction(&mut self, operator: usize) {
        let machine = &mut self.machines[operator];
        let time = machine.clock.at(self.now);
        let Task::Evict { victim, joining, leaving, until } = &mut machine.task else { return };
        let (victim, is_late, Some(it)) = (*victim, *until <= self.now, &mut machine.client) else {
            return;
        };
        if joining.as_ref().is_some_and(|call| call.answer().is_some()) {
            *joining = None;
            *leaving = Some(it.leave(time));
        }
        let has_left = leaving.as_ref().and_then(Call::answer);
        if let Some(left) = has_left {
            self.counts.evicted += u64::from(left.is_ok());
        }
        if has_left.is_some() || is_late {
            self.end_eviction(operator, victim);
        }
    }

    pub(super) fn end_eviction(&mut self, operator: usize, victim: usize) {
        self.kill_client(operator, true);
        self.machines[operator].task = Task::Work;
        self.machines[victim].stays_down = None;
        let pause = self.dice.time(1_000..4_000_000);
        self.after(pause, Event::Join { client: victim });
    }
}
