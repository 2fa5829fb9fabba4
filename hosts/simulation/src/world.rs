//! One run: what happens, in the order of its moments.
mod callers;
mod client;
mod faults;
mod server;
mod store;

use crate::calls::Calls;
pub use crate::counts::Counts;
use crate::dice::Dice;
use crate::disk::Disk;
use crate::judge::{Judge, Left};
use crate::lock_file::LockFile;
use crate::network::{Network, Side};
use crate::record::{Happened, Line, Node, Record};
use crate::timer::{Fired, Timer};
use crate::weather::Weather;
use krl::sans_io::{Call, Client};
use krl::simulated::Server;
use krl::store::Change;
use std::cmp::{Ordering, Reverse};
use std::collections::{BTreeMap, BTreeSet, BinaryHeap};
use std::time::Duration;
use store::{Does, Stored};

/// How soon each client has to be served after the last fault, and after all continue that stood
/// still.
pub const BOUND: Duration = Duration::from_secs(30);

/// No more events happen at one moment.
const AT_ONCE: u64 = 100_000;

/// For this long everything continues without faults when each client is served again.
const CALM: Duration = Duration::from_secs(4);

/// What a run is made of.
#[derive(Clone, Debug)]
pub struct Settings {
    /// What all is drawn by.
    pub seed: u64,
    /// For this long there are faults.
    pub time: Duration,
    /// The faults of these numbers are left out.
    pub without: BTreeSet<u64>,
    /// The callers of these clients ask for nothing.
    pub quiet: BTreeSet<usize>,
    /// Whether the lines of what happens are kept.
    pub keeps_lines: bool,
}

impl Settings {
    /// A run by this seed.
    #[must_use]
    pub fn of(seed: u64, time: Duration) -> Settings {
        Settings {
            seed,
            time,
            without: BTreeSet::new(),
            quiet: BTreeSet::new(),
            keeps_lines: false,
        }
    }
}

/// What a run has come to.
#[derive(Clone, Debug, PartialEq, Eq)]
pub struct Report {
    /// How many events there were: each is a step of a server or of a client.
    pub events: u64,
    /// How long it took by the clock of the world.
    pub time: Duration,
    /// How many clients have callers.
    pub clients: usize,
    /// What there was.
    pub counts: Counts,
    /// The longest time that a call took when all was calm.
    pub longest: Duration,
    /// What is wrong, as a sentence each.
    pub wrong: Vec<String>,
    /// A number that two runs have in common if all that happened was the same.
    pub fingerprint: u64,
    /// What happened, if that is kept.
    pub lines: Vec<Line>,
}

impl Report {
    /// That of a run that has panicked.
    #[must_use]
    pub fn of_panic() -> Report {
        Report {
            events: 0,
            time: Duration::ZERO,
            clients: 0,
            counts: Counts::default(),
            longest: Duration::ZERO,
            wrong: vec!["something has panicked".into()],
            fingerprint: 0,
            lines: Vec::new(),
        }
    }
}

/// What happens at a moment.
#[derive(Debug)]
enum Event {
    /// A server makes a turn, if its timer is set to this moment.
    Turn { site: usize, start: u64, armed: Duration },
    /// The store takes what a server commits.
    Store { start: u64 },
    /// The server learns what the store has done.
    Stored { site: usize, start: u64, stored: Stored },
    /// A server is started, if none runs.
    Start { site: usize },
    /// By now this server has to have ended.
    HasEnded { site: usize, start: u64, why: &'static str },
    /// A frame comes to one side of a connection.
    Comes { link: u64, to: Side, number: u64, bytes: Vec<u8> },
    /// One side learns that a connection has ended.
    Ends { link: u64, to: Side },
    /// A client continues, if its timer is set to this moment.
    Proceed { client: usize, life: u64, armed: Duration },
    /// A client connects.
    Connect { client: usize, life: u64 },
    /// A client is started.
    Join { client: usize },
    /// A client's callers look for something to do.
    Call { client: usize },
    /// Something goes wrong.
    Fault,
}

/// An event, in the order of moments and of numbers.
#[derive(Debug)]
struct Scheduled {
    moment: Duration,
    number: u64,
    event: Event,
}

impl PartialEq for Scheduled {
    fn eq(&self, other: &Scheduled) -> bool {
        self.cmp(other) == Ordering::Equal
    }
}

impl Eq for Scheduled {}

impl PartialOrd for Scheduled {
    fn partial_cmp(&self, other: &Scheduled) -> Option<Ordering> {
        Some(self.cmp(other))
    }
}

impl Ord for Scheduled {
    fn cmp(&self, other: &Scheduled) -> Ordering {
        (self.moment, self.number).cmp(&(other.moment, other.number))
    }
}

/// A machine's clock, which runs a little faster or slower than time.
#[derive(Clone, Copy, Debug)]
struct Clock {
    offset: u64,
    /// In a thousand.
    pace: u64,
}

/// A machine on which a server may run.
#[derive(Debug)]
struct Site {
    clock: Clock,
    serving: Option<Serving>,
    /// Its processes stand still until then.
    frozen_until: Duration,
}

/// A server that runs.
#[derive(Debug)]
struct Serving {
    server: Server,
    start: u64,
    was_frozen: bool,
    timer: Timer,
    /// The connections by the numbers that it has given them.
    links: BTreeMap<u64, u64>,
}

/// What a client's process is there for.
#[derive(Debug)]
enum Task {
    /// Its callers.
    Work,
    /// An operator evicts the client of this machine, and gives up at a moment.
    Evict { victim: usize, joining: Option<Call<()>>, leaving: Option<Call<()>>, until: Duration },
}

/// Why a client is not started.
#[derive(Clone, Copy, Debug, PartialEq, Eq)]
enum Down {
    /// An operator evicts it.
    Evicted,
    /// For good.
    Retired,
}

/// A client's machine.
#[derive(Debug)]
struct Machine {
    clock: Clock,
    number: u8,
    signs: bool,
    task: Task,
    client: Option<Client<LockFile>>,
    /// How many times it was started.
    life: u64,
    /// The last incarnation that is on its disk, or 0: it may have been sent.
    kept: u64,
    /// How far its clock that operators set is ahead.
    ahead: Duration,
    /// Why it is not started, if it is not.
    stays_down: Option<Down>,
    link: Option<u64>,
    /// It can't reach the server of this machine.
    is_cut: [bool; 2],
    /// Its connections are rejected until then.
    rejected_until: Duration,
    rejections: u32,
    frozen_until: Duration,
    calls: Calls,
    timer: Timer,
    /// What the table was as the store went back, if the client may still answer from that.
    before: Option<Left>,
    /// It may have seen what the store lacks, and has not learned that.
    may_lack: bool,
    /// Connections in a row on which no message came, and when the first of them was made.
    fruitless: (u32, Duration),
    /// Since the last fault it has read, and written.
    is_served: [bool; 2],
}

/// All there is in a run.
#[derive(Debug)]
pub struct World {
    settings: Settings,
    weather: Weather,
    dice: Dice,
    /// The dice of faults, and of what callers do.
    fault_dice: Dice,
    call_dice: Dice,
    now: Duration,
    /// How many events there were at this moment.
    at_once: u64,
    queue: BinaryHeap<Reverse<Scheduled>>,
    scheduled: u64,
    /// How many steps of servers and of clients there were.
    happened: u64,
    disk: Disk,
    /// What servers have asked the store for, and what it does then.
    asked: Vec<(u64, Vec<Change>, Does)>,
    sites: Vec<Site>,
    machines: Vec<Machine>,
    network: Network,
    judge: Judge,
    /// The last connection that was made before the store went back.
    last_before: u64,
    counts: Counts,
    next_value: u64,
    /// When all was whole again.
    healed: Option<Duration>,
    /// When each client was served after that.
    calm_since: Option<Duration>,
    longest: Duration,
    record: Record,
}

impl Clock {
    /// A clock that runs from nine tenths to eleven tenths as fast as time: two of them differ by
    /// 22 percent at most, and leases allow for 25.
    fn draw(dice: &mut Dice) -> Clock {
        Clock { offset: dice.among(0..1_000_000_000_000), pace: dice.among(900..1101) }
    }

    fn at(self, now: Duration) -> Duration {
        Duration::from_nanos(self.offset + nanoseconds(now) * self.pace / 1000)
    }

    /// How long a time by this clock takes.
    fn takes(self, time: Duration) -> Duration {
        Duration::from_nanos(nanoseconds(time) * 1000 / self.pace) + Duration::from_micros(1)
    }
}

fn nanoseconds(time: Duration) -> u64 {
    u64::try_from(time.as_nanos()).unwrap_or(u64::MAX)
}

impl World {
    /// A world before anything has happened.
    #[must_use]
    pub fn new(settings: Settings) -> World {
        let mut dice = Dice::new(settings.seed);
        let weather = Weather::draw(&mut dice.named(1));
        let site = |dice: &mut Dice| Site {
            clock: Clock::draw(dice),
            serving: None,
            frozen_until: Duration::ZERO,
        };
        let sites = (0..weather.sites).map(|_| site(&mut dice)).collect();
        // The last machine is the operators'.
        let machines = 0..=weather.clients;
        let machines = machines.map(|place| Machine::new(place, &weather, &mut dice));
        let mut machines: Vec<_> = machines.collect();
        if weather.has_second_process {
            // It runs on the same machine, with a lock file of its own.
            machines[weather.clients - 1].clock = machines[0].clock;
        }
        let mut world = World {
            network: Network::new(dice.named(2), weather.network.clone(), weather.latency.clone()),
            disk: Disk::new(dice.named(3), weather.has_history),
            fault_dice: dice.named(4),
            call_dice: dice.named(5),
            judge: Judge::new(weather.keys),
            record: Record::new(settings.keeps_lines),
            settings,
            weather,
            dice,
            now: Duration::ZERO,
            at_once: 0,
            queue: BinaryHeap::new(),
            scheduled: 0,
            happened: 0,
            asked: Vec::new(),
            sites,
            machines,
            last_before: 0,
            counts: Counts::default(),
            next_value: 0,
            healed: None,
            calm_since: None,
            longest: Duration::ZERO,
        };
        world.begin();
        world
    }

    fn begin(&mut self) {
        self.after(Duration::ZERO, Event::Start { site: 0 });
        for client in 0..self.weather.clients {
            // No two processes of one machine start at the same nanosecond.
            self.after(Duration::from_micros(1000 + client as u64), Event::Join { client });
            self.after(Duration::from_millis(2), Event::Call { client });
        }
        self.after(Duration::from_millis(300), Event::Fault);
    }

    /// Continues until something is wrong; or until the faults are over, each client is served
    /// again, and all was calm for a while.
    #[must_use]
    pub fn run(mut self) -> Report {
        self.run_until(self.settings.time);
        self.heal();
        self.run_until_served();
        let calm = self.now + CALM;
        self.calm_since = Some(self.now);
        self.run_until(calm);
        self.find_who_waits();
        Report {
            events: self.happened,
            time: self.now,
            clients: self.weather.clients,
            counts: self.counts,
            longest: self.longest,
            wrong: self.judge.wrong,
            fingerprint: self.record.fingerprint(),
            lines: self.record.lines(),
        }
    }

    fn run_until(&mut self, end: Duration) {
        while self.now < end && self.judge.wrong.is_empty() {
            self.step();
        }
    }

    fn run_until_served(&mut self) {
        let end = self.healed.unwrap_or(self.now) + BOUND;
        while self.judge.wrong.is_empty() && !self.are_all_served() {
            if self.now >= end {
                self.report_unserved();
                return;
            }
            self.step();
        }
    }

    fn are_all_served(&self) -> bool {
        let mut clients = 0..self.weather.clients;
        clients.all(|client| !self.is_to_be_served(client) || self.is_served(client))
    }

    /// Whether the client runs, and its callers ask for something.
    fn is_to_be_served(&self, client: usize) -> bool {
        let is_retired = self.machines[client].stays_down == Some(Down::Retired);
        !is_retired && !self.settings.quiet.contains(&client)
    }

    fn is_served(&self, client: usize) -> bool {
        self.machines[client].is_served == [true; 2]
    }

    fn report_unserved(&mut self) {
        for client in 0..self.weather.clients {
            if self.is_to_be_served(client) && !self.is_served(client) {
                let [reads, writes] = self.machines[client].is_served;
                self.judge.find(format!(
                    "client {client} was not served within {BOUND:?}: reads {reads}, writes {writes}"
                ));
            }
        }
    }

    /// Schedules an event.
    fn after(&mut self, time: Duration, event: Event) {
        self.at(self.now + time, event);
    }

    fn at(&mut self, moment: Duration, event: Event) {
        self.scheduled += 1;
        self.queue.push(Reverse(Scheduled { moment, number: self.scheduled, event }));
    }

    /// Something happens at a machine. The kind distinguishes such lines.
    fn note(&mut self, node: Node, kind: u64, what: impl FnOnce() -> String) {
        let place = match node {
            Node::Client(client) => client as u64,
            Node::Server(site) => 1000 + site as u64,
        };
        self.record.note(self.now, &[kind, place], || Happened::At(node, what()));
    }

    /// Makes the next event happen. Those for a process that stands still wait.
    fn step(&mut self) {
        let Some(Reverse(Scheduled { moment, event, .. })) = self.queue.pop() else { return };
        self.pass_to(moment);
        if let Some(until) = self.frozen_until(&event).filter(|until| *until > moment) {
            return self.at(until, event);
        }
        if self.fires(&event) {
            self.happens(event);
        }
    }

    /// It is this moment now. Many events may happen at one moment, but not without end.
    fn pass_to(&mut self, moment: Duration) {
        self.at_once = if moment == self.now { self.at_once + 1 } else { 0 };
        self.now = moment;
        if self.at_once == AT_ONCE {
            self.judge.find(format!("{AT_ONCE} events happen at one moment"));
        }
    }

    /// Whether the event is not a timer's, or is that of a timer that is due.
    fn fires(&mut self, event: &Event) -> bool {
        let now = self.now;
        let fired = match *event {
            Event::Turn { site, start, armed } => {
                let serving = self.sites[site].serving.as_mut().filter(|it| it.start == start);
                let fired = serving.map_or(Fired::Stale, |it| it.timer.fires(armed, now));
                if let Fired::Later(due) = fired {
                    self.at(due, Event::Turn { site, start, armed: due });
                }
                fired
            }
            Event::Proceed { client, life, armed } => {
                let machine = Some(&mut self.machines[client]).filter(|it| it.life == life);
                let fired = machine.map_or(Fired::Stale, |it| it.timer.fires(armed, now));
                if let Fired::Later(due) = fired {
                    self.at(due, Event::Proceed { client, life, armed: due });
                }
                fired
            }
            _ => Fired::Due,
        };
        fired == Fired::Due
    }

    /// Until when the process of the event stands still.
    fn frozen_until(&self, event: &Event) -> Option<Duration> {
        match *event {
            Event::Turn { site, .. } | Event::Stored { site, .. } => {
                Some(self.sites[site].frozen_until)
            }
            Event::Comes { link, to, .. } | Event::Ends { link, to } => {
                let link = self.network.link(link)?;
                Some(match to {
                    Side::Client => self.machines[link.client].frozen_until,
                    Side::Server => self.sites[link.site].frozen_until,
                })
            }
            Event::Proceed { client, .. }
            | Event::Connect { client, .. }
            | Event::Call { client } => Some(self.machines[client].frozen_until),
            Event::Store { .. }
            | Event::Start { .. }
            | Event::HasEnded { .. }
            | Event::Join { .. }
            | Event::Fault => None,
        }
    }

    fn happens(&mut self, event: Event) {
        match event {
            Event::Turn { site, start, .. } => self.turn(site, start),
            Event::Store { start } => self.store(start),
            Event::Stored { site, start, stored } => self.stored(site, start, stored),
            Event::Start { site } => self.start_if_none_runs(site),
            Event::HasEnded { site, start, why } => self.has_ended(site, start, why),
            Event::Comes { link, to, number, bytes } => self.comes(link, to, number, &bytes),
            Event::Ends { link, to } => self.ends(link, to),
            Event::Proceed { client, .. } => {
                self.happened += 1;
                self.proceed(client);
                self.look(client);
            }
            Event::Connect { client, life } => self.connect(client, life),
            Event::Join { client } => self.join(client),
            Event::Call { client } => self.call(client),
            Event::Fault => self.fault(),
        }
    }
}

impl Machine {
    fn new(place: usize, weather: &Weather, dice: &mut Dice) -> Machine {
        let is_second = weather.has_second_process && place + 1 == weather.clients;
        Machine {
            clock: Clock::draw(dice),
            number: if is_second { 0 } else { u8::try_from(place).unwrap_or(u8::MAX) },
            signs: place >= weather.unsigned,
            task: Task::Work,
            client: None,
            life: 0,
            kept: 0,
            ahead: Duration::ZERO,
            stays_down: (place == weather.clients).then_some(Down::Retired),
            link: None,
            is_cut: [false; 2],
            rejected_until: Duration::ZERO,
            rejections: 0,
            frozen_until: Duration::ZERO,
            calls: Calls::default(),
            timer: Timer::IDLE,
            before: None,
            may_lack: false,
            fruitless: (0, Duration::ZERO),
            is_served: [false; 2],
        }
    }
}
