//! Drawn runs of one client number and the servers over one store, by clocks that agree as they
//! only just have to. Nobody who was evicted may answer.
use super::*;
use crate::lease::of_client::{End, Lease, Piggyback};
use crate::lease::terms::{Answer, DRIFT};
use std::sync::Arc;

const CLIENT: u8 = 3;
const RUNS: u64 = 300;
const EVENTS: u64 = 1000;
const SECOND: u64 = 1_000_000_000;

/// Numbers drawn by a seed.
struct Dice(u64);

impl Dice {
    /// A number below the bound.
    fn below(&mut self, bound: u64) -> u64 {
        self.0 ^= self.0 << 13;
        self.0 ^= self.0 >> 7;
        self.0 ^= self.0 << 17;
        self.0 % bound
    }
}

/// A server that runs, and what was sent on the client's connection to it.
struct Serving {
    table: LeaseTable,
    signs: Vec<Sign>,
    answers: Vec<Answer>,
    is_connected: bool,
    is_greeted: bool,
    sends_hello: bool,
}

/// What a run has come to.
#[derive(Default)]
struct Counts {
    evicted: u64,
    /// Rows handed over by a lease that ends.
    answered: u64,
}

struct World {
    dice: Dice,
    /// Real time, in nanoseconds.
    time: u64,
    lease: Lease,
    serving: Option<Serving>,
    stored: LeaseRecord,
    record: Option<Record>,
    evicted: Vec<Arc<End>>,
    /// The server receives nothing. What it sent before still comes.
    is_cut: bool,
    counts: Counts,
}

impl World {
    fn new(seed: u64) -> World {
        World {
            dice: Dice(seed.wrapping_mul(0x9E37_79B9_7F4A_7C15)),
            time: 0,
            lease: Lease::new(CLIENT, 1, Older::Unknown),
            serving: None,
            stored: LeaseRecord::UNKNOWN,
            record: None,
            evicted: Vec::new(),
            is_cut: false,
            counts: Counts::default(),
        }
    }

    /// The clock of the client's machine.
    fn client_clock(&self) -> Moment {
        Moment::of_nanoseconds(self.time + 5 * SECOND)
    }

    /// That of the server's machine: it runs as fast as the drift allows.
    fn server_clock(&self) -> Moment {
        Moment::of_nanoseconds(self.time * (100 + u64::from(DRIFT)) / 100)
    }

    fn step(&mut self) {
        match self.dice.below(21) {
            0..=3 => self.time += self.dice.below(SECOND),
            4 => self.connect(),
            5 | 6 => self.send_sign(),
            7 | 8 => self.receive_sign(),
            9 | 10 => self.take(),
            11 => self.hello(),
            12 => self.register(),
            13 => self.restart(),
            14 => self.revise(),
            15 => self.is_cut = !self.is_cut,
            16 if self.dice.below(30) == 0 => self.end_process(),
            _ => self.evict(),
        }
        self.look();
    }

    fn connect(&mut self) {
        let now = self.client_clock();
        if !self.lease.holds(now) {
            self.begin_again();
        }
        let Some(serving) = &mut self.serving else { return };
        self.lease.disconnect();
        serving.answers.clear();
        (serving.is_connected, serving.is_greeted) = (true, false);
        serving.signs.extend(self.lease.greet(now));
    }

    /// A client whose lease has ended, or that learns that it has, takes a greater incarnation.
    fn begin_again(&mut self) {
        let next = self.record.map_or(0, |record| record.incarnation) + 1;
        self.lease = Lease::new(CLIENT, next, Older::Unknown);
        if let Some(serving) = &mut self.serving {
            (serving.is_connected, serving.sends_hello) = (false, false);
        }
    }

    /// The client's process ends, as its server learns, and another one starts that knows nothing.
    fn end_process(&mut self) {
        let (now, own) = (self.server_clock(), self.lease.incarnation());
        let is_registered = self.record.is_some_and(|record| record.incarnation == own);
        if let Some(serving) = self.serving.as_mut().filter(|_| is_registered) {
            serving.table.is_over(CLIENT, now).unwrap();
        }
        self.begin_again();
    }

    fn send_sign(&mut self) {
        let now = self.client_clock();
        let Some(serving) = self.serving.as_mut().filter(|it| it.is_connected) else { return };
        serving.signs.extend(self.lease.sign_due(now, Piggyback::OnMessages));
    }

    /// A sign comes, in any order and any number of times, and then a commit is made.
    fn receive_sign(&mut self) {
        let (now, is_cut) = (self.server_clock(), self.is_cut);
        let can_receive = |it: &&mut Serving| !is_cut && !it.signs.is_empty();
        let Some(serving) = self.serving.as_mut().filter(can_receive) else { return };
        let place = self.dice.below(serving.signs.len() as u64);
        let sign = serving.signs[usize::try_from(place).unwrap()];
        match serving.table.sign(0, sign, now) {
            Err(Code::Gone) => {
                serving.answers.push(Answer::Ended { incarnation: sign.incarnation });
            }
            heard => heard.unwrap(),
        }
        let commit = serving.table.commit().unwrap();
        serving.table.committed(commit).unwrap();
        let granted = serving.table.take_terms().into_iter();
        serving.answers.extend(granted.map(|(_, grant)| Answer::Granted(grant)));
    }

    fn take(&mut self) {
        let now = self.client_clock();
        let Some(serving) = self.serving.as_mut().filter(|it| !it.answers.is_empty()) else {
            return;
        };
        let place = self.dice.below(serving.answers.len() as u64);
        match serving.answers[usize::try_from(place).unwrap()] {
            Answer::Granted(grant) => serving.is_greeted |= self.lease.take(grant, now),
            Answer::Ended { incarnation } if incarnation == self.lease.incarnation() => {
                self.begin_again();
            }
            Answer::Ended { .. } => {}
        }
    }

    fn hello(&mut self) {
        if let Some(serving) = self.serving.as_mut().filter(|it| it.is_connected && it.is_greeted) {
            serving.sends_hello = true;
        }
    }

    fn register(&mut self) {
        let (now, incarnation) = (self.server_clock(), self.lease.incarnation());
        let is_new = self.record.is_none_or(|record| record.incarnation < incarnation);
        let Some(serving) = self.serving.as_mut().filter(|it| it.sends_hello && is_new) else {
            return;
        };
        if serving.table.admit(CLIENT, incarnation, now).unwrap() {
            serving.table.register(CLIENT, incarnation, now).unwrap();
            self.stored = serving.table.record();
            self.record = Some(Record { client: CLIENT, incarnation, last: None, left: false });
        }
    }

    /// Leases of one to five seconds, or now and then none.
    fn draw_leases(&mut self) -> Option<Leases> {
        let length = Duration::from_secs(self.dice.below(6));
        (!length.is_zero()).then(|| Leases::of(length).unwrap())
    }

    /// The server ends, or another one starts.
    fn restart(&mut self) {
        if self.serving.is_some() {
            self.serving.take_if(|_| self.dice.below(4) == 0);
            return;
        }
        let leases = self.draw_leases();
        let records: Vec<_> = self.record.into_iter().collect();
        let table = LeaseTable::opened(self.stored, &records, leases, self.server_clock());
        self.stored = table.record();
        self.serving = Some(Serving {
            table,
            signs: Vec::new(),
            answers: Vec::new(),
            is_connected: false,
            is_greeted: false,
            sends_hello: false,
        });
    }

    fn revise(&mut self) {
        let now = self.server_clock();
        let Some(serving) = &mut self.serving else { return };
        serving.table.revise(now).unwrap();
        self.stored = serving.table.record();
    }

    fn evict(&mut self) {
        let now = self.server_clock();
        let Some(serving) = &mut self.serving else { return };
        let Some(successor) = serving.table.evict(CLIENT, now).unwrap() else { return };
        serving.table.succeed(CLIENT, successor).unwrap();
        serving.table.leave(CLIENT).unwrap();
        self.stored = serving.table.record();
        self.record =
            Some(Record { client: CLIENT, incarnation: successor, last: None, left: true });
        self.counts.evicted += 1;
        // Its process may continue. If it has begun again, its older lease has ended.
        if self.lease.incarnation() + 1 == successor {
            self.evicted.push(self.lease.end());
        }
    }

    /// Whoever can answers now.
    fn look(&mut self) {
        let now = self.client_clock();
        assert!(!self.evicted.iter().any(|end| end.allows(|| Ok(now))), "at {}", self.time);
        let is_registered = self
            .record
            .is_some_and(|record| record.incarnation == self.lease.incarnation() && !record.left);
        let ends = !self.lease.end().allows(|| Err(std::io::ErrorKind::Other.into()));
        self.counts.answered += u64::from(is_registered && ends && self.lease.holds(now));
    }
}

#[test]
fn nobody_answers_who_was_evicted() {
    let mut counts = Counts::default();
    for seed in 1..=RUNS {
        let mut world = World::new(seed);
        (0..EVENTS).for_each(|_| world.step());
        counts.evicted += world.counts.evicted;
        counts.answered += world.counts.answered;
    }
    let Counts { evicted, answered } = counts;
    assert!(evicted > RUNS / 2 && answered > RUNS, "{evicted} evicted, {answered} answered");
}
