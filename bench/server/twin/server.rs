// A server that judges, grants, answers, calls back and takes reports, over the maps of Rust's library.
use crate::messages::{
    Ask, END, Holding, Holdings, Mode, N, Op, Outcome, Push, RANGE_XX, Said, ToClient, ToServer, Told, Value, value_of,
};
use std::collections::BTreeMap;

#[derive(Clone, Copy)]
struct Waiter {
    client: u64,
    req: u64,
    point: u64,
    hi: u64,
    mode: Mode,
}

struct Row {
    modes: [Mode; 64],
    queue: Vec<u64>,
}

impl Row {
    fn blank() -> Row {
        Row { modes: [N; 64], queue: Vec::new() }
    }

    fn fits(&self, client: u64, mode: Mode) -> bool {
        (0..64).all(|other| other == client as usize || mode.fits(self.modes[other]))
    }

    fn is_blank(&self) -> bool {
        self.queue.is_empty() && self.modes.iter().all(|mode| *mode == N)
    }
}

#[derive(Clone, Copy)]
struct Session {
    last_push: u64,
    unacked: Option<Push>,
    last_request: u64,
}

const BLANK: Session = Session { last_push: 0, unacked: None, last_request: 0 };

#[derive(Clone, Copy)]
struct Record {
    incarnation: u64,
    last: u64,
    outcome: Option<Outcome>,
}

// What survives a crash; who registered first stands first.
pub struct Durable {
    epoch: u64,
    index: BTreeMap<u64, Value>,
    register: [Option<Record>; 64],
    order: Vec<u64>,
}

pub struct Server {
    pub epoch: u64,
    index: BTreeMap<u64, Value>,
    register: [Option<Record>; 64],
    order: Vec<u64>,
    rows: BTreeMap<u64, Row>,
    waiters: [Option<Waiter>; 64],
    waiting: usize,
    sessions: Box<[Session; 64]>,
    missing: Vec<u64>,
}

impl Server {
    pub fn open(entries: u64) -> Server {
        let index = (0..entries).map(|i| (10 * i + 9, value_of(i))).collect();
        Server::start(Durable { epoch: 0, index, register: [None; 64], order: Vec::new() })
    }

    pub fn start(durable: Durable) -> Server {
        let Durable { epoch, index, register, order } = durable;
        let (missing, sessions) = (order.clone(), Box::new([BLANK; 64]));
        let (rows, waiters) = (BTreeMap::new(), [None; 64]);
        Server { epoch: epoch + 1, index, register, order, rows, waiters, waiting: 0, sessions, missing }
    }

    pub fn crash(self) -> Durable {
        let Server { epoch, index, register, order, .. } = self;
        Durable { epoch, index, register, order }
    }

    fn slot_of(&self, at: u64) -> u64 {
        self.index.range(at..).next().map_or(END, |(key, _)| *key)
    }

    fn low_of(&self, slot: u64) -> u64 {
        self.index.range(..slot).next_back().map_or(0, |(key, _)| key + 1)
    }

    fn to(&self, client: u64, body: Told) -> ToClient {
        ToClient { client, incarnation: self.register[client as usize].map_or(0, |it| it.incarnation), body }
    }

    fn holding(&self, slot: u64, client: u64) -> Holding {
        let mode = self.rows.get(&slot).map_or(N, |row| row.modes[client as usize]);
        let value = if mode.key == 0 { None } else { self.index.get(&slot).copied() };
        Holding { lo: self.low_of(slot), hi: slot + 1, mode, value }
    }

    fn push(&mut self, client: u64, body: Push, out: &mut Vec<ToClient>) {
        let session = &mut self.sessions[client as usize];
        session.last_push += 1;
        session.unacked = Some(body);
        let number = session.last_push;
        out.push(self.to(client, Told::Push { epoch: self.epoch, number, body }));
    }

    fn clear(&mut self, client: u64) {
        self.rows.retain(|_, row| {
            row.modes[client as usize] = N;
            row.queue.retain(|it| *it != client);
            !row.is_blank()
        });
        self.waiting -= usize::from(self.waiters[client as usize].take().is_some());
    }

    pub fn step(&mut self, message: &ToServer) -> Vec<ToClient> {
        let ToServer { client, incarnation, .. } = *message;
        if client > 63 || incarnation == 0 || incarnation > END {
            return Vec::new();
        }
        let known = self.register[client as usize].map_or(0, |it| it.incarnation);
        if incarnation < known {
            return Vec::new();
        }
        match &message.body {
            Said::Hello if known < incarnation => self.register(client, incarnation),
            _ if known < incarnation => Vec::new(),
            Said::Hello => vec![self.to(client, Told::Epoch { epoch: self.epoch })],
            Said::Report { epoch, .. } | Said::Request { epoch, .. } if *epoch != self.epoch => {
                vec![self.to(client, Told::Epoch { epoch: self.epoch })]
            }
            Said::Report { ranges, .. } => self.report(client, ranges),
            Said::Request { .. } if !self.missing.is_empty() => Vec::new(),
            Said::Request { seen, ask, .. } => self.request(client, *seen, ask),
        }
    }

    fn register(&mut self, client: u64, incarnation: u64) -> Vec<ToClient> {
        if self.register[client as usize].is_none() {
            self.order.push(client);
        }
        self.register[client as usize] = Some(Record { incarnation, last: 0, outcome: None });
        self.clear(client);
        self.sessions[client as usize] = BLANK;
        self.missing.retain(|it| *it != client);
        let mut out = vec![self.to(client, Told::Epoch { epoch: self.epoch })];
        self.finish(true, &mut out);
        out
    }

    fn report(&mut self, client: u64, ranges: &[(u64, u64, u8)]) -> Vec<ToClient> {
        let mut out = Vec::new();
        if !self.missing.contains(&client) {
            return out;
        }
        for turn in 0..2 {
            for (lo, hi, part) in ranges {
                let mode = Mode { range: *part, key: 0 };
                let mut slot = self.slot_of(*lo);
                while slot < *hi {
                    if turn == 0 {
                        if self.rows.get(&slot).is_some_and(|row| !row.fits(client, mode)) {
                            return out;
                        }
                    } else {
                        self.rows.entry(slot).or_insert_with(Row::blank).modes[client as usize] = mode;
                    }
                    slot = self.slot_of(slot + 1);
                }
            }
        }
        self.missing.retain(|it| *it != client);
        self.finish(true, &mut out);
        out
    }

    fn request(&mut self, client: u64, seen: u64, ask: &Ask) -> Vec<ToClient> {
        let session = &self.sessions[client as usize];
        if seen != session.last_push {
            return match session.unacked {
                Some(body) if seen + 1 == session.last_push => {
                    vec![self.to(client, Told::Push { epoch: self.epoch, number: session.last_push, body })]
                }
                _ => Vec::new(),
            };
        }
        let is_next = |req| req == session.last_request + 1;
        let mut out = Vec::new();
        match *ask {
            Ask::Lock { req, point, hi, mode }
                if is_next(req) && self.waiters[client as usize].is_none() && point < hi && point <= END =>
            {
                self.sessions[client as usize].unacked = None;
                self.sessions[client as usize].last_request = req;
                self.lock(Waiter { client, req, point, hi, mode }, &mut out);
                return out;
            }
            Ask::Write { number, op } => self.write(client, number, op, &mut out),
            Ask::Release { lo, hi, mode } => {
                self.sessions[client as usize].unacked = None;
                self.lower(client, lo, hi, mode);
                self.finish(false, &mut out);
                return out;
            }
            Ask::Lock { .. } | Ask::Ack => self.sessions[client as usize].unacked = None,
        }
        self.finish(true, &mut out);
        out
    }

    // A lock that nobody has to wait for is granted at once.
    fn lock(&mut self, waiter: Waiter, out: &mut Vec<ToClient>) {
        let slot = self.slot_of(waiter.point);
        let is_absent = waiter.mode.needs_entry() && slot != waiter.point;
        let row = self.rows.entry(slot).or_insert_with(Row::blank);
        let held = row.modes[waiter.client as usize];
        if !is_absent && row.queue.is_empty() && row.fits(waiter.client, held.join(waiter.mode)) {
            self.grant(slot, &waiter, out);
            self.call_back(out);
            return;
        }
        row.queue.insert(if held == N { row.queue.len() } else { 0 }, waiter.client);
        self.waiters[waiter.client as usize] = Some(waiter);
        self.waiting += 1;
        self.finish(true, out);
    }

    // Raises the slot, and as many after it as the request asks for and as are free, eight in all.
    fn grant(&mut self, slot: u64, waiter: &Waiter, out: &mut Vec<ToClient>) {
        let first = self.raise(slot, waiter);
        let mut holdings = Holdings { items: [first; 8], len: 1 };
        let mut at = slot;
        while holdings.len < 8 && at < END && at + 1 < waiter.hi {
            at = self.slot_of(at + 1);
            let row = self.rows.entry(at).or_insert_with(Row::blank);
            let wanted = row.modes[waiter.client as usize].join(waiter.mode);
            if !row.queue.is_empty() || !row.fits(waiter.client, wanted) {
                break;
            }
            holdings.items[holdings.len] = self.raise(at, waiter);
            holdings.len += 1;
        }
        self.push(waiter.client, Push::Grant { req: waiter.req, holdings }, out);
    }

    fn raise(&mut self, slot: u64, waiter: &Waiter) -> Holding {
        let row = self.rows.entry(slot).or_insert_with(Row::blank);
        let held = &mut row.modes[waiter.client as usize];
        *held = held.join(waiter.mode);
        self.holding(slot, waiter.client)
    }

    fn lower(&mut self, client: u64, lo: u64, hi: u64, mode: Mode) {
        let first = self.slot_of(lo);
        let from = if self.low_of(first) < lo { first + 1 } else { first };
        let mut blank = Vec::new();
        for (slot, row) in self.rows.range_mut(from..hi) {
            let held = &mut row.modes[client as usize];
            *held = Mode { range: held.range.min(mode.range), key: held.key.min(mode.key) };
            if row.is_blank() {
                blank.push(*slot);
            }
        }
        for slot in blank {
            self.rows.remove(&slot);
        }
    }

    fn write(&mut self, client: u64, number: u64, op: Op, out: &mut Vec<ToClient>) {
        let record = self.register[client as usize].unwrap();
        let outcome = if number == record.last + 1 {
            let outcome = self.judge(client, op);
            if outcome == Outcome::Applied {
                self.apply(client, op);
            }
            self.register[client as usize] = Some(Record { last: number, outcome: Some(outcome), ..record });
            outcome
        } else if let (true, Some(outcome)) = (number == record.last, record.outcome) {
            outcome
        } else {
            return self.sessions[client as usize].unacked = None;
        };
        self.sessions[client as usize].unacked = None;
        let holding = self.holding(self.slot_of(op.key()), client);
        self.push(client, Push::Answer { number, outcome, holding }, out);
    }

    fn judge(&self, client: u64, op: Op) -> Outcome {
        let held = |slot| self.rows.get(&slot).map_or(N, |row: &Row| row.modes[client as usize]);
        let key = op.key();
        let slot = self.slot_of(key);
        match op {
            Op::Insert(..) if slot == key => Outcome::Exists,
            Op::Put(..) | Op::Delete(..) if slot != key => Outcome::Absent,
            Op::Insert(..) if held(slot).range < 2 => Outcome::NotHeld,
            Op::Put(..) if held(slot).key < 2 => Outcome::NotHeld,
            Op::Delete(..) if held(slot) != RANGE_XX || held(self.slot_of(key + 1)).range != 3 => Outcome::NotHeld,
            _ => Outcome::Applied,
        }
    }

    fn apply(&mut self, client: u64, op: Op) {
        match op {
            Op::Insert(key, value) => {
                let above = self.slot_of(key);
                let mut row = Row::blank();
                if let Some(old) = self.rows.get(&above) {
                    for (new, old) in row.modes.iter_mut().zip(&old.modes) {
                        new.range = old.range;
                    }
                }
                row.modes[client as usize] = RANGE_XX;
                self.rows.insert(key, row);
                self.index.insert(key, value);
            }
            Op::Put(key, value) => {
                self.index.insert(key, value);
            }
            Op::Delete(key) => {
                let above = self.slot_of(key + 1);
                let queue = self.rows.remove(&key).map_or_else(Vec::new, |row| row.queue);
                self.rows.entry(above).or_insert_with(Row::blank).queue.splice(0..0, queue);
                self.index.remove(&key);
            }
        }
    }

    // Answers who can be answered, at the least slot first, and calls back.
    fn finish(&mut self, calls_back: bool, out: &mut Vec<ToClient>) {
        if !self.missing.is_empty() || self.waiting == 0 {
            return;
        }
        for slot in self.waiting_slots() {
            while self.answer_first(slot, out) {}
        }
        if calls_back {
            self.call_back(out);
        }
    }

    fn waiting_slots(&self) -> Vec<u64> {
        let mut slots: Vec<u64> = self.waiters.iter().flatten().map(|it| self.slot_of(it.point)).collect();
        slots.sort_unstable();
        slots.dedup();
        slots
    }

    fn answer_first(&mut self, slot: u64, out: &mut Vec<ToClient>) -> bool {
        let Some(row) = self.rows.get_mut(&slot) else { return false };
        let Some(client) = row.queue.first().copied() else { return false };
        let Some(waiter) = self.waiters[client as usize] else { return false };
        if self.sessions[client as usize].unacked.is_some() {
            return false;
        }
        let is_absent = waiter.mode.needs_entry() && slot != waiter.point;
        if !is_absent && !row.fits(client, row.modes[client as usize].join(waiter.mode)) {
            return false;
        }
        row.queue.remove(0);
        self.waiters[client as usize] = None;
        self.waiting -= 1;
        if is_absent {
            self.push(client, Push::Absent { req: waiter.req, point: waiter.point }, out);
        } else {
            self.grant(slot, &waiter, out);
        }
        true
    }

    fn call_back(&self, out: &mut Vec<ToClient>) {
        if self.waiting == 0 {
            return;
        }
        for slot in self.waiting_slots() {
            let Some(row) = self.rows.get(&slot) else { continue };
            let Some(client) = row.queue.first().copied() else { continue };
            let Some(waiter) = self.waiters[client as usize] else { continue };
            if waiter.mode.needs_entry() && slot != waiter.point {
                continue;
            }
            let wanted = row.modes[client as usize].join(waiter.mode);
            let lo = self.low_of(slot);
            for other in 0..64 {
                if other != client && !wanted.fits(row.modes[other as usize]) {
                    let body = Told::Callback { epoch: self.epoch, lo, hi: slot + 1, keep: wanted.cap() };
                    out.push(self.to(other, body));
                }
            }
        }
    }
}
