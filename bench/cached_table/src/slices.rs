//! The turns: in each of them all threads read and write in the same way.
use crate::acknowledged::{Acknowledged, count_stale};
use crate::cached::{Cached, Process};
use crate::method::{Done, Found, Method, PROCESSES, Place};
use crate::plain::Plain;
use crate::random::Random;
use crate::redis::Aside;
use std::sync::Barrier;
use std::time::{Duration, Instant};
use std::{iter, thread};

/// What is measured.
#[derive(Clone, Copy, Debug)]
pub struct Plan {
    /// Rows of a read.
    pub reads: u64,
    /// How many of a thousand calls write.
    pub writes: u64,
    /// How many rows are read and written.
    pub hot: u64,
    /// How many threads each process has.
    pub threads: u8,
    pub turns: u32,
    pub time: Duration,
}

pub const METHODS: [&str; 3] = ["PostgreSQL", "Redis next to it", "krl-cache"];

/// What the processes did in one way.
#[derive(Clone, Debug, Default)]
pub struct Measured {
    /// How many calls ended in each turn.
    pub calls: Vec<u32>,
    pub reads: Vec<Duration>,
    pub writes: Vec<Duration>,
    pub rows: u64,
    pub stale: u64,
}

impl Measured {
    fn add(&mut self, other: Measured) {
        self.calls.resize(other.calls.len(), 0);
        self.calls.iter_mut().zip(other.calls).for_each(|(sum, calls)| *sum += calls);
        self.reads.extend(other.reads);
        self.writes.extend(other.writes);
        self.rows += other.rows;
        self.stale += other.stale;
    }
}

/// Measures each way by turns.
pub fn measure(place: &Place, plan: &Plan) -> Found<[Measured; METHODS.len()]> {
    let acknowledged = METHODS.map(|_| Acknowledged::new());
    let barrier = Barrier::new(usize::from(PROCESSES) * usize::from(plan.threads));
    let processes: Vec<Process> =
        (0..PROCESSES).map(|_| Process::open(place)).collect::<Found<_>>()?;
    let measured = thread::scope(|scope| {
        let run = |process, number| {
            Caller::new(place, plan, process, number)?.run(&acknowledged, &barrier)
        };
        let of_thread =
            processes.iter().flat_map(|process| iter::repeat_n(process, plan.threads.into()));
        let start = |(number, process)| scope.spawn(move || run(process, number));
        let started: Vec<_> = (0..).zip(of_thread).map(start).collect();
        let mut sums = <[Measured; METHODS.len()]>::default();
        for caller in started {
            let measured = caller.join().map_err(|_| "a thread panicked")??;
            sums.iter_mut().zip(measured).for_each(|(sum, one)| sum.add(one));
        }
        Found::Ok(sums)
    })?;
    for process in processes {
        process.cache.close();
    }
    Ok(measured)
}

/// A thread of a process of the application. It has connections of its own, and shares with the other threads of its
/// process what krl-cache keeps in memory.
struct Caller<'p> {
    plan: &'p Plan,
    methods: [Box<dyn Method>; METHODS.len()],
    random: Random,
}

impl<'p> Caller<'p> {
    fn new(place: &Place, plan: &'p Plan, process: &Process, number: u64) -> Found<Caller<'p>> {
        let methods: [Box<dyn Method>; METHODS.len()] = [
            Box::new(Plain::new(place, "plain")?),
            Box::new(Aside::new(place)?),
            Box::new(Cached::new(place, process)?),
        ];
        Ok(Caller { plan, methods, random: Random::of(number) })
    }

    fn run(
        mut self,
        acknowledged: &[Acknowledged; METHODS.len()],
        barrier: &Barrier,
    ) -> Found<[Measured; METHODS.len()]> {
        self.methods.iter_mut().try_for_each(|method| method.warm_up())?;
        let mut measured = <[Measured; METHODS.len()]>::default();
        for _ in 0..self.plan.turns {
            for method in 0..METHODS.len() {
                barrier.wait();
                self.take_turn(method, &acknowledged[method], &mut measured[method])?;
            }
        }
        Ok(measured)
    }

    fn take_turn(
        &mut self,
        method: usize,
        acknowledged: &Acknowledged,
        measured: &mut Measured,
    ) -> Done {
        let (end, mut calls) = (Instant::now() + self.plan.time, 0);
        while Instant::now() < end {
            let key = self.random.below(self.plan.hot - self.plan.reads);
            if self.random.below(1000) < self.plan.writes {
                self.write(method, key, acknowledged, measured)?;
            } else {
                self.read(method, key, acknowledged, measured)?;
            }
            calls += 1;
        }
        measured.calls.push(calls);
        Ok(())
    }

    fn write(
        &mut self,
        method: usize,
        key: u64,
        acknowledged: &Acknowledged,
        measured: &mut Measured,
    ) -> Done {
        let began = Instant::now();
        let count = self.methods[method].write(key)?;
        measured.writes.push(began.elapsed());
        acknowledged.note(key, count)
    }

    fn read(
        &mut self,
        method: usize,
        key: u64,
        acknowledged: &Acknowledged,
        measured: &mut Measured,
    ) -> Done {
        let (mut rows, mut least) = (Vec::new(), Vec::new());
        acknowledged.before(key..key + self.plan.reads, &mut least)?;
        let began = Instant::now();
        self.methods[method].read(key..key + self.plan.reads, &mut rows)?;
        measured.reads.push(began.elapsed());
        if rows.len() != least.len() {
            return Err(format!("{} rows were read of {}", rows.len(), least.len()).into());
        }
        measured.rows += rows.len() as u64;
        measured.stale += count_stale(&rows, &least);
        Ok(())
    }
}
