//! Runs of many seeds.
use crate::picture;
use crate::record::Line;
use crate::shorten::{Shortened, shorten};
use crate::world::{Counts, Report, Settings, World};
use std::collections::BTreeSet;
use std::fmt;
use std::fs;
use std::hash::{BuildHasher, RandomState};
use std::io::{self, ErrorKind, Write};
use std::panic::{AssertUnwindSafe, catch_unwind};
use std::path::Path;
use std::time::{Duration, Instant};

/// How each world is run.
#[derive(Clone, Debug)]
pub struct Plan {
    /// What the worlds have in common. The seed is that of each world.
    pub settings: Settings,
    /// What is printed of each world.
    pub shows: Shows,
    /// No further world is run after this many events.
    pub most_events: u64,
}

/// What is printed of a world.
#[derive(Clone, Copy, Debug, PartialEq, Eq)]
pub enum Shows {
    /// Nothing but what is wrong.
    Nothing,
    /// The last lines of what happens, this many.
    Log(usize),
    /// The same as a picture.
    Picture(usize),
}

impl Shows {
    /// What is printed of these lines.
    #[must_use]
    pub fn of(self, lines: &[Line]) -> String {
        let last = |most: usize| &lines[lines.len().saturating_sub(most)..];
        match self {
            Shows::Nothing => String::new(),
            Shows::Log(most) => {
                let lines: Vec<_> = last(most).iter().map(|line| line.to_string() + "\n").collect();
                lines.concat()
            }
            Shows::Picture(most) => picture::draw(last(most)),
        }
    }
}

/// What was done.
#[derive(Debug, Default)]
pub struct Done {
    /// The first seed.
    pub first: u64,
    /// How many worlds were run.
    pub worlds: u64,
    /// How many events there were in them.
    pub events: u64,
    /// How long they lasted by their own clocks.
    pub time: Duration,
    /// How long that took the processor.
    pub took: Duration,
    /// What there was in them.
    pub counts: Counts,
    /// The seed with which something is wrong, and how many events there were until then.
    pub wrong: Option<(u64, u64)>,
}

impl Done {
    fn add(&mut self, seed: u64, report: &Report) {
        if self.worlds == 0 {
            self.first = seed;
        }
        self.worlds += 1;
        self.events += report.events;
        self.time += report.time;
        self.counts.add(&report.counts);
        if !report.wrong.is_empty() {
            self.wrong = Some((seed, self.events));
        }
    }
}

/// Runs the worlds of these seeds, until something is wrong.
///
/// # Errors
///
/// If nothing can be printed.
pub fn run_all(
    seeds: impl IntoIterator<Item = u64>,
    plan: &Plan,
    out: &mut impl Write,
) -> io::Result<Done> {
    let began = Processor::now();
    let mut done = Done::default();
    for seed in seeds {
        run_one(seed, plan, &mut done, out)?;
        if done.wrong.is_some() || done.events >= plan.most_events {
            break;
        }
    }
    done.took = began.took();
    Ok(done)
}

/// Runs worlds of fresh seeds for this long by the processor, or until something is wrong. The
/// first seed is printed.
///
/// # Errors
///
/// If nothing can be printed.
pub fn run_fresh(processor: Duration, plan: &Plan, out: &mut impl Write) -> io::Result<Done> {
    let first = RandomState::new().hash_one(0) >> 16;
    writeln!(out, "fresh seeds from {first} on")?;
    let began = Processor::now();
    let mut done = Done::default();
    while done.wrong.is_none() && done.events < plan.most_events && began.took() < processor {
        run_one(first + done.worlds, plan, &mut done, out)?;
    }
    done.took = began.took();
    Ok(done)
}

fn run_one(seed: u64, plan: &Plan, done: &mut Done, out: &mut impl Write) -> io::Result<()> {
    let keeps_lines = plan.shows != Shows::Nothing;
    let settings = Settings { seed, keeps_lines, ..plan.settings.clone() };
    let run = || World::new(settings).run();
    let report = catch_unwind(AssertUnwindSafe(run)).unwrap_or_else(|_| Report::of_panic());
    done.add(seed, &report);
    write!(out, "{}", plan.shows.of(&report.lines))?;
    let events = report.events;
    for wrong in &report.wrong {
        let seconds = plan.settings.time.as_secs_f64();
        writeln!(out, "seed {seed}, {seconds} s, after {events} events: {wrong}")?;
    }
    Ok(())
}

/// Shortens the run of a seed, and prints by which words it is repeated. Returns whether nothing
/// is wrong.
///
/// # Errors
///
/// If nothing can be printed.
pub fn run_shortened(settings: Settings, shows: Shows, out: &mut impl Write) -> io::Result<bool> {
    let settings = Settings { keeps_lines: shows != Shows::Nothing, ..settings };
    let Some(Shortened { settings, report, runs }) = shorten(&settings) else {
        writeln!(out, "nothing is wrong")?;
        return Ok(true);
    };
    write!(out, "{}", shows.of(&report.lines))?;
    let Report { events, wrong, .. } = report;
    writeln!(out, "after {runs} runs: {events} events: {}", wrong.join("; "))?;
    let Settings { seed, time, without, quiet, .. } = settings;
    writeln!(
        out,
        "--seed {seed} --seconds {} --without {} --quiet {}",
        time.as_secs_f64(),
        list(&without),
        list(&quiet)
    )?;
    Ok(false)
}

/// Numbers with commas between them.
fn list<T: ToString>(numbers: &BTreeSet<T>) -> String {
    let numbers: Vec<_> = numbers.iter().map(ToString::to_string).collect();
    numbers.join(",")
}

/// The seeds of a file. A line begins with one; what stands after it, and lines that are empty or
/// begin with `#`, are for people.
///
/// # Errors
///
/// If the file can't be read, or a line begins otherwise.
pub fn seeds_of_file(path: &Path) -> io::Result<Vec<u64>> {
    let refused = |why: String| io::Error::new(ErrorKind::InvalidData, why);
    let at = |why: &dyn fmt::Display| format!("the seeds of {}: {why}", path.display());
    let text = fs::read_to_string(path).map_err(|error| refused(at(&error)))?;
    let lines = text.lines().filter(|line| !line.trim().is_empty() && !line.starts_with('#'));
    lines
        .map(|line| {
            let seed = line.split_whitespace().next().and_then(|word| word.parse().ok());
            seed.ok_or_else(|| refused(at(&format!("expected a line with a seed first: {line}"))))
        })
        .collect()
}

/// How long the processor has worked for this process.
struct Processor {
    worked: Option<Duration>,
    began: Instant,
}

impl Processor {
    fn now() -> Processor {
        Processor { worked: worked(), began: Instant::now() }
    }

    /// How long it has worked since. If the system does not report it, that is the time that has
    /// passed.
    fn took(&self) -> Duration {
        match (self.worked, worked()) {
            (Some(before), Some(now)) => now.saturating_sub(before),
            _ => self.began.elapsed(),
        }
    }
}

/// What Linux reports of this process: the first number is in nanoseconds.
fn worked() -> Option<Duration> {
    let times = fs::read_to_string("/proc/self/schedstat").ok()?;
    Some(Duration::from_nanos(times.split_whitespace().next()?.parse().ok()?))
}

impl fmt::Display for Done {
    fn fmt(&self, f: &mut fmt::Formatter<'_>) -> fmt::Result {
        let Done { first, worlds, events, time, took, counts, wrong } = self;
        let seconds = took.as_secs_f64().max(0.001);
        let a_second = u128::from(*events) * 1000 / took.as_millis().max(1);
        let pace = time.as_secs_f64() / seconds;
        let found = match wrong {
            None => "nothing is wrong".to_string(),
            Some((seed, events)) => format!("seed {seed} is wrong, after {events} events"),
        };
        write!(
            f,
            "{worlds} worlds from seed {first} on, {events} events in {seconds:.1} s of the processor, {a_second} a \
             second, {pace:.0} times real time; {counts}: {found}"
        )
    }
}

#[cfg(test)]
mod tests {
    use super::*;

    #[test]
    fn a_file_has_a_seed_on_each_line() {
        let path = std::env::temp_dir().join(format!("krl-simulation-{}", std::process::id()));
        fs::write(&path, "# seeds\n\n7 a thing\n12\n").unwrap();
        let seeds = seeds_of_file(&path);
        fs::write(&path, "7\nseven\n").unwrap();
        let refused = seeds_of_file(&path);
        fs::remove_file(&path).unwrap();
        assert_eq!(seeds.unwrap(), [7, 12]);
        assert!(refused.unwrap_err().to_string().contains("seven"));
        assert!(seeds_of_file(&path).unwrap_err().to_string().contains("krl-simulation-"));
    }
}
