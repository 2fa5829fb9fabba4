//! Runs worlds by their seeds, and reports what is wrong.
use clap::{ArgGroup, Args, Parser};
use krl_simulation::run::{self, Done, Plan, Shows};
use krl_simulation::world::Settings;
use std::io::{self, Write};
use std::ops::Range;
use std::path::PathBuf;
use std::process::ExitCode;
use std::str::FromStr;
use std::time::Duration;

/// Runs servers and clients of krl in one thread, over a network, disks and clocks that a seed
/// draws.
///
/// Each run judges what clients are answered. The first seed with which something is wrong is
/// printed, and ends the program with status 1.
#[derive(Debug, Parser)]
#[command(name = "krl-simulation", version)]
struct Words {
    #[command(flatten)]
    worlds: Worlds,
    /// For this many seconds of a world there are faults
    #[arg(long, default_value_t = 20.0)]
    seconds: f64,
    /// Leave out the faults of these numbers
    #[arg(long, value_name = "NUMBERS", value_delimiter = ',')]
    without: Vec<u64>,
    /// The callers of these clients ask for nothing
    #[arg(long, value_name = "NUMBERS", value_delimiter = ',')]
    quiet: Vec<usize>,
    /// Run no further world after this many events
    #[arg(long, default_value_t = u64::MAX, hide_default_value = true)]
    events: u64,
    /// Print what happens, a line each
    #[arg(long, conflicts_with = "picture")]
    log: bool,
    /// Print what happens as a picture
    #[arg(long)]
    picture: bool,
    /// Print at most this many lines of what happens, the last ones
    #[arg(long, default_value_t = usize::MAX, hide_default_value = true)]
    last: usize,
    /// Search for a shorter run with the same failure, and print it
    #[arg(long, requires = "seed")]
    shorten: bool,
}

/// Which worlds are run.
#[derive(Args, Debug)]
#[command(group = ArgGroup::new("which").required(true).multiple(false))]
struct Worlds {
    /// The world of this seed
    #[arg(long, group = "which")]
    seed: Option<u64>,
    /// The worlds of the seeds from A on below B
    #[arg(long = "seeds", group = "which", value_name = "A..B")]
    range: Option<SeedRange>,
    /// The worlds of a file: a line for each, its seed first
    #[arg(long, group = "which", value_name = "PATH")]
    file: Option<PathBuf>,
    /// Worlds of fresh seeds, for this many seconds of the processor
    #[arg(long, group = "which", value_name = "SECONDS")]
    fresh: Option<u64>,
}

/// Seeds in their order.
#[derive(Clone, Debug, PartialEq, Eq)]
struct SeedRange(Range<u64>);

impl FromStr for SeedRange {
    type Err = String;

    fn from_str(text: &str) -> Result<SeedRange, String> {
        let read = text.split_once("..").and_then(|(first, end)| {
            let (first, end) = (first.parse().ok()?, end.parse().ok()?);
            (first < end).then_some(SeedRange(first..end))
        });
        read.ok_or_else(|| {
            format!("expected two numbers, the first one less, as in 1..100: {text}")
        })
    }
}

fn main() -> ExitCode {
    let words = Words::parse();
    match run(&words) {
        Ok(is_right) => ExitCode::from(u8::from(!is_right)),
        Err(error) => {
            eprintln!("krl-simulation: {error}");
            ExitCode::from(2)
        }
    }
}

/// Runs the worlds, and returns whether nothing is wrong.
fn run(words: &Words) -> io::Result<bool> {
    let mut out = io::stdout().lock();
    let plan = words.plan()?;
    let done = match &words.worlds {
        Worlds { seed: Some(seed), .. } if words.shorten => {
            let settings = Settings { seed: *seed, ..plan.settings };
            return run::run_shortened(settings, plan.shows, &mut out);
        }
        Worlds { seed: Some(seed), .. } => run::run_all(*seed..=*seed, &plan, &mut out)?,
        Worlds { range: Some(SeedRange(seeds)), .. } => {
            run::run_all(seeds.clone(), &plan, &mut out)?
        }
        Worlds { file: Some(path), .. } => {
            run::run_all(run::seeds_of_file(path)?, &plan, &mut out)?
        }
        Worlds { fresh, .. } => {
            let processor = Duration::from_secs(fresh.unwrap_or_default());
            run::run_fresh(processor, &plan, &mut out)?
        }
    };
    writeln!(out, "{done}")?;
    Ok(matches!(done, Done { wrong: None, .. }))
}

impl Words {
    fn plan(&self) -> io::Result<Plan> {
        let time = Duration::try_from_secs_f64(self.seconds).map_err(io::Error::other)?;
        let settings = Settings {
            without: self.without.iter().copied().collect(),
            quiet: self.quiet.iter().copied().collect(),
            ..Settings::of(0, time)
        };
        let shows = match self {
            Words { log: true, .. } => Shows::Log(self.last),
            Words { picture: true, .. } => Shows::Picture(self.last),
            _ => Shows::Nothing,
        };
        Ok(Plan { settings, shows, most_events: self.events })
    }
}

#[cfg(test)]
mod tests {
    use super::*;
    use clap::CommandFactory;

    #[test]
    fn a_range_of_seeds_is_two_numbers() {
        assert_eq!("3..7".parse(), Ok(SeedRange(3..7)));
        for text in ["", "3", "3..", "..7", "7..3", "3..3", "a..b", "3-7"] {
            let message = text.parse::<SeedRange>().unwrap_err();
            assert!(message.contains("1..100"), "{message}");
        }
    }

    #[test]
    fn the_words_name_one_kind_of_seeds() {
        Words::command().debug_assert();
        assert!(Words::try_parse_from(["krl-simulation"]).is_err());
        assert!(Words::try_parse_from(["krl-simulation", "--seed", "1", "--fresh", "2"]).is_err());
        assert!(Words::try_parse_from(["krl-simulation", "--seeds", "1..9"]).is_ok());
    }
}
