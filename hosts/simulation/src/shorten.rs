//! The same failure in a shorter run: one with fewer faults, fewer callers and less time.
use crate::world::{Report, Settings, World};

/// No more runs are made to shorten one.
const MOST_RUNS: usize = 500;

/// A run that was shortened.
#[derive(Debug)]
pub struct Shortened {
    /// What it is made of.
    pub settings: Settings,
    /// What it comes to.
    pub report: Report,
    /// How many runs it took.
    pub runs: usize,
}

/// Shortens the run of these settings, if something is wrong in it.
#[must_use]
pub fn shorten(settings: &Settings) -> Option<Shortened> {
    let report = World::new(settings.clone()).run();
    let failure = kind(report.wrong.first()?);
    let settings = settings.clone();
    let mut search = Search { failure, best: Shortened { settings, report, runs: 1 } };
    search.end_earlier();
    search.leave_out_callers();
    search.leave_out_faults();
    search.end_earlier();
    Some(search.best)
}

/// The search for a shorter run with the same failure.
struct Search {
    failure: String,
    best: Shortened,
}

impl Search {
    /// Makes a run, and takes it for the best one if it fails in the same way.
    fn try_run(&mut self, settings: Settings) -> bool {
        if self.best.runs >= MOST_RUNS {
            return false;
        }
        self.best.runs += 1;
        let report = World::new(settings.clone()).run();
        let fails = report.wrong.first().is_some_and(|wrong| kind(wrong) == self.failure);
        if fails {
            (self.best.settings, self.best.report) = (settings, report);
        }
        fails
    }

    /// There are no faults after the failure.
    fn end_earlier(&mut self) {
        let Shortened { settings, report, .. } = &self.best;
        if report.time < settings.time {
            let settings = Settings { time: report.time, ..settings.clone() };
            self.try_run(settings);
        }
    }

    fn leave_out_callers(&mut self) {
        for client in 0..self.best.report.clients {
            let mut settings = self.best.settings.clone();
            if settings.quiet.insert(client) {
                self.try_run(settings);
            }
        }
    }

    /// Leaves out as many faults at once as it can: half of them first, and single ones in the end.
    fn leave_out_faults(&mut self) {
        let faults = self.best.report.counts.faults;
        let mut step = faults.div_ceil(2);
        while step > 0 {
            let mut first = 1;
            while first <= faults {
                let mut settings = self.best.settings.clone();
                settings.without.extend(first..first + step);
                if settings.without != self.best.settings.without {
                    self.try_run(settings);
                }
                first += step;
            }
            step = if step == 1 { 0 } else { step.div_ceil(2) };
        }
    }
}

/// What is wrong, without its numbers.
fn kind(wrong: &str) -> String {
    wrong.chars().filter(|letter| letter.is_alphabetic()).take(60).collect()
}

#[cfg(test)]
mod tests {
    use super::*;

    #[test]
    fn failures_are_the_same_whatever_their_numbers_are() {
        let text = |client, keys| kind(&format!("client {client} read {keys}"));
        assert_eq!(text(1, "3..4"), text(2, "5..60"));
        assert_ne!(text(1, "3..4"), kind("client 1 waits 3s"));
    }

    #[test]
    fn a_run_in_which_nothing_is_wrong_is_not_shortened() {
        let settings = Settings::of(3, std::time::Duration::from_secs(1));
        assert!(shorten(&settings).is_none());
    }
}
