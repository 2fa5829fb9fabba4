//! The same seed gives the same run, and each kind of thing happens in some run.
use krl_simulation::world::{Counts, Report, Settings, World};
use std::time::Duration;

fn run(seed: u64, keeps_lines: bool) -> Report {
    let settings = Settings { keeps_lines, ..Settings::of(seed, Duration::from_secs(2)) };
    World::new(settings).run()
}

#[test]
fn a_run_by_a_seed_is_the_same_byte_for_byte() {
    for seed in 1..=3 {
        let (first, second) = (run(seed, true), run(seed, true));
        let [log, again] = [&first, &second].map(|report| {
            let lines: Vec<_> = report.lines.iter().map(ToString::to_string).collect();
            lines.join("\n")
        });
        assert!(log.len() > 10_000, "it tells what happens");
        assert_eq!(log, again, "two runs of seed {seed}");
        assert_eq!(first, second, "two runs of seed {seed}");
        let unlogged = run(seed, false);
        assert_eq!(unlogged.fingerprint, first.fingerprint, "it is the same without a log");
    }
    assert_ne!(run(1, false).fingerprint, run(2, false).fingerprint);
}

#[test]
fn each_kind_of_thing_happens() {
    let mut all = Counts::default();
    // An eviction waits for the end of a lease, so these runs are longer.
    for seed in 100..130 {
        let report = World::new(Settings::of(seed, Duration::from_secs(20))).run();
        assert_eq!(report.wrong, [""; 0], "seed {seed}");
        all.add(&report.counts);
    }
    let Counts { reads, cached, writes, pins, bound, watched, .. } = all;
    let Counts { left, evicted, refused, starts, went_back, faults, .. } = all;
    let happened = [reads, cached, writes, pins, bound, watched];
    assert!(happened.iter().all(|count| *count > 100), "{all}");
    let happened = [left, evicted, refused, starts, went_back, faults];
    assert!(happened.iter().all(|count| *count > 0), "{all}");
}
