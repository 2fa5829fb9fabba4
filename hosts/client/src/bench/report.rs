//! What a benchmark prints.
use crate::arguments::{BenchWords, Format, Skew};
use crate::bench::histogram::Histogram;
use crate::bench::workload::Measured;
use crate::failure::Failure;
use crate::output;
use serde_json::{Value as Json, json};
use std::fmt::Write;
use std::time::Duration;

/// The quantiles that are reported: of a thousand calls, and their names.
const QUANTILES: [(u64, &str); 3] = [(500, "p50"), (990, "p99"), (999, "p99.9")];

/// Prints what was measured in this time.
pub fn print(
    format: Format,
    words: &BenchWords,
    measured: &Measured,
    took: Duration,
) -> Result<(), Failure> {
    match format {
        Format::Text => output::print(&text(words, measured, took)),
        Format::Json => output::print_json(&json(words, measured, took)),
    }
}

/// The kinds of calls, each with its name as text and in JSON.
fn kinds(measured: &Measured) -> [(&'static str, &'static str, &Histogram); 4] {
    [
        ("cached scans", "cached_scans", &measured.cached),
        ("reads that asked", "reads_that_asked", &measured.asked),
        ("writes", "writes", &measured.writes),
        ("reads by readers", "reads_by_readers", &measured.by_readers),
    ]
}

fn text(words: &BenchWords, measured: &Measured, took: Duration) -> String {
    let mut text = format!(
        "clients {}, threads of each {}, readers {}, {:.1} s after {} s; {} % reads of {} rows, keys {}, {}, \
         values of {} bytes\n",
        words.clients,
        words.threads,
        words.readers,
        took.as_secs_f64(),
        words.warm_up,
        words.mix.reads,
        words.rows,
        words.keys,
        skew(words.skew),
        words.value_size
    );
    let mut line = |name: &str, columns: [String; 6]| {
        let [calls, rate, p50, p99, p999, max] = columns;
        // A string takes all that is written to it.
        let _ =
            writeln!(text, "{name:<18}{calls:>10}{rate:>12}{p50:>11}{p99:>11}{p999:>11}{max:>11}");
    };
    line("", ["calls", "a second", "p50", "p99", "p99.9", "max"].map(Into::into));
    for (name, _, times) in kinds(measured) {
        let [p50, p99, p999] = QUANTILES.map(|(of_thousand, _)| times.quantile(of_thousand));
        let shown = |time| if times.count() == 0 { "-".into() } else { format!("{time:.1?}") };
        let [p50, p99, p999, max] = [p50, p99, p999, times.max()].map(shown);
        let rate = format!("{:.1}", rate(times.count(), took));
        line(name, [times.count().to_string(), rate, p50, p99, p999, max]);
    }
    if let Some(fewest) = measured.fewest_of_a_reader {
        let _ = writeln!(text, "{:<18}{fewest:>10}", "fewest of a reader");
    }
    let _ = writeln!(text, "{:<18}{:>10}", "failed", measured.failed);
    text
}

fn json(words: &BenchWords, measured: &Measured, took: Duration) -> Json {
    let mut all = json!({
        "clients": words.clients,
        "threads": words.threads,
        "readers": words.readers,
        "fewest_reads_of_a_reader": measured.fewest_of_a_reader,
        "warm_up_seconds": words.warm_up,
        "seconds": took.as_secs_f64(),
        "reads_percent": words.mix.reads,
        "rows": words.rows,
        "keys": words.keys,
        "rate": words.rate,
        "skew": skew(words.skew),
        "value_size": words.value_size,
        "failed": measured.failed,
    });
    for (_, name, times) in kinds(measured) {
        all[name] = json_of(times, took);
    }
    all
}

fn json_of(times: &Histogram, took: Duration) -> Json {
    let mut of_times = json!({
        "calls": times.count(),
        "per_second": rate(times.count(), took),
        "max_seconds": times.max().as_secs_f64(),
    });
    for (of_thousand, name) in QUANTILES {
        of_times[format!("{name}_seconds")] = times.quantile(of_thousand).as_secs_f64().into();
    }
    of_times
}

/// Calls a second.
fn rate(calls: u64, took: Duration) -> f64 {
    // A count of calls is far below 2^53.
    #[expect(clippy::cast_precision_loss)]
    let calls = calls as f64;
    calls / took.as_secs_f64().max(f64::MIN_POSITIVE)
}

fn skew(skew: Skew) -> String {
    match skew {
        Skew::Uniform => "uniform".into(),
        Skew::Zipf(exponent) => format!("zipf:{exponent}"),
    }
}
