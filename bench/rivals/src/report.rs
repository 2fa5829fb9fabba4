//! The table.
use crate::figures::{Figures, Unit, What};
use crate::measures::{SCAN, WARMED, WRITERS};
use crate::mix::{CLIENTS, READS_PERCENT, ROWS_OF_A_READ};

/// A table in Markdown: of each figure the best round, the middle one in brackets, and how many
/// times as long as the best one of the first system that takes.
pub fn table(names: &[&str], figures: &[Figures]) -> String {
    let mut text = String::new();
    row(&mut text, "What", names.iter().map(ToString::to_string));
    row(&mut text, "---", names.iter().map(|_| "---".into()));
    for what in all() {
        let found: Vec<_> = figures.iter().map(|it| it.best_and_middle(what)).collect();
        if found.iter().any(Option::is_some) {
            let first = found[0].map(|(best, _)| best);
            let rest = |(place, found): (usize, &Option<_>)| {
                cell(what.unit(), *found, first.filter(|_| place > 0))
            };
            row(&mut text, &name(what), found.iter().enumerate().map(rest));
        }
        if what == What::Calls && figures.iter().any(|it| it.rows > 0) {
            let cells = figures.iter().map(|it| format!("{} of {}", it.stale, it.rows));
            row(&mut text, "stale rows among all rows that those read", cells);
        }
    }
    text
}

fn all() -> impl Iterator<Item = What> {
    let first = [
        What::CachedScan,
        What::FirstScan,
        What::Warming,
        What::Calls,
        What::FreshCalls,
        What::Write,
    ];
    first.into_iter().chain(WRITERS.map(What::Writes))
}

fn name(what: What) -> String {
    match what {
        What::CachedScan => format!("cached scan of {SCAN} rows, µs"),
        What::FirstScan => format!("first scan of {SCAN} rows, µs"),
        What::Warming => format!("{WARMED} rows into an empty cache, ms"),
        What::Calls => format!(
            "{CLIENTS} clients, {READS_PERCENT} % reads of {ROWS_OF_A_READ} rows: calls a second"
        ),
        What::FreshCalls => "the same calls a second, no row stale".into(),
        What::Write => "synced write, one writer, µs".into(),
        What::Writes(writers) => format!("synced writes a second, {writers} writers"),
    }
}

fn row(text: &mut String, head: &str, cells: impl Iterator<Item = String>) {
    text.push_str("| ");
    text.push_str(head);
    for cell in cells {
        text.push_str(" | ");
        text.push_str(&cell);
    }
    text.push_str(" |\n");
}

fn cell(unit: Unit, found: Option<(f64, f64)>, first: Option<f64>) -> String {
    let Some((best, middle)) = found else { return "–".into() };
    let shown = format!("{} ({})", shown(unit, best), shown(unit, middle));
    match first {
        Some(first) => format!("{shown} {}", ratio(unit.times_as_long(first, best))),
        None => shown,
    }
}

fn shown(unit: Unit, figure: f64) -> String {
    match unit {
        Unit::Micros if figure < 1e-5 => format!("{:.2}", figure * 1e6),
        Unit::Micros => format!("{:.0}", figure * 1e6),
        Unit::Millis => format!("{:.1}", figure * 1e3),
        Unit::PerSecond => format!("{figure:.0}"),
    }
}

fn ratio(ratio: f64) -> String {
    if ratio < 9.95 { format!("×{ratio:.2}") } else { format!("×{ratio:.0}") }
}

#[cfg(test)]
mod tests {
    use super::*;

    #[test]
    fn ratios_are_times_of_the_first() {
        let of = |cached: Option<f64>, calls| {
            let mut round: crate::figures::Round = [(What::Calls, calls)].into();
            round.extend(cached.map(|it| (What::CachedScan, it)));
            Figures { rounds: vec![round], rows: 5, stale: 1 }
        };
        let figures = [of(Some(2e-6), 1000.0), of(Some(3e-6), 500.0), of(None, 10.0)];
        let table = table(&["krl", "a", "b"], &figures);
        let lines: Vec<&str> = table.lines().collect();
        assert_eq!(lines[..2], ["| What | krl | a | b |", "| --- | --- | --- | --- |"]);
        let scan = "| cached scan of 100 rows, µs | 2.00 (2.00) | 3.00 (3.00) ×1.50 | – |";
        assert_eq!(lines[2], scan);
        let calls = "| 1000 (1000) | 500 (500) ×2.00 | 10 (10) ×100 |";
        assert!(lines[3].ends_with(calls), "{}", lines[3]);
        assert!(lines[4].ends_with("| 1 of 5 | 1 of 5 | 1 of 5 |"), "{}", lines[4]);
        assert_eq!(lines.len(), 5, "what was not measured has no line");
    }
}
