//! The table.
use crate::slices::{METHODS, Measured};
use std::fmt::Write;
use std::time::Duration;

/// A table in Markdown. A turn took this long.
pub fn table(measured: &[Measured; METHODS.len()], time: Duration) -> String {
    let mut text = String::from(
        "| | calls a second (least, most) | read p50 | p99 | write p50 | p99 | rows read | stale |\n\
         | --- | --- | --- | --- | --- | --- | --- | --- |\n",
    );
    for (name, it) in METHODS.iter().zip(measured) {
        let mut rates: Vec<f64> =
            it.calls.iter().map(|calls| f64::from(*calls) / time.as_secs_f64()).collect();
        rates.sort_by(f64::total_cmp);
        let (least, middle, most) = (rates.first(), rates.get(rates.len() / 2), rates.last());
        let rate = |rate: Option<&f64>| rate.copied().unwrap_or_default();
        let _ = writeln!(
            text,
            "| {name} | {:.0} ({:.0}, {:.0}) | {} | {} | {} | {} | {} | {} |",
            rate(middle),
            rate(least),
            rate(most),
            part(&it.reads, 50),
            part(&it.reads, 99),
            part(&it.writes, 50),
            part(&it.writes, 99),
            it.rows,
            it.stale
        );
    }
    text
}

/// The time below which this many percent of them are.
fn part(times: &[Duration], percent: usize) -> String {
    let mut times = times.to_vec();
    times.sort_unstable();
    times
        .get(times.len() * percent / 100)
        .map_or("-".into(), |time| format!("{:.1} us", time.as_secs_f64() * 1e6))
}

#[cfg(test)]
mod tests {
    use super::*;

    #[test]
    fn the_middle_turn_counts() {
        let one = Measured {
            calls: vec![10, 40, 30],
            reads: (1..=100).map(Duration::from_micros).collect(),
            rows: 7,
            ..Measured::default()
        };
        let table = table(&[one.clone(), one.clone(), one], Duration::from_secs(2));
        let line = "| PostgreSQL | 15 (5, 20) | 51.0 us | 100.0 us | - | - | 7 | 0 |";
        assert!(table.lines().any(|it| it == line), "{table}");
    }
}
