//! What single reads take: of one thread, next to no writer.
use crate::cached::{Cached, Process};
use crate::method::{Done, Found, Method, Place, ROWS};
use crate::plain::Plain;
use std::hint::black_box;
use std::time::{Duration, Instant};

/// Of so many runs the middle one counts.
const RUNS: usize = 5;

/// So many reads from memory are a run, and so many of the database.
const FROM_MEMORY: u32 = 100_000;
const FROM_DATABASE: u32 = 2000;

/// Rows of a range.
const RANGE: i64 = 10;

/// Measures single reads, and returns a table in Markdown.
pub fn table(place: &Place) -> Found<String> {
    let process = Process::open(place)?;
    let items = &process.items;
    Cached::new(place, &process)?.warm_up()?;
    let last = ROWS.cast_signed() - RANGE;
    let row = middle(FROM_MEMORY, |call| {
        black_box(items.get(i64::from(call) % last)?);
        Ok(())
    })?;
    let range = middle(FROM_MEMORY, |call| {
        let first = i64::from(call) % last;
        black_box(items.range(first..first + RANGE)?);
        Ok(())
    })?;
    // A table that was opened again has nothing in memory, and each of its rows is read once.
    let opened = (0..RUNS).map(|_| process.cache.table("item"));
    let mut opened = opened.collect::<Result<Vec<_>, _>>()?.into_iter();
    let rows = u32::try_from(ROWS)?;
    let mut table = None;
    let miss = middle(rows, |call| {
        if call == 0 {
            table = opened.next();
        }
        let table = table.as_ref().ok_or("there is no table")?;
        black_box(table.get(i64::from(call))?);
        Ok(())
    })?;
    let (mut plain, mut found) = (Plain::new(place, "plain")?, Vec::new());
    let select = middle(FROM_DATABASE, |call| {
        let key = u64::from(call) % ROWS;
        plain.read(key..key + 1, &mut found)
    })?;
    process.cache.close();
    let line = |name: &str, time: Duration| format!("| {name} | {time:.2?} |\n");
    Ok([
        "| | a read |\n| --- | --- |\n".to_string(),
        line("a row from memory", row),
        line("a range of ten rows from memory", range),
        line("a row that was not in memory", miss),
        line("a `SELECT` of a row, without the cache", select),
    ]
    .concat())
}

/// What a call takes, of so many in the middle run. A call has its number in the run.
fn middle(calls: u32, mut call: impl FnMut(u32) -> Done) -> Found<Duration> {
    let run = |_| -> Found<Duration> {
        let began = Instant::now();
        (0..calls).try_for_each(&mut call)?;
        Ok(began.elapsed() / calls)
    };
    let mut runs = (0..RUNS).map(run).collect::<Found<Vec<_>>>()?;
    runs.sort_unstable();
    Ok(runs[RUNS / 2])
}
