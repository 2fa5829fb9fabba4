//! Keeps rows of a table in memory, and reads each ten times a second: `bench/commits/run.sh` measures
//! commits next to it.
//!
//!     keep_rows DATABASE FOLDER TABLE ROWS
//!
//! The keys of the rows are the integers from 0 to ROWS - 1. The program prints a line when all rows
//! are in memory, and reads until it is killed.
use krl_cache::Cache;
use std::convert::Infallible;
use std::env;
use std::process::ExitCode;
use std::thread;
use std::time::Duration;

const PAUSE_BETWEEN_ROUNDS: Duration = Duration::from_millis(100);

type Fault = Box<dyn std::error::Error>;

fn main() -> ExitCode {
    let words: Vec<String> = env::args().skip(1).collect();
    let [database, folder, table, rows] = &words[..] else {
        eprintln!("usage: keep_rows DATABASE FOLDER TABLE ROWS");
        return ExitCode::from(2);
    };
    let Err(fault) = keep(database, folder, table, rows);
    eprintln!("keep_rows: {fault}");
    ExitCode::FAILURE
}

fn keep(database: &str, folder: &str, table: &str, rows: &str) -> Result<Infallible, Fault> {
    let rows: i64 = rows.parse()?;
    let cache = Cache::builder(database.parse()?, folder).open()?;
    let table = cache.table(table)?;
    let mut were_kept = false;
    loop {
        let before = table.statistics().misses;
        for key in 0..rows {
            table.get(key)?;
        }
        let are_kept = table.statistics().misses == before;
        if are_kept && !were_kept {
            println!("all rows are in memory");
        }
        were_kept |= are_kept;
        thread::sleep(PAUSE_BETWEEN_ROUNDS);
    }
}
