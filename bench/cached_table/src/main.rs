//! A table of PostgreSQL, read in three ways: by PostgreSQL only, with Redis as a cache next to it, and by krl-cache.
//! Each writes by plain SQL. `run.sh` starts the servers and calls this.
mod acknowledged;
mod cached;
mod method;
mod plain;
mod random;
mod redis;
mod report;
mod single;
mod slices;

use crate::method::{Done, Place, ROWS};
use clap::Parser;
use std::num::NonZeroU32;
use std::path::PathBuf;
use std::process::ExitCode;
use std::time::Duration;

/// Measures PostgreSQL, Redis next to it, and krl-cache by turns, and prints a table in Markdown
#[derive(Debug, Parser)]
#[command(name = "krl-cached-table", version)]
struct Arguments {
    /// PostgreSQL, as `postgres://postgres@127.0.0.1:5432/postgres`
    #[arg(long)]
    postgres: String,
    /// Redis, as 127.0.0.1:6379
    #[arg(long)]
    redis: String,
    /// Where the lock files of krl's clients lie
    #[arg(long)]
    folder: PathBuf,
    /// Bytes of a row's body
    #[arg(long, default_value_t = 200, value_parser = clap::value_parser!(u32).range(8..=1 << 20))]
    bytes: u32,
    /// Rows of a read
    #[arg(long, default_value_t = 10, value_parser = clap::value_parser!(u32).range(1..=100))]
    reads: u32,
    /// How many of a thousand calls write
    #[arg(long, default_value_t = 20, value_parser = clap::value_parser!(u32).range(0..=1000))]
    writes: u32,
    /// How many of the 4,000 rows are read and written
    #[arg(long, default_value_t = 4000, value_parser = clap::value_parser!(u32).range(101..=4000))]
    hot: u32,
    /// How many threads each of the four processes has
    #[arg(long, default_value = "1", value_parser = clap::value_parser!(u8).range(1..=16))]
    threads: u8,
    /// Measures single reads in place of that: of one thread, next to no writer
    #[arg(long)]
    single: bool,
    /// How often each way has its turn
    #[arg(long, default_value = "5")]
    turns: NonZeroU32,
    /// Milliseconds of a turn
    #[arg(long, default_value = "2000")]
    milliseconds: NonZeroU32,
}

fn main() -> ExitCode {
    match run(&Arguments::parse()) {
        Ok(()) => ExitCode::SUCCESS,
        Err(error) => {
            eprintln!("krl-cached-table: {error}");
            ExitCode::FAILURE
        }
    }
}

fn run(arguments: &Arguments) -> Done {
    let place = Place {
        postgres: arguments.postgres.clone(),
        redis: arguments.redis.clone(),
        folder: arguments.folder.clone(),
        bytes: arguments.bytes as usize,
    };
    let plan = slices::Plan {
        reads: arguments.reads.into(),
        writes: arguments.writes.into(),
        hot: arguments.hot.into(),
        threads: arguments.threads,
        turns: arguments.turns.get(),
        time: Duration::from_millis(arguments.milliseconds.get().into()),
    };
    cached::make_rows(&place)?;
    if arguments.single {
        print!("{}", single::table(&place)?);
        return Ok(());
    }
    let measured = slices::measure(&place, &plan)?;
    println!(
        "{} of {ROWS} rows of {} bytes, reads of {}, {} of 1,000 calls write",
        plan.hot, place.bytes, plan.reads, plan.writes
    );
    print!("{}", report::table(&measured, plan.time));
    Ok(())
}
