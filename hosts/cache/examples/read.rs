//! Reads a row of the table item (id bigint, name text, price bigint) until it comes from memory:
//! `docs/CACHE.md` prepares the database.
//!
//!     read DATABASE KEY
use krl_cache::{BadPostgresAddress, Cache, PostgresAddress};
use std::env;
use std::error::Error;
use std::process::ExitCode;
use std::thread;
use std::time::{Duration, Instant};

const PATIENCE: Duration = Duration::from_secs(60);
const PAUSE_BETWEEN_READS: Duration = Duration::from_millis(10);

fn run(database: PostgresAddress, key: i64) -> Result<(), Box<dyn Error>> {
    let cache = Cache::builder(database, "krl-locks").open()?;
    let items = cache.table("item")?;
    let begun = Instant::now();
    // The database answers the first read. Meanwhile the row is held in krl, and loaded.
    while items.statistics().hits == 0 && begun.elapsed() < PATIENCE {
        let Some(item) = items.get(key)? else { return Err(format!("no row {key}").into()) };
        let (name, price): (&str, i64) = (item.get("name")?, item.get("price")?);
        println!("{name} for {price}, {} from memory", items.statistics().hits);
        thread::sleep(PAUSE_BETWEEN_READS);
    }
    println!("{:?}", items.statistics());
    let fault = items.fault();
    cache.close();
    fault.map_or(Ok(()), |fault| Err(fault.into()))
}

/// The database and the key that the command line names, or what is wrong with it.
fn parsed(words: &[String]) -> Result<(PostgresAddress, i64), String> {
    let [database, key] = words else {
        return Err("expected a URL of PostgreSQL and a key: read DATABASE KEY".to_string());
    };
    let database = database.parse().map_err(|bad: BadPostgresAddress| bad.to_string())?;
    let key = key.parse().map_err(|_| format!("the key is a whole number, and not {key}"))?;
    Ok((database, key))
}

fn main() -> ExitCode {
    let words: Vec<String> = env::args().skip(1).collect();
    let (database, key) = match parsed(&words) {
        Ok(parsed) => parsed,
        Err(why) => {
            eprintln!("read: {why}");
            return ExitCode::from(2);
        }
    };
    match run(database, key) {
        Ok(()) => ExitCode::SUCCESS,
        Err(error) => {
            eprintln!("read: {error}");
            ExitCode::FAILURE
        }
    }
}
