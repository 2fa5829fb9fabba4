//! krl next to other servers of keys and values: the same work for each, over TCP on this machine.
//!
//! `run.sh` starts the servers and calls this program, whose words `USAGE` has.
mod clients;
mod etcd;
mod figures;
mod grpc;
#[cfg(hiredis)]
mod hiredis;
mod krl_system;
mod load;
mod local;
mod measures;
mod mix;
mod postgres;
mod protobuf;
mod redis;
mod report;
mod system;

use crate::figures::Figures;
use crate::measures::Plan;
use crate::system::{Done, Found, System, Table};
use std::io;
use std::net::TcpListener;
use std::path::Path;
use std::process::ExitCode;

const USAGE: &str =
    "usage: krl-rivals ports COUNT       this many ports of 127.0.0.1 that nobody listens at
       krl-rivals has hiredis       whether it was built with hiredis
       krl-rivals serve ADDRESS FOLDER REACH TABLE    a server of krl over SQLite, with the rows
       krl-rivals measure FOLDER ROUNDS TABLE SYSTEM=ADDRESS..
       krl-rivals reads FOLDER ROUNDS TABLE SYSTEM=ADDRESS..    measures first reads only
       krl-rivals writes FOLDER ROUNDS TABLE SYSTEM=ADDRESS..   measures synced writes only
       krl-rivals load FOLDER SECONDS TABLE CLIENTS SYSTEM=ADDRESS..    prints times over load as CSV
       a TABLE is ROWSxBYTES, 10000 to 1000000 rows and 8 to 32 bytes, as 10000x8;
       CLIENTS are numbers of clients, each from 1 to 60, such as 1,2,4,8,16;
       a SYSTEM is krl, krl-reach-8, redis, hiredis, etcd or postgres";

/// The most clients at once. krl has numbers for 64, some of which other measurements use.
const MAX_CLIENTS: u8 = 60;

fn main() -> ExitCode {
    let words: Vec<String> = std::env::args().skip(1).collect();
    match run(&words) {
        Ok(()) => ExitCode::SUCCESS,
        Err(error) => {
            eprintln!("krl-rivals: {error}");
            ExitCode::FAILURE
        }
    }
}

fn run(words: &[String]) -> Done {
    let words: Vec<&str> = words.iter().map(String::as_str).collect();
    match words[..] {
        ["ports", count] => print_ports(
            count.parse().map_err(|_| format!("'{count}' is no number of ports, 0 to 255"))?,
        ),
        ["has", "hiredis"] if cfg!(hiredis) => Ok(()),
        ["has", "hiredis"] => Err("it was built without hiredis".into()),
        ["serve", address, folder, reach, rows] => {
            krl_system::serve(address, Path::new(folder), reach.parse()?, table(rows)?)
        }
        ["measure", folder, rounds, rows, ref systems @ ..] if !systems.is_empty() => {
            let (rounds, table) = (number(rounds)?, table(rows)?);
            let of = |system: &dyn System, figures: &mut Figures| {
                measures::of(system, table, &Plan::STANDARD, figures)
            };
            measure(&mut all(systems, folder, table)?, rounds, of)
        }
        ["reads", folder, rounds, rows, ref systems @ ..] if !systems.is_empty() => {
            let (rounds, table) = (number(rounds)?, table(rows)?);
            let of = |system: &dyn System, figures: &mut Figures| {
                measures::first_reads(system, table, figures)
            };
            measure(&mut all(systems, folder, table)?, rounds, of)
        }
        ["writes", folder, rounds, rows, ref systems @ ..] if !systems.is_empty() => {
            let of = |system: &dyn System, figures: &mut Figures| {
                measures::synced_writes(system, &Plan::STANDARD, figures)
            };
            measure(&mut all(systems, folder, table(rows)?)?, number(rounds)?, of)
        }
        ["load", folder, seconds, rows, counts, ref systems @ ..] if !systems.is_empty() => {
            let counts = client_counts(counts)?;
            let mut systems = all(systems, folder, table(rows)?)?;
            systems.iter_mut().try_for_each(|system| system.make_rows())?;
            load::print(&systems, &counts, &Plan::STANDARD.mixing_for(number(seconds)?))
        }
        _ => Err(USAGE.into()),
    }
}

fn number(count: &str) -> Found<u32> {
    Ok(count.parse().map_err(|_| format!("'{count}' is no number of rounds or seconds"))?)
}

/// The numbers of clients that a word names.
fn client_counts(word: &str) -> Found<Vec<u8>> {
    let count = |text: &str| text.parse().ok().filter(|count| (1..=MAX_CLIENTS).contains(count));
    let counts: Option<Vec<u8>> = word.split(',').map(count).collect();
    Ok(counts.ok_or_else(|| format!("'{word}' is no list of numbers of clients\n{USAGE}"))?)
}

/// The table that a word names: its rows, and the bytes of a value.
fn table(word: &str) -> Found<Table> {
    let parts = word.split_once('x');
    let parts = parts.and_then(|(rows, bytes)| Some((rows.parse().ok()?, bytes.parse().ok()?)));
    match parts {
        Some((rows @ 10_000..=1_000_000, value_bytes @ 8..=32)) => Ok(Table { rows, value_bytes }),
        _ => Err(format!("'{word}' is no table\n{USAGE}").into()),
    }
}

fn all(systems: &[&str], folder: &str, table: Table) -> Found<Vec<Box<dyn System>>> {
    systems.iter().map(|it| system(it, Path::new(folder), table)).collect()
}

/// All are taken at once, so that none comes twice.
fn print_ports(count: u8) -> Done {
    let listeners: io::Result<Vec<_>> =
        (0..count).map(|_| TcpListener::bind("127.0.0.1:0")).collect();
    for listener in listeners? {
        println!("{}", listener.local_addr()?.port());
    }
    Ok(())
}

fn system(word: &str, folder: &Path, table: Table) -> Found<Box<dyn System>> {
    let (name, address) = word.split_once('=').ok_or(USAGE)?;
    Ok(match name {
        "krl" => Box::new(krl_system::Krl::new("krl", address, folder, table)?),
        "krl-reach-8" => Box::new(krl_system::Krl::new("krl-reach-8", address, folder, table)?),
        "redis" => Box::new(redis::Redis::new(address, table)),
        #[cfg(hiredis)]
        "hiredis" => Box::new(hiredis::Hiredis::new(address, table)),
        "etcd" => Box::new(etcd::Etcd::new(address, table)),
        "postgres" => Box::new(postgres::Postgres::new(address, table)),
        _ => return Err(format!("'{name}' is no system\n{USAGE}").into()),
    })
}

/// The systems take turns in each round, so that other work of the machine meets all of them.
fn measure(
    systems: &mut [Box<dyn System>],
    rounds: u32,
    of: impl Fn(&dyn System, &mut Figures) -> Done,
) -> Done {
    systems.iter_mut().try_for_each(|system| system.make_rows())?;
    let mut figures = vec![Figures::default(); systems.len()];
    for _ in 0..rounds {
        for (system, figures) in systems.iter().zip(&mut figures) {
            of(system.as_ref(), figures)?;
        }
    }
    let names: Vec<&str> = systems.iter().map(|system| system.name()).collect();
    print!("{}", report::table(&names, &figures));
    Ok(())
}
