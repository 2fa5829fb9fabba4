//! Drives servers and clients of krl, each in a process of its own, and checks what they read.
//!
//! ```text
//! krl_drive kill FOLDER ROUNDS [sqlite|unsynced [direct|lossy|tls|lossy-tls]]  kills all of them
//! krl_drive beside FOLDER ROUNDS PROGRAM [direct|lossy]           half of the clients are PROGRAM's
//! krl_drive among FOLDER ROUNDS NETWORK PROGRAM PROGRAM PROGRAM PROGRAM   each client is another's
//! krl_drive leases FOLDER ROUNDS [direct|lossy]                  stops and kills clients with leases
//! krl_drive takeover FOLDER ROUNDS                                kills who holds what another wants
//! krl_drive failover FOLDER ROUNDS SERVER [FAULTS [HOW..]]        breaks servers that stand by
//! krl_drive frozen FOLDER ROUNDS SERVER                           freezes servers of a reader
//! krl_drive shards FOLDER SECONDS KILLS                           kills servers of two shards
//! krl_drive moves FOLDER SECONDS KILLS SERVER                    cuts, merges and moves shards
//! krl_drive grow FOLDER SERVER                                    measures such changes
//! krl_drive cache FOLDER SECONDS                                  kills readers of a cached table
//! krl_drive haste FOLDER                                          measures next to a hasty client
//! krl_drive reaches FOLDER                                        measures long and short grants
//! krl_drive strangers                                             connects what is not a client
//! krl_drive reports                                               reports in the worst orders
//! krl_drive large-stores FOLDER                                  fills stores of the greatest room
//! krl_drive strings COUNT CHANGED                                 hands strings to both decoders
//! krl_drive conform ADDRESS NUMBER LOCK_FILE SECONDS              is a client for hosts/conformance
//! krl_drive lease-costs FOLDER                                    measures what leases cost
//! krl_drive stores FOLDER ROUNDS                                  measures stores by turns
//! krl_drive trips FOLDER [tcp|unix]                               measures next to an echo
//! ```
//!
//! FAULTS are names such as `kill,freeze,cut`: see `fault.rs`. Each server of `failover` has a
//! machine of its own, a network namespace, if this user can make one, and not if one HOW is
//! `here`. Its clients have leases, and not if one is `leaseless`.
//!
//! The status is 0 if all is well, 3 if something wrong was read or lost, and 1 if the
//! drive itself failed.
mod applied;
mod bench_stores;
mod bystanders;
mod cache;
mod certificates;
mod clients;
mod cluster;
mod conform;
mod delayed;
mod failover;
mod fault;
mod ffi;
mod frozen;
mod grow;
mod haste;
mod history;
mod kill;
mod large_stores;
mod lease_costs;
mod leases;
mod log;
mod long_reports;
mod lossy;
mod machines;
mod moves;
mod nodes;
mod reaches;
mod resharded;
mod sealed;
mod server;
mod shards;
mod site;
mod stand_bys;
mod strangers;
mod strings;
mod takeover;
mod trips;
mod unsynced;
mod waiting;

// What `krl`'s declarations take from it.
mod model {
    pub mod row {
        pub use krl::Row;
    }
}

use cluster::NODES;
use site::Site;
use stand_bys::ClientLeases;
use std::error::Error;
use std::path::Path;
use std::process::ExitCode;

/// The faults of servers that stand by, if none are named.
const FAULTS: &str = "kill,freeze,wake,cut,delay,isolate,late,cross,node";

/// What a run found: `false` if something was wrong.
pub type Found = Result<bool, Box<dyn Error>>;

fn main() -> ExitCode {
    let words: Vec<String> = std::env::args().skip(1).collect();
    let words: Vec<&str> = words.iter().map(String::as_str).collect();
    match run(&words) {
        Ok(true) => ExitCode::SUCCESS,
        Ok(false) => ExitCode::from(3),
        Err(error) => {
            eprintln!("krl_drive: {error}");
            ExitCode::FAILURE
        }
    }
}

fn run(words: &[&str]) -> Found {
    match *words {
        ["kill", folder, rounds] => {
            kill::run(Path::new(folder), rounds.parse()?, "sqlite", "direct")
        }
        ["kill", folder, rounds, store, net] => {
            kill::run(Path::new(folder), rounds.parse()?, store, net)
        }
        ["beside", folder, rounds, program] => {
            kill::beside(Path::new(folder), rounds.parse()?, Path::new(program), "direct")
        }
        ["beside", folder, rounds, program, net] => {
            kill::beside(Path::new(folder), rounds.parse()?, Path::new(program), net)
        }
        ["among", folder, rounds, net, first, second, third, fourth] => {
            kill::among(Path::new(folder), rounds.parse()?, net, [first, second, third, fourth])
        }
        ["leases", folder, rounds] => leases::run(Path::new(folder), rounds.parse()?, "direct"),
        ["leases", folder, rounds, net] => leases::run(Path::new(folder), rounds.parse()?, net),
        ["takeover", folder, rounds] => takeover::run(Path::new(folder), rounds.parse()?),
        ["failover", folder, rounds, server] => failover(folder, rounds, server, FAULTS, &[]),
        ["failover", folder, rounds, server, faults, ref how @ ..] => {
            failover(folder, rounds, server, faults, how)
        }
        ["frozen", folder, rounds, server] => {
            let site = Site::best(NODES);
            frozen::run(Path::new(folder), rounds.parse()?, Path::new(server), site)
        }
        ["shards", folder, seconds, kills] => {
            shards::run(Path::new(folder), seconds.parse()?, kills.parse()?)
        }
        ["moves", folder, seconds, kills, server] => {
            let server = Path::new(server);
            moves::run(Path::new(folder), seconds.parse()?, kills.parse()?, server)
        }
        ["grow", folder, server] => grow::run(Path::new(folder), Path::new(server)),
        ["cache", folder, seconds] => cache::run(Path::new(folder), seconds.parse()?),
        ["strangers"] => strangers::run(),
        ["reports"] => long_reports::run(),
        ["large-stores", folder] => large_stores::run(Path::new(folder)),
        ["strings", count, changed] => strings::run(count.parse()?, changed.parse()?),
        ["haste", folder] => haste::run(Path::new(folder)),
        ["reaches", folder] => reaches::run(Path::new(folder)),
        ["conform", address, number, lock_file, seconds] => {
            conform::run(address, number, lock_file, seconds)
        }
        ["lease-costs", folder] => lease_costs::run(Path::new(folder)),
        ["stores", folder, rounds] => bench_stores::run(Path::new(folder), rounds.parse()?),
        ["trips", folder] => trips::run(Path::new(folder), "tcp"),
        ["trips", folder, socket] => trips::run(Path::new(folder), socket),
        // The processes that `kill`, `cache`, `takeover` and `moves` start.
        ["server", address, folder, store, lease] => {
            nodes::server(address, Path::new(folder), store, lease.parse()?)
        }
        ["cache-reader", name, database, folder] => cache::read(name, database, Path::new(folder)),
        ["bystander", number, folder] => bystanders::run(number.parse()?, Path::new(folder)),
        ["holder", address, folder] => takeover::hold(address, Path::new(folder)),
        ["reader", number, address, folder] => {
            nodes::reader(number.parse()?, address, Path::new(folder))
        }
        ["writer", number, address, folder] => {
            nodes::writer(number.parse()?, address, Path::new(folder))
        }
        ["asker", _, address, folder] => nodes::asker(address, Path::new(folder)),
        _ => Err("see the head of main.rs for the words".into()),
    }
}

fn failover(folder: &str, rounds: &str, server: &str, faults: &str, how: &[&str]) -> Found {
    if let Some(other) = how.iter().find(|word| !["here", "leaseless"].contains(word)) {
        return Err(format!("failover is done here or leaseless, and not {other}").into());
    }
    let site = if how.contains(&"here") { Site::Here } else { Site::best(NODES) };
    let is_leaseless = how.contains(&"leaseless");
    let leases = if is_leaseless { ClientLeases::None } else { ClientLeases::Short };
    let server = (Path::new(server), leases);
    failover::run(Path::new(folder), rounds.parse()?, server, faults, site)
}
