//! The drive of leases: clients and servers are stopped, continue, and die, and no operator is
//! there.
use crate::Found;
use crate::clients::Clients;
use crate::lossy::{self, Carrier};
use crate::nodes::READERS;
use crate::server::Server;
use krl_testing::ports::free_address;
use std::error::Error;
use std::path::Path;
use std::thread;
use std::time::Duration;

/// The length of a lease, in milliseconds.
pub const LEASE: u64 = 600;

const STOP: &str = "-STOP";
const GO_ON: &str = "-CONT";

/// The clients that die, one after the other.
const DYING: [u8; 4] = [1, 0, 3, 2];

struct Drive {
    server: Server,
    clients: Clients,
}

/// What is done in a round.
#[derive(Clone, Copy)]
enum Fault {
    /// A client is stopped for longer than its lease.
    LongStop,
    /// A server starts again while a client is stopped for less.
    RestartBesideStop,
    /// A client dies, and nobody takes its number for long.
    Death,
    /// The server is stopped for longer than the lease.
    ServerStop,
    /// A client is stopped for about as long as its lease.
    ShortStop,
    /// A client and the server die.
    BothDie,
}

const FAULTS: [Fault; 6] = [
    Fault::LongStop,
    Fault::RestartBesideStop,
    Fault::Death,
    Fault::ServerStop,
    Fault::ShortStop,
    Fault::BothDie,
];

/// Makes one fault after the other, and compares what was read with what was written.
pub fn run(folder: &Path, rounds: u64, net: &str) -> Found {
    let server_at = free_address()?;
    let clients_at = match net {
        "direct" => server_at,
        "lossy" => lossy::start(server_at, Carrier::Plain)?,
        _ => return Err("a network is direct or lossy".into()),
    };
    let server = Server::start(folder, &server_at.to_string(), "sqlite", LEASE)?;
    let clients = Clients::start(folder, clients_at.to_string())?;
    let mut drive = Drive { server, clients };
    sleep(700);
    for round in 0..rounds {
        drive.round(round)?;
        sleep(300 + 37 * (round % 5));
    }
    sleep(2 * LEASE);
    let done = format!("{rounds} faults with leases of {LEASE} ms");
    let Drive { server, clients } = &mut drive;
    // A server is down only for moments, which nobody notes.
    clients.judge(rounds, None, || server.end(), &done)
}

impl Drive {
    fn round(&mut self, round: u64) -> Result<(), Box<dyn Error>> {
        let number = usize::try_from(round)?;
        let place = |count: usize| (number / FAULTS.len()) % count;
        let (dying, reader) = (DYING[place(DYING.len())], READERS[place(READERS.len())]);
        match FAULTS[number % FAULTS.len()] {
            Fault::LongStop => self.stop_client(reader, 2 * LEASE),
            Fault::RestartBesideStop => {
                self.clients.signal(reader, STOP)?;
                self.restart_server()?;
                sleep(LEASE * 6 / 10);
                self.clients.signal(reader, GO_ON)
            }
            Fault::Death => {
                self.clients.kill(dying)?;
                sleep(2 * LEASE);
                Ok(self.clients.start_one(dying)?)
            }
            Fault::ServerStop => {
                self.server.process.signal(STOP)?;
                sleep(2 * LEASE);
                self.server.process.signal(GO_ON)
            }
            Fault::ShortStop => self.stop_client(dying, LEASE + 30 * (round % 5) - 60),
            Fault::BothDie => {
                self.clients.kill(dying)?;
                self.restart_server()?;
                sleep(2 * LEASE);
                Ok(self.clients.start_one(dying)?)
            }
        }
    }

    fn restart_server(&mut self) -> Result<(), Box<dyn Error>> {
        self.server.process.kill()?;
        self.server.start_again()
    }

    fn stop_client(&mut self, number: u8, milliseconds: u64) -> Result<(), Box<dyn Error>> {
        self.clients.signal(number, STOP)?;
        sleep(milliseconds);
        self.clients.signal(number, GO_ON)
    }
}

pub fn sleep(milliseconds: u64) {
    thread::sleep(Duration::from_millis(milliseconds));
}
