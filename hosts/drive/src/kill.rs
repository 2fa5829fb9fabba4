//! The drive: a server and four clients in processes of their own, killed again and again while
//! they read and write. An asker reads what they write, unless the network loses messages: it sends a
//! question again after seconds only.
use crate::Found;
use crate::clients::{Clients, Others};
use crate::log::now;
use crate::lossy::{self, Carrier};
use crate::server::{Server, TLS};
use krl_testing::ports::free_address;
use std::error::Error;
use std::net::SocketAddr;
use std::path::{Path, PathBuf};
use std::thread;
use std::time::Duration;

struct Drive {
    /// How much longer a round is than over plain TCP.
    longer: u32,
    server: Server,
    clients: Clients,
}

/// What lies between the clients and the server.
#[derive(Clone, Copy, Debug, PartialEq, Eq)]
struct Net {
    carrier: Carrier,
    is_lossy: bool,
}

/// How many milliseconds a lease has if there are some: a killed client starts again sooner.
const LEASE: u64 = 2000;

/// A round over TLS is this much longer: each start of the server is followed by a handshake of
/// each client.
const LONGER_BY_TLS: u32 = 3;

/// And this much longer if messages are lost: a lost greeting is sent again after 200 milliseconds.
const LONGER_BY_LOSS: u32 = 2;

/// Each client of another program has to note this many lines: one that does nothing shows nothing.
const LEAST_BY_OTHERS: usize = 10;

/// A reader and a writer are another program's, and everything else is as in `run`.
pub fn beside(folder: &Path, rounds: u64, program: &Path, net: &str) -> Found {
    let others = [2, 3].map(|number| (number, program.to_path_buf()));
    drive(folder, rounds, "sqlite", net, others.into())
}

/// The clients 0 to 3 are those of four programs, in this order, where `-` stands for this one, and
/// everything else is as in `run`.
pub fn among(folder: &Path, rounds: u64, net: &str, programs: [&str; 4]) -> Found {
    let others = (0..).zip(programs).filter(|(_, program)| *program != "-");
    let others = others.map(|(number, program)| (number, PathBuf::from(program)));
    drive(folder, rounds, "sqlite", net, others.collect())
}

pub fn run(folder: &Path, rounds: u64, store: &str, net: &str) -> Found {
    drive(folder, rounds, store, net, Others::new())
}

fn drive(folder: &Path, rounds: u64, store: &str, net: &str, others: Others) -> Found {
    let server_at = free_address()?;
    let net = Net::of_name(net)?;
    let clients_at = net.start(server_at)?;
    let server = Server::start(folder, &net.address(server_at), store, net.lease())?;
    let mut clients = Clients::start_beside(others, folder, net.address(clients_at))?;
    if !net.is_lossy {
        clients.start_asker()?;
    }
    clients.wait_for_others()?;
    let mut drive = Drive { longer: net.longer(), server, clients };
    let down = drive.kill_for(rounds)?;
    let done = format!("{} kills of the server", down.len());
    let Drive { server, clients, .. } = &mut drive;
    let found = clients.judge(rounds, Some(&down), || server.end(), &done);
    let least = clients.least_noted_by_others()?;
    if least.is_some_and(|least| least < LEAST_BY_OTHERS) {
        return Err("another program did too little to judge anything".into());
    }
    found
}

impl Net {
    fn of_name(name: &str) -> Result<Net, Box<dyn Error>> {
        let (carrier, is_lossy) = match name {
            "direct" => (Carrier::Plain, false),
            "lossy" => (Carrier::Plain, true),
            "tls" => (Carrier::Tls, false),
            "lossy-tls" => (Carrier::Tls, true),
            _ => return Err("a network is direct, lossy, tls or lossy-tls".into()),
        };
        Ok(Net { carrier, is_lossy })
    }

    /// Starts the network, and returns where clients connect.
    fn start(self, server: SocketAddr) -> std::io::Result<SocketAddr> {
        if self.is_lossy { lossy::start(server, self.carrier) } else { Ok(server) }
    }

    fn address(self, at: SocketAddr) -> String {
        match self.carrier {
            Carrier::Plain => at.to_string(),
            Carrier::Tls => format!("{TLS}{at}"),
        }
    }

    /// How many milliseconds a lease has. Over TLS the server has leases too.
    fn lease(self) -> u64 {
        match self.carrier {
            Carrier::Plain => 0,
            Carrier::Tls => LEASE,
        }
    }

    /// How much longer a round is than over plain TCP.
    fn longer(self) -> u32 {
        match (self.carrier, self.is_lossy) {
            (Carrier::Plain, _) => 1,
            (Carrier::Tls, false) => LONGER_BY_TLS,
            (Carrier::Tls, true) => LONGER_BY_TLS * LONGER_BY_LOSS,
        }
    }
}

impl Drive {
    /// Kills the server once in each round, and a client in two of five. Returns when no server
    /// ran.
    fn kill_for(&mut self, rounds: u64) -> Result<Vec<(u64, u64)>, Box<dyn Error>> {
        let mut down = Vec::new();
        // Time for the first rows.
        thread::sleep(Duration::from_millis(500));
        for round in 0..rounds {
            thread::sleep(Duration::from_millis(200 + 37 * (round % 5)) * self.longer);
            self.clients.wait_for_a_round()?;
            if self.server.process.ended()?.is_some() {
                return Err("the server ended by itself".into());
            }
            self.server.process.kill()?;
            let from = now();
            thread::sleep(Duration::from_millis(if round % 3 == 0 { 100 } else { 5 }));
            let to = now();
            self.server.start_again()?;
            down.push((from, to));
            if matches!(round % 5, 1 | 3) {
                thread::sleep(Duration::from_millis(50));
                self.clients.kill_next()?;
            }
        }
        thread::sleep(Duration::from_millis(500));
        Ok(down)
    }
}
