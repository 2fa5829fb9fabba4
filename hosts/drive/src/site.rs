//! Where the servers of a drive and the nodes of etcd run: each pair on a machine of its own, or
//! all on this one.
use crate::machines::{self, Machines};
use krl_testing::ports::free_address;
use std::fmt;
use std::io;
use std::net::SocketAddr;
use std::path::{Path, PathBuf};
use std::process::Command;

#[derive(Debug)]
pub enum Site {
    Here,
    Machines(Machines),
}

impl Site {
    /// Machines if this system and user can make them, otherwise this one machine.
    pub fn best(count: usize) -> Site {
        Machines::make(count).map_or_else(
            |error| {
                eprintln!("NOT RUN: machines of their own: {error}");
                Site::Here
            },
            Site::Machines,
        )
    }

    /// An address for what will listen at this place. On a machine of its own it has this port.
    pub fn address(&self, place: usize, port: u16) -> io::Result<SocketAddr> {
        match self {
            Site::Here => free_address(),
            Site::Machines(machines) => Ok((machines.address(place), port).into()),
        }
    }

    /// A program that runs at this place.
    pub fn command(&self, place: usize, program: &Path) -> Command {
        match self {
            Site::Here => Command::new(program),
            Site::Machines(machines) => machines.command(place, program),
        }
    }

    /// What a thread calls whose sockets belong to this place.
    pub fn entry(&self, place: usize) -> impl Fn() -> io::Result<()> + Clone + Send + use<> {
        let network: Option<PathBuf> = match self {
            Site::Here => None,
            Site::Machines(machines) => Some(machines.network(place)),
        };
        move || network.as_deref().map_or(Ok(()), machines::enter)
    }
}

impl fmt::Display for Site {
    fn fmt(&self, f: &mut fmt::Formatter<'_>) -> fmt::Result {
        f.write_str(match self {
            Site::Here => "on one machine",
            Site::Machines(_) => "on machines of their own",
        })
    }
}
