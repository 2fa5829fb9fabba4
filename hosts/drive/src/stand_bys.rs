//! Three servers that stand by for each other, a cluster of etcd, and a relay between each server
//! and the cluster.
use crate::clients::{ENDING, Process};
use crate::cluster::{self, Cluster, NODES};
use crate::site::Site;
use crate::waiting::until;
use krl::Address;
use krl_etcd::{Credentials, Election};
use krl_testing::etcd_relay::Relay;
use std::error::Error;
use std::fs::OpenOptions;
use std::net::{SocketAddr, TcpStream};
use std::path::{Path, PathBuf};
use std::process::Stdio;
use std::rc::Rc;
use std::time::Duration;

/// How many seconds a server may be silent.
pub const LEASE: u64 = 2;

/// How long the leases of the clients are.
#[derive(Clone, Copy, Debug)]
pub enum ClientLeases {
    /// As short as a server grants them.
    Short,
    /// There are none.
    None,
}

impl ClientLeases {
    /// The setting of a server that grants them.
    fn setting(self) -> &'static str {
        match self {
            ClientLeases::Short => "2s",
            ClientLeases::None => "off",
        }
    }
}

/// The port of a server on a machine of its own.
const PORT: u16 = 7400;

/// How long it waits for a connection.
const CONNECT: Duration = Duration::from_millis(100);

pub struct StandBys {
    folder: PathBuf,
    program: PathBuf,
    leases: ClientLeases,
    servers_at: Vec<SocketAddr>,
    relays: Vec<Relay>,
    servers: Vec<Process>,
    pub cluster: Cluster,
    pub site: Rc<Site>,
}

impl StandBys {
    /// Starts a cluster and servers of this program, whose logs are in the folder.
    pub fn start(
        folder: &Path,
        (program, leases): (&Path, ClientLeases),
        site: Site,
    ) -> Result<StandBys, Box<dyn Error>> {
        let site = Rc::new(site);
        let cluster = Cluster::start(folder, Rc::clone(&site))?;
        let relay = |place| Relay::start(cluster.nodes(), site.entry(place));
        let relays = (0..NODES).map(relay).collect::<Result<_, _>>()?;
        let servers_at = (0..NODES).map(|place| site.address(place, PORT));
        let mut all = StandBys {
            folder: folder.to_path_buf(),
            program: program.to_path_buf(),
            leases,
            servers_at: servers_at.collect::<Result<_, _>>()?,
            relays,
            servers: Vec::new(),
            cluster,
            site,
        };
        for place in 0..NODES {
            let server = all.start_server(place)?;
            all.servers.push(server);
        }
        all.wait_for(|_| true)?;
        Ok(all)
    }

    fn start_server(&self, place: usize) -> std::io::Result<Process> {
        let log = self.folder.join(format!("server-{place}.log"));
        let log = OpenOptions::new().create(true).append(true).open(log)?;
        let store = cluster::address(self.relays[place].addresses()).to_string();
        let mut command = self.site.command(place, &self.program);
        command.args(["serve", "--status", "off", "--election-lease", &LEASE.to_string()]);
        command.args(["--create", "--store", &store, "--listen", &plain(&self.servers_at[place])]);
        command.args(["--plain-beyond-loopback", "yes", "--lease", self.leases.setting()]);
        Process::start(command.stderr(log).stdin(Stdio::null()))
    }

    /// The addresses of all servers, as clients take them.
    pub fn addresses(&self) -> String {
        let addresses: Vec<String> = self.servers_at.iter().map(plain).collect();
        addresses.join(",")
    }

    pub fn server(&mut self, place: usize) -> &mut Process {
        &mut self.servers[place]
    }

    pub fn relay(&self, place: usize) -> &Relay {
        &self.relays[place]
    }

    /// A server that was killed is started again.
    pub fn start_again(&mut self, place: usize) -> std::io::Result<()> {
        self.servers[place] = self.start_server(place)?;
        Ok(())
    }

    /// Waits until a server serves whose place is as asked, and returns which.
    pub fn wait_for(&self, is_right: impl Fn(usize) -> bool) -> Result<usize, Box<dyn Error>> {
        self.wait_beside(NODES - 1, is_right)
    }

    /// Waits until another server serves than the one of this place, whose node may be out of
    /// reach, and returns which.
    pub fn wait_for_another(&self, place: usize) -> Result<usize, Box<dyn Error>> {
        self.wait_beside(place, |other| other != place)
    }

    fn wait_beside(
        &self,
        last: usize,
        is_right: impl Fn(usize) -> bool,
    ) -> Result<usize, Box<dyn Error>> {
        until(ENDING, "no server serves", || Ok(self.leader(last).filter(|place| is_right(*place))))
    }

    /// The server that has the place, if it listens.
    fn leader(&self, last: usize) -> Option<usize> {
        let address = self.cluster.address_last(last);
        let found = Election::leader(&address, &Credentials::default()).ok()??;
        let place = self.servers_at.iter().position(|at| plain(at) == found)?;
        let connected = TcpStream::connect_timeout(&self.servers_at[place], CONNECT);
        connected.ok().map(|_| place)
    }

    /// Whether each server still runs.
    pub fn all_run(&mut self) -> Result<(), Box<dyn Error>> {
        for server in &mut self.servers {
            if let Some(status) = server.ended()? {
                return Err(format!("a server ended by itself: {status}").into());
            }
        }
        Ok(())
    }
}

/// The address as a server takes it: in a network namespace it lies beyond the loopback.
fn plain(at: &SocketAddr) -> String {
    Address::Tcp(*at).to_string()
}
