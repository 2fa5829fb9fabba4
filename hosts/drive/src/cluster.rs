//! Nodes of etcd, one at each place of a site.
use crate::clients::{ENDING, Process};
use crate::site::Site;
use crate::waiting::until;
use krl_etcd::{Credentials, Election, EtcdAddress};
use std::error::Error;
use std::net::SocketAddr;
use std::path::{Path, PathBuf};
use std::process::Stdio;
use std::rc::Rc;
use std::thread;
use std::time::Duration;

/// How many nodes there are: one may die.
pub const NODES: usize = 3;

/// The prefix of the table's keys.
const PREFIX: &str = "/krl/drive";

/// The ports of a node on a machine of its own.
const CLIENTS: u16 = 2379;
const PEERS: u16 = 2380;

/// A cluster of three nodes. They die with this.
pub struct Cluster {
    folder: PathBuf,
    site: Rc<Site>,
    clients_at: Vec<SocketAddr>,
    peers_at: Vec<SocketAddr>,
    nodes: Vec<Process>,
}

impl Cluster {
    pub fn start(folder: &Path, site: Rc<Site>) -> Result<Cluster, Box<dyn Error>> {
        let addresses =
            |port| (0..NODES).map(|place| site.address(place, port)).collect::<Result<Vec<_>, _>>();
        let (clients_at, peers_at) = (addresses(CLIENTS)?, addresses(PEERS)?);
        let folder = folder.to_path_buf();
        let mut cluster = Cluster { folder, site, clients_at, peers_at, nodes: Vec::new() };
        for place in 0..NODES {
            let node = cluster.start_node(place)?;
            cluster.nodes.push(node);
        }
        cluster.wait()?;
        Ok(cluster)
    }

    fn start_node(&self, place: usize) -> std::io::Result<Process> {
        let folder = self.folder.join(format!("etcd-{place}"));
        let state = if folder.exists() { "existing" } else { "new" };
        let members: Vec<String> =
            self.peers_at.iter().zip(0..).map(|(at, of)| format!("n{of}=http://{at}")).collect();
        let client = format!("http://{}", self.clients_at[place]);
        let peer = format!("http://{}", self.peers_at[place]);
        let mut command = self.site.command(place, Path::new("etcd"));
        command.args(["--name", &format!("n{place}"), "--log-level", "error", "--data-dir"]);
        command.arg(folder).args(["--listen-client-urls", &client]);
        command.args(["--advertise-client-urls", &client, "--listen-peer-urls", &peer]);
        command.args(["--initial-advertise-peer-urls", &peer, "--initial-cluster-state", state]);
        command.args(["--initial-cluster", &members.join(",")]);
        command.args(["--auto-compaction-mode", "revision", "--auto-compaction-retention", "1000"]);
        Process::start(command.stdout(Stdio::null()).stderr(Stdio::null()))
    }

    /// Waits until the nodes have elected a leader.
    fn wait(&self) -> Result<(), Box<dyn Error>> {
        until(ENDING, "the nodes of etcd elect no leader", || {
            Ok(Election::leader(&self.address(), &Credentials::default()).ok().map(drop))
        })
    }

    /// The nodes, by place.
    pub fn nodes(&self) -> &[SocketAddr] {
        &self.clients_at
    }

    /// Where the table is.
    pub fn address(&self) -> EtcdAddress {
        address(&self.clients_at)
    }

    /// The same, for a client that asks the node of this place last: it may be out of reach.
    pub fn address_last(&self, place: usize) -> EtcdAddress {
        let mut nodes = self.clients_at.clone();
        nodes.rotate_left((place + 1) % NODES);
        address(&nodes)
    }

    /// The node of this place dies, and comes back.
    pub fn kill_node(&mut self, place: usize, dead: Duration) -> Result<(), Box<dyn Error>> {
        let place = place % NODES;
        self.nodes[place].kill()?;
        thread::sleep(dead);
        self.nodes[place] = self.start_node(place)?;
        Ok(())
    }
}

/// The table of the drive, for a process that reaches the nodes here.
pub fn address(nodes: &[SocketAddr]) -> EtcdAddress {
    let endpoints = nodes.iter().map(ToString::to_string).collect();
    EtcdAddress { endpoints, prefix: PREFIX.to_string(), is_secure: false }
}
