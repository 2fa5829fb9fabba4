//! Three machines on one: network namespaces of Linux, which a bridge joins. This process is on the
//! bridge, as the clients are.
use std::error::Error;
use std::fs::File;
use std::net::{IpAddr, Ipv4Addr};
use std::os::fd::AsRawFd;
use std::path::{Path, PathBuf};
use std::process::{Command, Stdio};

/// Where this process is on the bridge.
const BRIDGE: u8 = 254;

/// The machines. They are gone with this; what runs there has to end before.
#[derive(Debug)]
pub struct Machines {
    count: usize,
    process: u32,
}

impl Machines {
    /// # Errors
    ///
    /// If this system makes no network namespaces, or not for this user.
    pub fn make(count: usize) -> Result<Machines, Box<dyn Error>> {
        let machines = Machines { count, process: std::process::id() };
        let bridge = machines.bridge();
        ip(&["link", "add", &bridge, "type", "bridge"])?;
        ip(&["addr", "add", &format!("{}/24", machines.host(BRIDGE)), "dev", &bridge])?;
        ip(&["link", "set", &bridge, "up"])?;
        (0..count).try_for_each(|place| machines.make_one(place))?;
        Ok(machines)
    }

    fn make_one(&self, place: usize) -> Result<(), Box<dyn Error>> {
        let (name, cable) = (self.name(place), self.cable(place));
        ip(&["netns", "add", &name])?;
        let far_end = ["peer", "name", "eth0", "netns", &name];
        ip(&[&["link", "add", &cable, "type", "veth"], &far_end[..]].concat())?;
        ip(&["link", "set", &cable, "master", &self.bridge(), "up"])?;
        let address = format!("{}/24", self.address(place));
        ip(&["-n", &name, "addr", "add", &address, "dev", "eth0"])?;
        ip(&["-n", &name, "link", "set", "eth0", "up"])?;
        ip(&["-n", &name, "link", "set", "lo", "up"])
    }

    /// Another drive that runs just now has other names and addresses.
    fn bridge(&self) -> String {
        format!("krl{}b", self.process)
    }

    fn name(&self, place: usize) -> String {
        format!("krl{}-{place}", self.process)
    }

    fn cable(&self, place: usize) -> String {
        format!("krl{}v{place}", self.process)
    }

    fn host(&self, number: u8) -> IpAddr {
        let [.., high, low] = self.process.to_be_bytes();
        Ipv4Addr::new(10, 64 + high % 64, low, number).into()
    }

    /// The address of a machine.
    pub fn address(&self, place: usize) -> IpAddr {
        self.host(u8::try_from(1 + place).unwrap_or(BRIDGE - 1))
    }

    /// A program that runs on a machine.
    pub fn command(&self, place: usize, program: &Path) -> Command {
        let mut command = Command::new("ip");
        command.args(["netns", "exec", &self.name(place)]).arg(program);
        command
    }

    /// The file that stands for a machine's network: see `enter`.
    pub fn network(&self, place: usize) -> PathBuf {
        Path::new("/run/netns").join(self.name(place))
    }

    /// The machine and the others cannot reach each other. Clients reach all of them.
    pub fn cut(&self, place: usize) -> Result<(), Box<dyn Error>> {
        self.routes(place, "add")
    }

    /// The machine reaches nobody, and nobody reaches it.
    pub fn isolate(&self, place: usize) -> Result<(), Box<dyn Error>> {
        ip(&["link", "set", &self.cable(place), "down"])
    }

    /// What was cut is joined again.
    pub fn heal_cut(&self, place: usize) -> Result<(), Box<dyn Error>> {
        self.routes(place, "del")
    }

    /// What was isolated is joined again.
    pub fn heal_isolated(&self, place: usize) -> Result<(), Box<dyn Error>> {
        ip(&["link", "set", &self.cable(place), "up"])
    }

    /// What the other machines send to this one gets lost, or no longer does: then none of their
    /// connections continues.
    fn routes(&self, place: usize, action: &str) -> Result<(), Box<dyn Error>> {
        let lost = self.address(place).to_string();
        let others = (0..self.count).filter(|other| *other != place);
        for other in others {
            ip(&["-n", &self.name(other), "route", action, "blackhole", &lost])?;
        }
        Ok(())
    }
}

impl Drop for Machines {
    fn drop(&mut self) {
        // What was not made can't be taken away.
        for place in 0..self.count {
            let _ = ip(&["link", "del", &self.cable(place)]);
            let _ = ip(&["netns", "del", &self.name(place)]);
        }
        let _ = ip(&["link", "del", &self.bridge()]);
    }
}

fn ip(words: &[&str]) -> Result<(), Box<dyn Error>> {
    let output = Command::new("ip").args(words).stdin(Stdio::null()).output()?;
    if output.status.success() {
        return Ok(());
    }
    let why = String::from_utf8_lossy(&output.stderr).trim().to_string();
    Err(format!("ip {}: {why}", words.join(" ")).into())
}

/// From now on this thread's sockets are on the machine of this network.
#[cfg(target_os = "linux")]
pub fn enter(network: &Path) -> std::io::Result<()> {
    const NETWORK_ALONE: i32 = 0x4000_0000;
    unsafe extern "C" {
        fn setns(file: i32, kind: i32) -> i32;
    }
    let file = File::open(network)?;
    // SAFETY: the file is open, and the call touches no memory of this process.
    let status = unsafe { setns(file.as_raw_fd(), NETWORK_ALONE) };
    if status == 0 { Ok(()) } else { Err(std::io::Error::last_os_error()) }
}

/// No other system has such networks, so none is ever entered.
#[cfg(not(target_os = "linux"))]
pub fn enter(_network: &Path) -> std::io::Result<()> {
    Err(std::io::ErrorKind::Unsupported.into())
}
