//! A cluster of etcd, of one node.
use crate::authority::Authority;
use crate::{parsed, ports};
use serde_json::Value as Json;
use std::fs;
use std::path::PathBuf;
use std::process::{Child, Command, Stdio};
use std::str::FromStr;
use std::sync::atomic::{AtomicU32, Ordering};
use std::thread;
use std::time::{Duration, Instant};

/// A node of etcd that runs until this is dropped.
#[derive(Debug)]
pub struct Cluster {
    node: Child,
    folder: PathBuf,
    endpoint: String,
    is_secure: bool,
    /// Where it reports by plain HTTP whether it is well.
    health: String,
}

static COUNT: AtomicU32 = AtomicU32::new(0);

impl Cluster {
    /// A new cluster, or none if etcd is not there.
    pub fn start() -> Option<Cluster> {
        Cluster::start_with(None, &[])
    }

    /// One with these settings, such as `--max-txn-ops 100`.
    pub fn start_with_settings(settings: &[&str]) -> Option<Cluster> {
        Cluster::start_with(None, settings)
    }

    /// One that speaks TLS, and takes only clients that have a certificate of this authority.
    pub fn start_secure(authority: &Authority) -> Option<Cluster> {
        Cluster::start_with(Some(authority), &[])
    }

    fn start_with(authority: Option<&Authority>, settings: &[&str]) -> Option<Cluster> {
        // Another process may take a free address before the node does.
        for _ in 0..5 {
            let mut cluster = Cluster::start_once(authority, settings)?;
            if cluster.answers() {
                return Some(cluster);
            }
        }
        panic!("etcd ends again and again")
    }

    fn start_once(authority: Option<&Authority>, settings: &[&str]) -> Option<Cluster> {
        let count = COUNT.fetch_add(1, Ordering::Relaxed);
        let name = format!("krl-etcd-{}-{count}", std::process::id());
        let folder = std::env::temp_dir().join(name);
        let free = || ports::free_address().unwrap().to_string();
        let (endpoint, peer) = (free(), format!("http://{}", free()));
        let scheme = if authority.is_some() { "https" } else { "http" };
        let (client, health) = (format!("{scheme}://{endpoint}"), free());
        let mut command = Command::new("etcd");
        command.args(["--name", "one", "--log-level", "error", "--data-dir"]).arg(&folder);
        command.args(["--listen-client-urls", &client, "--advertise-client-urls", &client]);
        command.args(["--listen-peer-urls", &peer, "--initial-advertise-peer-urls", &peer]);
        command.args(["--initial-cluster", &format!("one={peer}")]);
        command.args(["--listen-metrics-urls", &format!("http://{health}")]);
        if let Some(authority) = authority {
            let (certificate, key) = authority.node();
            command.arg("--cert-file").arg(certificate).arg("--key-file").arg(key);
            command.arg("--trusted-ca-file").arg(authority.certificate());
            command.arg("--client-cert-auth");
        }
        command.args(settings);
        let Ok(node) = command.stdout(Stdio::null()).stderr(Stdio::null()).spawn() else {
            eprintln!("NOT RUN: there is no etcd");
            return None;
        };
        let is_secure = authority.is_some();
        Some(Cluster { node, folder, endpoint, is_secure, health })
    }

    /// Waits until the node answers. Returns false if the node has ended.
    fn answers(&mut self) -> bool {
        let end = Instant::now() + Duration::from_secs(60);
        let health = format!("http://{}/health", self.health);
        while ureq::get(&health).call().is_err() {
            if self.node.try_wait().unwrap().is_some() {
                return false;
            }
            assert!(Instant::now() < end, "etcd does not answer");
            thread::sleep(Duration::from_millis(20));
        }
        true
    }

    /// The place of a table in the cluster.
    pub fn address<Address: FromStr>(&self, table: &str) -> Address {
        let scheme = if self.is_secure { "etcds" } else { "etcd" };
        parsed(&format!("{scheme}://{}/krl/{table}", self.endpoint))
    }

    /// Calls the node, which speaks no TLS.
    pub fn ask(&self, path: &str, body: &Json) -> Json {
        let request = ureq::post(&format!("http://{}/v3/{path}", self.endpoint));
        answer_to(request, body)
    }

    /// The same, as this user.
    pub fn ask_as(&self, user: &str, password: &str, path: &str, body: &Json) -> Json {
        let asked = serde_json::json!({"name": user, "password": password});
        let token = self.ask("auth/authenticate", &asked)["token"].as_str().unwrap().to_string();
        let request = ureq::post(&format!("http://{}/v3/{path}", self.endpoint));
        answer_to(request.set("Authorization", &token), body)
    }

    /// Stops the node where it is, and returns once each of its threads has stopped.
    pub fn freeze(&self) {
        self.signal("-STOP");
        let end = Instant::now() + Duration::from_secs(60);
        while !self.is_frozen() {
            assert!(Instant::now() < end, "etcd does not stop, or has ended");
            thread::sleep(Duration::from_millis(1));
        }
    }

    /// Lets the node continue.
    pub fn thaw(&self) {
        self.signal("-CONT");
    }

    fn signal(&self, signal: &str) {
        let status = Command::new("kill").args([signal, &self.node.id().to_string()]).status();
        assert!(status.unwrap().success());
    }

    /// On a busy machine threads go on for a while after the signal.
    fn is_frozen(&self) -> bool {
        let threads = fs::read_dir(format!("/proc/{}/task", self.node.id())).unwrap();
        threads.map(|thread| fs::read_to_string(thread.unwrap().path().join("stat"))).all(|stat| {
            // The state stands after the name, which is in parentheses.
            stat.is_ok_and(|stat| stat.rsplit_once(") ").unwrap().1.starts_with('T'))
        })
    }
}

impl Drop for Cluster {
    fn drop(&mut self) {
        // One that has ended already is gone.
        let _ = self.node.kill();
        let _ = self.node.wait();
        let _ = fs::remove_dir_all(&self.folder);
    }
}

fn answer_to(request: ureq::Request, body: &Json) -> Json {
    let answer = request.send_string(&body.to_string()).unwrap();
    serde_json::from_reader(answer.into_reader()).unwrap()
}
