//! The program in a process of its own.
#![allow(dead_code, reason = "each test takes what it needs")]
use krl::{Address, Client, Outcome};
use serde_json::Value;
use std::io::{BufRead, BufReader, Read, Write};
use std::net::TcpStream;
use std::os::unix::net::UnixDatagram;
use std::path::{Path, PathBuf};
use std::process::{Child, Command, ExitStatus, Output, Stdio};
use std::thread::{self, JoinHandle};
use std::time::{Duration, Instant};

/// The program, with none of its variables in the environment.
pub fn program() -> Command {
    without_settings(Command::new(env!("CARGO_BIN_EXE_krl-server")))
}

/// The program under a watchdog of this length, as a service manager starts it.
pub fn program_under_watchdog(length: Duration) -> Command {
    let mut command = without_settings(Command::new("sh"));
    let exec = "WATCHDOG_PID=$$ exec \"$0\" \"$@\"";
    command.args(["-c", exec, env!("CARGO_BIN_EXE_krl-server")]);
    command.env("WATCHDOG_USEC", length.as_micros().to_string());
    command
}

fn without_settings(mut command: Command) -> Command {
    for (name, _) in std::env::vars().filter(|(name, _)| name.starts_with("KRL_")) {
        command.env_remove(name);
    }
    command.env_remove("NOTIFY_SOCKET");
    command
}

/// Runs the program with these words until it ends.
pub fn run(words: &[&str]) -> Output {
    program().args(words).output().unwrap()
}

/// What a server leaves that does not start. One that serves is killed, and so is one that has not
/// ended after a minute.
pub fn output_unless_it_serves(command: &mut Command) -> Output {
    let log = tempfile::NamedTempFile::new().unwrap();
    let mut process = command.stdout(Stdio::piped()).stderr(log.reopen().unwrap()).spawn().unwrap();
    let read = || std::fs::read(log.path()).unwrap();
    let end = Instant::now() + Duration::from_secs(60);
    while process.try_wait().unwrap().is_none()
        && Instant::now() < end
        && !String::from_utf8(read()).unwrap().contains(" ready ")
    {
        thread::sleep(Duration::from_millis(10));
    }
    // One that has ended needs no end.
    let _ = process.kill();
    Output { stderr: read(), ..process.wait_with_output().unwrap() }
}

/// The library that kills a process before one of its changes of a file.
pub fn killer(folder: &Path) -> PathBuf {
    let library = folder.join("kill.so");
    let source = Path::new(env!("CARGO_MANIFEST_DIR")).join("tests/programs/kill_before_change.c");
    let mut compiler = Command::new("cc");
    compiler.args(["-shared", "-fPIC", "-Wall", "-Wextra", "-Werror", "-o"]);
    assert!(compiler.arg(&library).arg(source).status().unwrap().success());
    library
}

pub fn errors(output: &Output) -> String {
    String::from_utf8(output.stderr.clone()).unwrap()
}

pub fn text(output: &Output) -> String {
    String::from_utf8(output.stdout.clone()).unwrap()
}

/// A server. It is killed when this value is gone.
pub struct Serving {
    pub process: Child,
    pub address: Address,
    pub status: String,
    log: Option<JoinHandle<Vec<Value>>>,
}

/// What a server has left when it has ended.
pub struct Ended {
    pub status: ExitStatus,
    pub took: Duration,
    pub log: Vec<Value>,
}

impl Serving {
    pub fn start(store: &Path) -> Serving {
        Serving::start_by(program().arg("serve").arg("--store").arg(store))
    }

    /// Starts a server at this address, and waits until it serves.
    pub fn start_at(store: &Path, listen: &Address) -> Serving {
        let mut command = program();
        command.arg("serve").arg("--store").arg(store).args(["--listen", &listen.to_string()]);
        Serving::start_by(&mut command)
    }

    /// Starts a server, at free ports by default, and waits until it serves.
    pub fn start_by(command: &mut Command) -> Serving {
        Serving::start_until(command, "ready")
    }

    /// Starts a server, at free ports by default, and waits until it reports this. It makes a store
    /// if there is none.
    pub fn start_until(command: &mut Command, expected: &str) -> Serving {
        for flag in ["--listen", "--status"] {
            if !command.get_args().any(|word| word == flag) {
                command.args([flag, "127.0.0.1:0"]);
            }
        }
        if !command.get_args().any(|word| word.to_string_lossy().starts_with("--create")) {
            command.arg("--create");
        }
        let words = ["--log-format", "json"];
        let mut process = command.args(words).stderr(Stdio::piped()).spawn().unwrap();
        let mut lines = BufReader::new(process.stderr.take().unwrap()).lines();
        let mut status = String::new();
        let address = loop {
            let line = lines.next().expect("the server ended").unwrap();
            let event: Value = serde_json::from_str(&line).expect(&line);
            // One that stands by listens nowhere, and reports where another one serves.
            let address = event["address"].as_str().or(event["leader"].as_str());
            match event["message"].as_str() {
                Some("status port") => status = address.unwrap_or_default().to_string(),
                Some(message) if message == expected => break address.unwrap().parse().unwrap(),
                _ => {}
            }
        };
        let log = thread::spawn(move || {
            lines.map(|line| serde_json::from_str(&line.unwrap()).unwrap()).collect()
        });
        Serving { process, address, status, log: Some(log) }
    }

    pub fn join(&self, folder: &Path, number: u8) -> Client {
        join(&self.address, folder, number)
    }

    pub fn signal(&self, signals: &[&str]) {
        for signal in signals {
            let words = [format!("-{signal}"), self.process.id().to_string()];
            assert!(Command::new("kill").args(words).status().unwrap().success());
        }
    }

    /// Kills the server while a client of this number is there, and starts it again over its store:
    /// it waits for that client.
    pub fn killed_beside(self, number: u8, folder: &Path, store: &Path) -> Serving {
        let client = self.join(folder, number);
        assert_eq!(client.insert(7, krl::Value::from(7)), Ok(Outcome::Applied));
        self.signal(&["KILL"]);
        self.ended();
        // It can't send Bye, as there is no server.
        drop(client);
        Serving::start(store)
    }

    /// Waits until the server has ended.
    pub fn ended(mut self) -> Ended {
        let began = Instant::now();
        let status = self.process.wait().unwrap();
        let took = began.elapsed();
        Ended { status, took, log: self.log.take().unwrap().join().unwrap() }
    }

    /// The status and the body of a page.
    pub fn get(&self, path: &str) -> (u16, String) {
        self.ask(&format!("GET {path} HTTP/1.1\r\nHost: localhost\r\n\r\n"))
    }

    pub fn ask(&self, request: &str) -> (u16, String) {
        let mut stream = TcpStream::connect(&self.status).unwrap();
        stream.set_read_timeout(Some(Duration::from_secs(10))).unwrap();
        stream.write_all(request.as_bytes()).unwrap();
        let mut reply = String::new();
        stream.read_to_string(&mut reply).unwrap();
        let (head, body) = reply.split_once("\r\n\r\n").expect(&reply);
        let status = head.split(' ').nth(1).and_then(|it| it.parse().ok()).expect(head);
        (status, body.to_string())
    }

    /// The sample of this name, with its labels.
    pub fn sample(&self, name: &str) -> f64 {
        let (_, page) = self.get("/metrics");
        let value = page.lines().find_map(|line| line.strip_prefix(name)?.strip_prefix(' '));
        value.expect(&page).parse().unwrap()
    }
}

/// A service manager, which receives the state of a service.
pub struct ServiceManager {
    socket: UnixDatagram,
    path: PathBuf,
}

impl ServiceManager {
    pub fn new(folder: &Path) -> ServiceManager {
        let path = folder.join("notify");
        let socket = UnixDatagram::bind(&path).unwrap();
        socket.set_read_timeout(Some(Duration::from_secs(30))).unwrap();
        ServiceManager { socket, path }
    }

    /// Has the service of this command send its state here.
    pub fn runs<'c>(&self, command: &'c mut Command) -> &'c mut Command {
        command.env("NOTIFY_SOCKET", &self.path)
    }

    /// What the service reports next, as lines.
    pub fn next(&self) -> Vec<String> {
        let mut text = [0; 1000];
        let length = self.socket.recv(&mut text).unwrap();
        std::str::from_utf8(&text[..length]).unwrap().lines().map(Into::into).collect()
    }
}

impl Drop for Serving {
    fn drop(&mut self) {
        // One that has ended needs no end.
        let _ = self.process.kill();
        let _ = self.process.wait();
    }
}

pub fn join(address: &Address, folder: &Path, number: u8) -> Client {
    Client::join(address, number, lock_file(folder, number)).unwrap()
}

pub fn lock_file(folder: &Path, number: u8) -> PathBuf {
    folder.join(format!("client-{number}.lock"))
}

/// Waits until it is true.
pub fn until(what: &str, mut is_so: impl FnMut() -> bool) {
    let end = Instant::now() + Duration::from_secs(30);
    while !is_so() {
        assert!(Instant::now() < end, "not within thirty seconds: {what}");
        thread::sleep(Duration::from_millis(10));
    }
}
