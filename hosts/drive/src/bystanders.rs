//! Clients of a table whose shards change, each a process of its own next to those that
//! [`crate::moves`] judges: one that follows the map and is killed now and then, and one that does
//! not follow the map, and is told by its server.
use crate::Found;
use crate::clients::Process;
use crate::shards::{BOTH, Moments, Seen};
use crate::waiting::until;
use krl::{Client, ErrorKind, Reader, ShardMap};
use std::error::Error;
use std::io::{BufRead, BufReader};
use std::path::Path;
use std::process::{Command, ExitStatus, Stdio};
use std::thread;
use std::time::Duration;

type Done<T = ()> = Result<T, Box<dyn Error>>;

/// Its number is of no client that the drive has itself.
pub const FOLLOWER: u8 = 3;
pub const STAYING: u8 = 4;

/// A call that waits for longer has failed.
const TIMEOUT: Duration = Duration::from_secs(90);

/// How long it has the rows pinned, and how long it rests then.
const PINNED: Duration = Duration::from_millis(2);
const REST: Duration = Duration::from_millis(20);

/// What it prints when it has joined.
const JOINED: &str = "joined";

/// A client that is a process.
pub struct Bystander(Process);

impl Bystander {
    /// Starts the client of this number, and waits until it has joined.
    pub fn start(folder: &Path, number: u8) -> Done<Bystander> {
        let mut command = Command::new(std::env::current_exe()?);
        command.arg("bystander").arg(number.to_string()).arg(folder).stdout(Stdio::piped());
        let mut process = Process::start(&mut command)?;
        let printed = process.printed().ok_or("it prints nothing")?;
        let mut line = String::new();
        BufReader::new(printed).read_line(&mut line)?;
        if line.trim_end() == JOINED {
            return Ok(Bystander(process));
        }
        Err(format!("client {number} has not joined").into())
    }

    /// Kills it. It may not have ended by itself.
    pub fn kill(mut self) -> Done {
        match self.0.ended()? {
            Some(status) => {
                Err(format!("a client that follows the map has ended: {status}").into())
            }
            None => Ok(self.0.kill()?),
        }
    }

    /// How it has ended, if it does so in time.
    pub fn ended(mut self) -> Done<ExitStatus> {
        let late = "a client that does not follow the map has not ended";
        until(TIMEOUT, late, || Ok(self.0.ended()?))
    }
}

/// Reads the rows again and again. One that follows the map does so until it is killed; the other one
/// until a server reports that its shard is another one.
pub fn run(number: u8, folder: &Path) -> Found {
    let file = folder.join("map.toml");
    let map = ShardMap::from_file(&file).map_err(|error| error.to_string())?;
    let client = Client::builder(&map, number, folder).timeout(TIMEOUT).join()?;
    let mut reader = Reader::new(&map).with_timeout(TIMEOUT);
    if number == FOLLOWER {
        client.follow(&file)?;
        reader.follow(&file)?;
    }
    println!("{JOINED}");
    let mut seen = Seen::default();
    loop {
        match read(&client, &mut reader, number, &mut seen) {
            Ok(true) => thread::sleep(REST),
            Ok(false) => return Ok(false),
            Err(krl::Error { kind: ErrorKind::OtherShard(_), .. }) if number == STAYING => {
                return Ok(true);
            }
            Err(refused) => return Err(refused.into()),
        }
    }
}

/// Reads the rows and has them pinned for a while; and one that follows the map reads them without
/// keeping them, too. Returns whether they may be so.
fn read(
    client: &Client,
    reader: &mut Reader,
    number: u8,
    seen: &mut Seen,
) -> Result<bool, krl::Error> {
    let (rows, pin) = client.pin_for_read(BOTH)?;
    thread::sleep(PINNED);
    drop(pin);
    let mut are_right = seen.note(&rows, Moments::One);
    if number == FOLLOWER {
        are_right &= seen.note(&client.read_once(BOTH)?, Moments::EachRow);
        are_right &= seen.note(&reader.read(BOTH)?, Moments::EachRow);
    }
    Ok(are_right)
}
