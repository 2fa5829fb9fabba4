//! A client that wants a range whose holder was killed or stopped has it soon after the end of the
//! holder's lease.
use crate::Found;
use crate::applied::applied;
use crate::clients::{Process, this};
use crate::leases::{LEASE, sleep};
use crate::server::Server;
use krl::{Address, Client, Outcome, Value};
use krl_testing::ports::free_address;
use std::error::Error;
use std::io::{BufRead, BufReader, Write};
use std::path::Path;
use std::process::{ChildStdout, Stdio};
use std::time::{Duration, Instant};

/// What a holder prints: that it holds the range, and what its cache answers after a long stop.
const HOLDS: &str = "holds";
const ANSWERS: &str = "answers";
const REFUSES: &str = "refuses";

/// The other one has to have the range within this time: a lease, the drift and a nudge, and some
/// time more for a busy machine.
const BOUND: Duration = Duration::from_millis(LEASE + LEASE / 2);

/// A process that holds a range, and asks its cache as often as it can. It prints what the first
/// answer after a stop is that is longer than a lease.
pub fn hold(address: &str, folder: &Path) -> Found {
    let client = Client::join(address.parse::<Address>()?, 0, folder.join("client-0.lock"))?;
    hold_again(&client)?;
    let lease = Duration::from_millis(LEASE);
    // A call in which it was stopped may have answered before that. The next one may not.
    let (mut last, mut was_stopped) = (Instant::now(), false);
    loop {
        let begun = Instant::now();
        let found = client.cached(0..100)?;
        if was_stopped || begun - last > lease {
            println!("{}", if found.is_some() { ANSWERS } else { REFUSES });
            hold_again(&client)?;
        }
        let ended = Instant::now();
        was_stopped = ended - begun > lease && begun - last <= lease && !was_stopped;
        // No time is between the looks at the clock that is in neither difference.
        last = ended;
    }
}

fn hold_again(client: &Client) -> Result<(), Box<dyn Error>> {
    client.read(0..100)?;
    println!("{HOLDS}");
    Ok(std::io::stdout().flush()?)
}

/// The holder as its parent has it.
struct Holder {
    process: Process,
    prints: BufReader<ChildStdout>,
}

impl Holder {
    fn start(address: &Address, folder: &Path) -> Result<Holder, Box<dyn Error>> {
        let mut command = this(&["holder", &address.to_string()], folder)?;
        let mut process = Process::start(command.stdout(Stdio::piped()))?;
        let prints = BufReader::new(process.printed().ok_or("it prints nothing")?);
        let mut holder = Holder { process, prints };
        holder.expect(HOLDS)?;
        Ok(holder)
    }

    fn line(&mut self) -> Result<String, Box<dyn Error>> {
        let mut line = String::new();
        self.prints.read_line(&mut line)?;
        Ok(line.trim().to_string())
    }

    fn expect(&mut self, what: &str) -> Result<(), Box<dyn Error>> {
        let line = self.line()?;
        if line == what { Ok(()) } else { Err(format!("the holder prints {line:?}").into()) }
    }
}

/// Stops and kills holders, and measures how long the other one waits.
pub fn run(folder: &Path, rounds: u64) -> Found {
    let at = free_address()?;
    let _server = Server::start(folder, &at.to_string(), "sqlite", LEASE)?;
    let address = Address::Tcp(at);
    let other = Client::join(&address, 1, folder.join("client-1.lock"))?;
    applied(other.insert(10, Value::from(0))?)?;
    let (mut stopped, mut killed, mut wrong) = (Vec::new(), Vec::new(), 0);
    for round in 0..rounds {
        let mut holder = Holder::start(&address, folder)?;
        sleep(200 + 61 * (round % 7));
        holder.process.signal("-STOP")?;
        let waited = put(&other, round)?;
        stopped.push(waited);
        // It is stopped for longer than a lease, whatever the other one had to wait for.
        sleep(LEASE + 100);
        holder.process.signal("-CONT")?;
        wrong += u64::from(holder.line()? != REFUSES);
        holder.expect(HOLDS)?;
        sleep(100 + 61 * (round % 7));
        holder.process.kill()?;
        killed.push(put(&other, round)?);
    }
    let late = killed.iter().filter(|waited| **waited > BOUND).count();
    println!(
        "{rounds} holders with leases of {LEASE} ms, stopped: the other waited {}; {wrong} answered \
         after their leases; killed: the other waited {}; {late} times longer than {BOUND:?}",
        spread(&mut stopped),
        spread(&mut killed)
    );
    // A busy machine delays some.
    if wrong == 0 && 2 * late > killed.len() {
        return Err("a dead client's range is not taken in time".into());
    }
    Ok(wrong == 0)
}

/// How long a put of the row takes that the holder reads.
fn put(client: &Client, value: u64) -> Result<Duration, Box<dyn Error>> {
    let begun = Instant::now();
    match client.put(10, Value::from(value))? {
        Outcome::Applied => Ok(begun.elapsed()),
        outcome => Err(format!("the put of the other: {outcome}").into()),
    }
}

/// The least, the middle and the greatest of the times.
fn spread(times: &mut [Duration]) -> String {
    times.sort_unstable();
    let all = [times.first(), times.get(times.len() / 2), times.last()];
    let all: Vec<_> = all.iter().flatten().map(|time| format!("{time:.0?}")).collect();
    all.join(", ")
}
