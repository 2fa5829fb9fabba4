//! The clients of a drive: four processes that read and write, and are killed in turn. Next to them
//! there may be an asker, which reads without being a client.
use crate::Found;
use crate::history::{History, Tally};
use crate::log::{Note, notes};
use crate::nodes::{ASKER, READERS, WRITERS, end_file};
use crate::waiting::until;
use krl::store::Snapshot;
use std::collections::BTreeMap;
use std::error::Error;
use std::path::{Path, PathBuf};
use std::process::{Child, ChildStdout, Command, ExitStatus};
use std::thread;
use std::time::{Duration, Instant};

/// The clients die in this order.
const DYING: [u8; 4] = [1, 0, 3, 2];

/// How long the processes of a drive may take to start or to end.
pub const ENDING: Duration = Duration::from_secs(60);

/// What a drive has to come to at least, for each round: a run that does nothing shows nothing.
const LEAST_ANSWERED: u64 = 5;
const LEAST_READS: u64 = 20;
const LEAST_ASKED: u64 = 5;

/// A busy machine may take this long for what a round has to come to.
const ROUND: Duration = Duration::from_secs(10);

/// Clients that have taken longer in this many rounds are no longer waited for: next to a wrong
/// server some may come to nothing.
const MAX_IN_VAIN: u32 = 2;

/// How much the clients have noted.
#[derive(Clone, Copy, Debug, Default)]
struct Noted {
    answered: u64,
    reads: u64,
}

impl Noted {
    /// Whether what was noted since then is as much as a round has to come to.
    fn is_a_round_since(self, before: Noted) -> bool {
        self.answered >= before.answered + LEAST_ANSWERED
            && self.reads >= before.reads + LEAST_READS
    }

    fn with(mut self, note: &Note) -> Noted {
        match note {
            Note::Begun { .. } => {}
            Note::Answered { .. } => self.answered += 1,
            Note::Read { .. } => self.reads += 1,
        }
        self
    }
}

/// A process of the drive. It dies with the drive, even if that fails.
pub struct Process(Child);

impl Process {
    pub fn start(command: &mut Command) -> std::io::Result<Process> {
        command.spawn().map(Process)
    }

    /// Kills it by SIGKILL, which no process can catch.
    pub fn kill(&mut self) -> std::io::Result<()> {
        self.0.kill()?;
        self.0.wait().map(drop)
    }

    /// Sends it a signal, such as `-STOP`.
    pub fn signal(&self, signal: &str) -> Result<(), Box<dyn Error>> {
        send_signal(self.id(), signal)
    }

    /// Its number.
    pub fn id(&self) -> u32 {
        self.0.id()
    }

    /// What it prints, if that was asked for as it was started.
    pub fn printed(&mut self) -> Option<ChildStdout> {
        self.0.stdout.take()
    }

    /// How it has ended, if it has.
    pub fn ended(&mut self) -> std::io::Result<Option<ExitStatus>> {
        self.0.try_wait()
    }
}

/// Sends a signal, such as `-STOP`, to the process of this number.
pub fn send_signal(process: u32, signal: &str) -> Result<(), Box<dyn Error>> {
    let output = Command::new("kill").args([signal, &process.to_string()]).output()?;
    if output.status.success() {
        return Ok(());
    }
    Err(String::from_utf8_lossy(&output.stderr).trim().to_string().into())
}

impl Drop for Process {
    fn drop(&mut self) {
        // One that has ended needs no end.
        let _ = self.kill();
    }
}

/// The clients that are other programs' than this one: their numbers, and the program of each. It
/// does what `nodes` does.
pub type Others = BTreeMap<u8, PathBuf>;

/// The clients of a drive.
pub struct Clients {
    folder: PathBuf,
    servers: String,
    others: Others,
    running: Vec<(u8, Process)>,
    killed: usize,
    /// How much they had noted as the last round ended.
    noted: Noted,
    /// In how many rounds they came to too little.
    in_vain: u32,
}

impl Clients {
    /// Starts them, as clients of these servers.
    pub fn start(folder: &Path, servers: String) -> std::io::Result<Clients> {
        Clients::start_beside(Others::new(), folder, servers)
    }

    /// Starts them, some of them by other programs.
    pub fn start_beside(
        others: Others,
        folder: &Path,
        servers: String,
    ) -> std::io::Result<Clients> {
        let folder = folder.to_path_buf();
        let (running, noted) = (Vec::new(), Noted::default());
        let mut clients =
            Clients { folder, servers, others, running, killed: 0, noted, in_vain: 0 };
        for number in READERS.into_iter().chain(WRITERS) {
            clients.start_one(number)?;
        }
        Ok(clients)
    }

    /// Starts an asker.
    pub fn start_asker(&mut self) -> std::io::Result<()> {
        self.start_one(ASKER)
    }

    /// Starts the client of this number.
    pub fn start_one(&mut self, number: u8) -> std::io::Result<()> {
        let role = match number {
            ASKER => "asker",
            number if WRITERS.contains(&number) => "writer",
            _ => "reader",
        };
        let words = [role, &number.to_string(), &self.servers];
        let program = match self.others.get(&number) {
            Some(other) => other.clone(),
            None => std::env::current_exe()?,
        };
        let client = Process::start(&mut command(program, &words, &self.folder))?;
        self.running.push((number, client));
        Ok(())
    }

    /// The fewest lines that a client of another program has noted, if there are such clients.
    pub fn least_noted_by_others(&self) -> std::io::Result<Option<usize>> {
        let noted = |number: &u8| notes(&self.folder, *number).map(|notes| notes.len());
        let noted: Vec<usize> = self.others.keys().map(noted).collect::<std::io::Result<_>>()?;
        Ok(noted.into_iter().min())
    }

    /// Waits until each client of another program has begun: it may take long to start.
    pub fn wait_for_others(&self) -> Result<(), Box<dyn Error>> {
        until(ENDING, "another program notes nothing", || {
            Ok((self.least_noted_by_others()? != Some(0)).then_some(()))
        })
    }

    /// Waits until the clients have noted what a round has to come to, since this was called last.
    /// Clients that take too long for it are left to [`judge`].
    pub fn wait_for_a_round(&mut self) -> std::io::Result<()> {
        let (end, before) = (Instant::now() + ROUND, self.noted);
        while self.in_vain < MAX_IN_VAIN {
            self.noted = self.count_notes()?;
            if self.noted.is_a_round_since(before) {
                break;
            }
            if Instant::now() >= end {
                self.in_vain += 1;
                break;
            }
            thread::sleep(Duration::from_millis(20));
        }
        Ok(())
    }

    /// How much they have noted.
    fn count_notes(&self) -> std::io::Result<Noted> {
        let mut noted = Noted::default();
        for number in READERS.into_iter().chain(WRITERS) {
            noted = notes(&self.folder, number)?.iter().fold(noted, Noted::with);
        }
        Ok(noted)
    }

    /// The next client dies with its cache, its locks and a write on its way; another process takes
    /// its number.
    pub fn kill_next(&mut self) -> Result<(), Box<dyn Error>> {
        let number = DYING[self.killed % DYING.len()];
        self.kill(number)?;
        Ok(self.start_one(number)?)
    }

    /// The client of this number dies.
    pub fn kill(&mut self, number: u8) -> Result<(), Box<dyn Error>> {
        let place = self.running.iter().position(|(of, _)| *of == number);
        self.running.swap_remove(place.ok_or("no such client")?).1.kill()?;
        self.killed += 1;
        Ok(())
    }

    /// Sends the client of this number a signal, such as `-STOP`.
    pub fn signal(&self, number: u8, signal: &str) -> Result<(), Box<dyn Error>> {
        let found = self.running.iter().find(|(of, _)| *of == number);
        found.ok_or("no such client")?.1.signal(signal)
    }

    /// Lets the clients end. Returns how many hung or failed.
    fn end(&mut self) -> Result<u64, Box<dyn Error>> {
        std::fs::write(end_file(&self.folder), "")?;
        let (end, mut hung) = (Instant::now() + ENDING, 0);
        for (number, client) in &mut self.running {
            if let Some(how) = wait_for(client, end)? {
                eprintln!("HUNG: client {number} {how}");
                hung += 1;
            }
        }
        Ok(hung)
    }

    /// Lets the clients end, compares what they have read with what they wrote and with what the store
    /// keeps, which `load` returns, and prints what was done and what that comes to. `down` has the times
    /// in which no server ran, if they are known. Returns whether all is well in a drive of this many
    /// rounds.
    pub fn judge(
        &mut self,
        rounds: u64,
        down: Option<&[(u64, u64)]>,
        load: impl FnOnce() -> Result<Snapshot, Box<dyn Error>>,
        done: &str,
    ) -> Found {
        let hung = self.end()?;
        let tally = self.compare(&load()?, down)?;
        println!("{done} and {} kills of clients: {tally}, {hung} processes hung", self.killed);
        judge(&tally, rounds, hung)
    }

    /// Compares what the clients read with what they wrote, and with what the store has. `down` has
    /// the times in which no server ran.
    fn compare(
        &self,
        snapshot: &Snapshot,
        down: Option<&[(u64, u64)]>,
    ) -> Result<Tally, Box<dyn Error>> {
        let mut history = History::default();
        for number in WRITERS {
            history.add(&notes(&self.folder, number)?);
        }
        let (answered, while_down) = (history.answered(), down.map(|_| 0));
        let mut tally = Tally { while_down, answered, ..Tally::default() };
        for number in READERS.into_iter().chain(WRITERS) {
            history.compare(&notes(&self.folder, number)?, down, &mut tally);
        }
        if self.running.iter().any(|(number, _)| *number == ASKER) {
            let before = tally.reads;
            history.compare(&notes(&self.folder, ASKER)?, down, &mut tally);
            tally.asked = Some(tally.reads - before);
        }
        history.compare_store(snapshot, &mut tally);
        Ok(tally)
    }
}

/// Waits for the end of a client, and returns what is wrong with it.
pub fn wait_for(client: &mut Process, end: Instant) -> Result<Option<String>, Box<dyn Error>> {
    while Instant::now() < end {
        if let Some(status) = client.ended()? {
            return Ok((!status.success()).then(|| format!("ended with {status}")));
        }
        thread::sleep(Duration::from_millis(5));
    }
    client.kill()?;
    Ok(Some("does not end".to_string()))
}

/// This program with these words, and the folder after them.
pub fn this(words: &[&str], folder: &Path) -> std::io::Result<Command> {
    Ok(command(std::env::current_exe()?, words, folder))
}

/// A program with these words, and the folder after them.
pub fn command(program: PathBuf, words: &[&str], folder: &Path) -> Command {
    let mut command = Command::new(program);
    command.args(words).arg(folder);
    command
}

/// Whether all is well in a drive of this many rounds. One that did too little, or some of whose
/// processes hung, shows nothing.
fn judge(tally: &Tally, rounds: u64, hung: u64) -> Found {
    let did_enough = tally.answered >= LEAST_ANSWERED * rounds
        && tally.reads >= LEAST_READS * rounds
        && tally.asked.is_none_or(|asked| asked >= LEAST_ASKED * rounds)
        && tally.while_down.is_none_or(|points| points > 0);
    match tally.wrong {
        0 if !did_enough => Err("too little was done to judge anything".into()),
        0 if hung > 0 => Err("some process did not end".into()),
        wrong => Ok(wrong == 0),
    }
}
