//! What befalls the processes of the drive.
use super::readers::Language;
use super::{Drive, LEASE};
use crate::clients::send_signal;
use crate::lossy::Draws;
use std::collections::BTreeMap;
use std::error::Error;
use std::fmt;
use std::time::{Duration, Instant};

/// How long a cluster stays suspended, after all leases have ended.
const SUSPENDED: Duration = Duration::from_millis(500);

/// The processes of the extension, and those of sessions.
const WORKERS: &str = "backend_type = 'krl worker'";
const SESSIONS: &str = "backend_type = 'client backend' AND pid <> pg_backend_pid()";

type Done = Result<(), Box<dyn Error>>;

#[derive(Clone, Copy, Debug, PartialEq, Eq, PartialOrd, Ord)]
pub enum Fault {
    KillReader,
    StopReader,
    KillWorker,
    StopWorker,
    KillSession,
    EndSession,
    CrashDatabase,
    RestartDatabase,
    RenameDatabase,
    CloseRole,
    KillServer,
    StopServer,
    Suspend,
}

/// All of them.
const FAULTS: [Fault; 13] = [
    Fault::KillReader,
    Fault::StopReader,
    Fault::KillWorker,
    Fault::StopWorker,
    Fault::KillSession,
    Fault::EndSession,
    Fault::CrashDatabase,
    Fault::RestartDatabase,
    Fault::RenameDatabase,
    Fault::CloseRole,
    Fault::KillServer,
    Fault::StopServer,
    Fault::Suspend,
];

/// The faults in rounds, in each of which all come once in an order that is drawn, and how many
/// there were.
#[derive(Debug, Default)]
pub struct Faults {
    round: Vec<Fault>,
    counts: BTreeMap<Fault, u64>,
}

impl Faults {
    fn next(&mut self, draws: &mut Draws) -> Fault {
        if self.round.is_empty() {
            self.round = FAULTS.to_vec();
        }
        let fault = self.round.swap_remove(draws.place(self.round.len()));
        *self.counts.entry(fault).or_default() += 1;
        fault
    }
}

impl fmt::Display for Faults {
    fn fmt(&self, f: &mut fmt::Formatter<'_>) -> fmt::Result {
        let counts = self.counts.iter().map(|(fault, count)| format!("{fault:?} {count}"));
        f.write_str(&counts.collect::<Vec<_>>().join(", "))
    }
}

/// Processes that were stopped, and when they continue.
#[derive(Debug, Default)]
pub struct Stopped(Vec<(u32, Instant)>);

impl Stopped {
    fn stop(&mut self, process: u32, time: Duration) -> Done {
        send_signal(process, "-STOP")?;
        self.0.push((process, Instant::now() + time));
        Ok(())
    }

    /// Lets those continue whose time has come.
    pub fn resume(&mut self, now: Instant) {
        self.0.retain(|&(process, moment)| {
            if moment <= now {
                // One that was killed meanwhile needs nothing.
                let _ = send_signal(process, "-CONT");
            }
            now < moment
        });
    }

    /// Lets all continue.
    pub fn resume_all(&mut self) {
        if let Some(last) = self.0.iter().map(|(_, moment)| *moment).max() {
            self.resume(last);
        }
    }
}

impl Drive {
    /// Makes the next fault.
    pub fn befall(&mut self) -> Done {
        let fault = self.faults.next(&mut self.draws);
        match fault {
            Fault::KillReader => {
                let place = self.draws.place(self.readers.len());
                self.readers[place].kill()?;
                self.readers[place] = self.start_reader(Language::ALL[place])?;
            }
            Fault::StopReader => {
                let place = self.draws.place(self.readers.len());
                let reader = self.readers[place].id();
                self.stop(reader)?;
            }
            Fault::KillWorker => self.signal_one(WORKERS, "-KILL"),
            Fault::StopWorker => {
                if let Some(worker) = self.draw_process(WORKERS) {
                    self.stop(worker)?;
                }
            }
            Fault::KillSession => self.signal_one(SESSIONS, "-KILL"),
            Fault::EndSession => self.signal_one(SESSIONS, "-TERM"),
            Fault::CrashDatabase => {
                self.database.crash();
                self.database.start_again();
            }
            Fault::RestartDatabase => {
                self.database.stop();
                self.database.start_again();
            }
            Fault::RenameDatabase => self.rename_database()?,
            Fault::CloseRole => self.close_role()?,
            Fault::KillServer => {
                self.server.process.kill()?;
                self.server.start_again()?;
            }
            Fault::StopServer => {
                let server = self.server.process.id();
                self.stop(server)?;
            }
            Fault::Suspend => self.suspend()?,
        }
        Ok(())
    }

    /// Stops a process for longer than a lease, or for less.
    fn stop(&mut self, process: u32) -> Done {
        let time = LEASE / 10 * u32::try_from(2 + self.draws.below(20))?;
        // It may have ended meanwhile.
        let _ = self.stopped.stop(process, time);
        Ok(())
    }

    fn signal_one(&mut self, kind: &str, signal: &str) {
        if let Some(process) = self.draw_process(kind) {
            // It may have ended meanwhile.
            let _ = send_signal(process, signal);
        }
    }

    /// A process of PostgreSQL of this kind, if the database can be reached and there is one.
    fn draw_process(&mut self, kind: &str) -> Option<u32> {
        let asked = format!("SELECT pid FROM pg_stat_activity WHERE {kind}");
        let found = self.sql()?.try_query(&asked).ok()?;
        let processes: Vec<i32> = found.iter().map(|row| row.get(0)).collect();
        let place = self.draws.place(processes.len().max(1));
        u32::try_from(*processes.get(place)?).ok()
    }

    /// Suspends the cluster while krl's server is away, and lets it continue.
    fn suspend(&mut self) -> Done {
        self.server.process.kill()?;
        // It is not suspended if the database is away.
        let _ = self.sql().map(|sql| sql.try_run("SELECT krl.suspend(true)"));
        self.tend_for(SUSPENDED)?;
        self.server.start_again()?;
        self.repeat(&["SELECT krl.resume()"], Drive::sql)
    }
}
