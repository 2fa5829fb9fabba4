//! The drive over several servers: they stand by over a cluster of etcd, and the one that serves is
//! killed, frozen or cut off, calls of the store are delayed, or a node of etcd is killed, while
//! four clients read and write.
//!
//! A server that was frozen or cut off continues after another one that serves. If the servers are
//! *heedless*, no lease and no timeout ends them: then only the store distinguishes them.
use crate::Found;
use crate::clients::{Clients, ENDING};
use crate::fault::Fault;
use crate::log::{Note, notes, now};
use crate::machines::Machines;
use crate::nodes::WRITERS;
use crate::site::Site;
use crate::stand_bys::{ClientLeases, LEASE, StandBys};
use crate::waiting::until;
use krl::store::Store;
use krl_etcd::{Credentials, EtcdStore};
use krl_testing::etcd_relay::Holds;
use std::collections::BTreeMap;
use std::error::Error;
use std::path::{Path, PathBuf};
use std::rc::Rc;
use std::thread;
use std::time::{Duration, Instant};

/// How long the clients continue after a fault.
const PAUSE_AFTER_FAULT: Duration = Duration::from_secs(1);

/// How often the drive looks whether a write was answered.
const LOOK_AT_ANSWERS: Duration = Duration::from_millis(50);

/// How long others write before a frozen server wakes up.
const FROZEN: Duration = Duration::from_millis(700);

/// How long a server that woke up runs next to the one that serves, before that dies. What the old
/// one wrote meanwhile is what the next one loads.
const BESIDE: Duration = Duration::from_millis(25);

/// A server asks the next node after a second: by then it has asked again, and continued.
const ASKED_AGAIN: Duration = Duration::from_millis(1600);

/// How long the drive waits for something that a server asks all the time.
const ASKED: Duration = Duration::from_secs(10);

/// A fault, when it began, and when another server served.
struct NotedFault {
    fault: Fault,
    from: u64,
    to: u64,
}

type Done = Result<(), Box<dyn Error>>;

struct Drive {
    folder: PathBuf,
    servers: StandBys,
    noted: Vec<NotedFault>,
}

/// Drives servers of this program for this many rounds. `faults` names the faults that take turns.
pub fn run(
    folder: &Path,
    rounds: usize,
    (program, leases): (&Path, ClientLeases),
    faults: &str,
    site: Site,
) -> Found {
    let faults = faults.split(',').map(str::parse).collect::<Result<Vec<Fault>, _>>()?;
    std::fs::create_dir_all(folder)?;
    let servers = StandBys::start(folder, (program, leases), site)?;
    let mut clients = Clients::start(folder, servers.addresses())?;
    clients.start_asker()?;
    let mut drive = Drive { folder: folder.to_path_buf(), servers, noted: Vec::new() };
    let rounds_of_faults = faults.into_iter().cycle().take(rounds);
    // If no server serves any more, what was read until then is compared all the same.
    let failed = drive.break_all(rounds_of_faults, &mut clients).err();
    let down: Vec<(u64, u64)> = drive.noted.iter().map(|noted| (noted.from, noted.to)).collect();
    let done = format!("{} faults of servers {}", drive.noted.len(), drive.servers.site);
    let address = drive.servers.cluster.address();
    let load = || {
        report(folder, &drive.noted)?;
        Ok(EtcdStore::open(&address, &Credentials::default())?.load()?)
    };
    match (clients.judge(rounds as u64, Some(&down), load, &done), failed) {
        (Ok(true) | Err(_), Some(error)) => Err(error),
        (found, _) => found,
    }
}

impl Drive {
    /// Lets the faults happen, and kills a client in a round of three.
    fn break_all(&mut self, faults: impl Iterator<Item = Fault>, clients: &mut Clients) -> Done {
        thread::sleep(PAUSE_AFTER_FAULT);
        for (round, fault) in faults.enumerate() {
            self.round(round, fault)?;
            self.wait_for_a_write()?;
            thread::sleep(PAUSE_AFTER_FAULT);
            if round % 3 == 1 {
                clients.kill_next()?;
            }
            self.servers.all_run()?;
        }
        Ok(())
    }

    /// Waits until a write was answered that was begun from now on: by a server that serves, once
    /// it has each client's report, or has evicted it.
    fn wait_for_a_write(&self) -> Done {
        let (from, end) = (now(), Instant::now() + ENDING);
        while Instant::now() < end {
            if answers(&self.folder)?.iter().any(|(begun, _)| *begun > from) {
                return Ok(());
            }
            thread::sleep(LOOK_AT_ANSWERS);
        }
        Err("no write is answered any more".into())
    }

    fn round(&mut self, round: usize, fault: Fault) -> Done {
        let old = self.servers.wait_for(|_| true)?;
        match fault {
            Fault::Kill => self.kill(fault, old),
            Fault::Freeze => self.freeze(fault, old).map(drop),
            Fault::Wake => {
                let new = self.freeze(fault, old)?;
                thread::sleep(BESIDE);
                self.kill(fault, new)
            }
            Fault::Cut => self.part(fault, old, Machines::cut, Machines::heal_cut),
            Fault::Isolate => self.part(fault, old, Machines::isolate, Machines::heal_isolated),
            Fault::Delay => self.delay(fault, old),
            Fault::Late => self.late(fault, old),
            Fault::Cross => self.cross(fault, old),
            Fault::Node => {
                let from = now();
                self.servers.cluster.kill_node(round, PAUSE_AFTER_FAULT)?;
                self.note(fault, from, from);
                Ok(())
            }
        }
    }

    fn note(&mut self, fault: Fault, from: u64, to: u64) {
        self.noted.push(NotedFault { fault, from, to });
    }

    /// Kills a server, waits until another one serves, and starts it again.
    fn kill(&mut self, fault: Fault, place: usize) -> Done {
        self.servers.server(place).kill()?;
        let from = now();
        self.servers.wait_for_another(place)?;
        self.note(fault, from, now());
        Ok(self.servers.start_again(place)?)
    }

    /// Stops the server until another one has served for a while, and returns which.
    fn freeze(&mut self, fault: Fault, old: usize) -> Result<usize, Box<dyn Error>> {
        self.servers.server(old).signal("-STOP")?;
        let from = now();
        let new = self.servers.wait_for_another(old)?;
        self.note(fault, from, now());
        thread::sleep(FROZEN);
        self.servers.server(old).signal("-CONT")?;
        Ok(new)
    }

    /// Parts a machine from others until another server has served for a while. On a single
    /// machine the server is parted from the store.
    fn part(
        &mut self,
        fault: Fault,
        old: usize,
        part: impl Fn(&Machines, usize) -> Done,
        heal: impl Fn(&Machines, usize) -> Done,
    ) -> Done {
        let site = Rc::clone(&self.servers.site);
        let Site::Machines(machines) = &*site else { return self.delay(fault, old) };
        let from = now();
        part(machines, old)?;
        self.servers.wait_for_another(old)?;
        self.note(fault, from, now());
        thread::sleep(FROZEN);
        heal(machines, old)
    }

    /// What the server asks of the store meanwhile comes after what the other one did.
    fn delay(&mut self, fault: Fault, old: usize) -> Done {
        let from = now();
        self.servers.relay(old).hold(Holds::Everything);
        self.servers.wait_for_another(old)?;
        self.note(fault, from, now());
        thread::sleep(FROZEN);
        self.servers.relay(old).let_go();
        Ok(())
    }

    /// The change that comes late is one that the server has made since, and others after it.
    fn late(&mut self, fault: Fault, old: usize) -> Done {
        self.servers.relay(old).hold(Holds::NextChange);
        self.wait_until_held(&[old])?;
        thread::sleep(ASKED_AGAIN);
        self.servers.relay(old).let_go();
        thread::sleep(BESIDE);
        self.kill(fault, old)
    }

    /// One of the others loads the store, and is stopped before its start is committed. The other
    /// one starts then; the first one's start comes after that, and it continues.
    fn cross(&mut self, fault: Fault, old: usize) -> Done {
        let [one, two] = [1, 2].map(|step| (old + step) % 3);
        for place in [one, two] {
            self.servers.relay(place).hold(Holds::Changes);
        }
        self.servers.server(old).kill()?;
        let from = now();
        let first = self.wait_until_held(&[one, two])?;
        let second = one + two - first;
        self.servers.relay(second).let_go();
        self.servers.server(first).signal("-STOP")?;
        self.servers.wait_for(|place| place == second)?;
        self.note(fault, from, now());
        self.servers.relay(first).let_go();
        thread::sleep(BESIDE);
        self.servers.server(first).signal("-CONT")?;
        Ok(self.servers.start_again(old)?)
    }

    /// Waits until a request of a server of these places is held, and returns whose.
    fn wait_until_held(&self, places: &[usize]) -> Result<usize, Box<dyn Error>> {
        let late = format!("no server changes the store within {ASKED:?}");
        let has_held = |place: &usize| self.servers.relay(*place).has_held(Duration::ZERO);
        until(ASKED, &late, || Ok(places.iter().copied().find(has_held)))
    }
}

/// Prints of each fault when another server served, and when the first write was answered that was
/// begun after it; and of all faults of a kind the middle and the worst.
fn report(folder: &Path, noted: &[NotedFault]) -> Done {
    let answers = answers(folder)?;
    let mut kinds: BTreeMap<Fault, [Vec<u64>; 2]> = BTreeMap::new();
    for NotedFault { fault, from, to } in noted {
        let millis = |at: u64| at.saturating_sub(*from) / 1_000_000;
        let [others, firsts] = kinds.entry(*fault).or_default();
        let other = millis(*to);
        others.push(other);
        let first =
            answers.iter().filter(|(begun, _)| begun > from).map(|(_, at)| millis(*at)).min();
        firsts.extend(first);
        // The drive may have ended before.
        let first = first.map_or("never".to_string(), |first| format!("after {first} ms"));
        println!("{fault:?}: another server after {other} ms, the first write {first}");
    }
    for (fault, [others, firsts]) in &mut kinds {
        let ([middle, worst], [middle_first, worst_first]) = (summary(others), summary(firsts));
        println!(
            "{fault:?}, {} times: another server after {middle} ms in the middle and {worst} at \
             worst, the first write after {middle_first} and {worst_first} ms; a lease is {} ms",
            others.len(),
            1000 * LEASE
        );
    }
    Ok(())
}

/// The middle and the worst.
fn summary(times: &mut [u64]) -> [u64; 2] {
    times.sort_unstable();
    [times.len() / 2, times.len().saturating_sub(1)].map(|at| times.get(at).map_or(0, |time| *time))
}

/// The writes that were answered: when they were begun, and when answered.
fn answers(folder: &Path) -> Result<Vec<(u64, u64)>, Box<dyn Error>> {
    let mut answers = Vec::new();
    for number in WRITERS {
        let mut begun = 0;
        for note in notes(folder, number)? {
            match note {
                Note::Begun { at, .. } => begun = at,
                Note::Answered { at, .. } => answers.push((begun, at)),
                Note::Read { .. } => {}
            }
        }
    }
    Ok(answers)
}
