//! A table whose shards are cut, merged and moved by `krl-server reshard`, while clients that follow
//! the map read and write. The command is killed now and then; what does not run is started then, as
//! a service manager would, and the command is repeated. A second operator repeats it at the same
//! moment, gives it up before, or moves the other shard, next to the first one or after the kill. At
//! other changes a client dies just before, or one stays that does not follow the map.
//!
//! The clients are those of [`crate::shards`] and [`crate::bystanders`]. No call may fail, and at the
//! end each row is in one store.
use crate::Found;
use crate::bystanders::{Bystander, FOLLOWER, STAYING};
use crate::resharded::{Change, ShardServer, Table, shell};
use crate::shards::{BOUND, LEFT, READERS, RIGHT, Run, WRITER};
use crate::waiting::until;
use krl::store::{KeptShard, Snapshot};
use krl::{Shard, ShardMap, SqliteStore, Value};
use std::error::Error;
use std::num::NonZeroU64;
use std::os::unix::process::CommandExt;
use std::path::Path;
use std::process::{Child, Command};
use std::thread;
use std::time::{Duration, Instant};

type Done<T = ()> = Result<T, Box<dyn Error>>;

/// A call that waits for longer has failed: it is much longer than a change takes, also if the
/// command is killed and the machine is busy.
const TIMEOUT: Duration = Duration::from_secs(90);

/// A dead client delays a change for so long, and a quarter more. On a busy machine a client may not run
/// for some seconds, and is not to lose its lease again and again.
const LEASE: &str = "5s";

/// How often a command is repeated at most.
const TRIES: u32 = 4;

/// At one of so many changes a client does not follow the map. The first of these changes is a cut.
const STAYS: u64 = 20;

/// At one of so many changes a client has just died.
const DIES: u64 = 10;

/// How many changes a run comes to at least.
const LEAST_CHANGES: u64 = 4;

/// How many numbers are written between two changes at least.
const LEAST_WRITES: u64 = 20;

/// What the shards of the table are, in turn.
enum Layout {
    One(ShardServer),
    Two([ShardServer; 2]),
}

/// The changes of a table.
struct Changes<'p> {
    table: Table<'p>,
    /// How many were made.
    made: u64,
    /// A client that follows the map, until it is killed.
    follower: Option<Bystander>,
    /// How many such clients were killed, and how many did not follow the map.
    died: u32,
    stayed: u32,
    /// How many kills are to come, and how many there were.
    kills_left: u64,
    kills: u32,
    /// How many commands a second operator ran.
    second: u32,
    /// How long the last change took that was not killed.
    took: Duration,
}

pub fn run(folder: &Path, seconds: u64, kills: u64, program: &Path) -> Found {
    let mut changes = Changes {
        table: Table::new(folder, program, LEASE)?,
        made: 0,
        follower: None,
        died: 0,
        stayed: 0,
        kills_left: kills,
        kills: 0,
        second: 0,
        took: Duration::from_secs(1),
    };
    let first = changes.begin()?;
    let join = |number| changes.table.join(number, TIMEOUT);
    let (writer, readers) = (join(WRITER)?, [join(READERS[0])?, join(READERS[1])?]);
    let run = Run::default();
    let counts = run.work(&writer, &readers, || changes.change_for(first, seconds, &run))?;
    drop((writer, readers));
    changes.table.stop_all()?;
    let Changes { made, kills, second, died, stayed, .. } = changes;
    let what = format!(
        "{made} changes of shards, {kills} kills, {second} commands of a second operator, {died} \
         clients that died, {stayed} that did not follow the map"
    );
    let (is_right, failed) = (run.judge(&counts, &what)?, run.failed());
    if failed > 0 {
        println!("WRONG: {failed} calls failed");
    }
    let is_kept = changes.has_each_row_once(run.last());
    Ok(is_right && is_kept && failed == 0)
}

impl Changes<'_> {
    /// One shard, which has both rows, its server, and the map.
    fn begin(&mut self) -> Done<ShardServer> {
        let server = self.table.new_server()?;
        let rows = [LEFT, RIGHT].map(|key| (key, Value::from(0))).into();
        let shard = Some("0..@1".parse()?);
        let store = Snapshot { epoch: 1, rows, shard, ..Snapshot::default() };
        SqliteStore::create(self.table.store(&server), &store)?;
        let map = ShardMap::new(vec![Shard::new(0, &server.servers)])?;
        std::fs::write(self.table.map(), map.with_version(NonZeroU64::MIN).to_toml())?;
        self.table.start(&server)?;
        Ok(server)
    }

    /// Changes the shards again and again: two of one, each of them elsewhere, and one of both. By
    /// each map the clients write something.
    fn change_for(&mut self, first: ShardServer, seconds: u64, run: &Run) -> Done {
        self.follower = Some(Bystander::start(self.table.folder(), FOLLOWER)?);
        let end = Instant::now() + Duration::from_secs(seconds);
        let mut layout = Layout::One(first);
        while Instant::now() < end || self.made < LEAST_CHANGES {
            wait_for_writes(run)?;
            layout = self.change(layout)?;
        }
        wait_for_writes(run)?;
        self.end_follower()
    }

    fn change(&mut self, layout: Layout) -> Done<Layout> {
        let mut new = self.table.new_server()?;
        Ok(match layout {
            Layout::One(whole) => {
                self.reshard(&Change::Split { whole: &whole, at: BOUND }, &new)?;
                Layout::Two([whole, new])
            }
            Layout::Two([lower, upper]) => match self.made % 4 {
                1 if self.made / 4 % 2 == 1 => {
                    let second = self.table.new_server()?;
                    self.move_both([&lower, &upper], [&second, &new])?;
                    Layout::Two([second, new])
                }
                1 => {
                    self.reshard(&Change::Move { old: &upper, first: BOUND }, &new)?;
                    Layout::Two([lower, new])
                }
                2 => {
                    self.reshard(&Change::Move { old: &lower, first: 0 }, &new)?;
                    Layout::Two([new, upper])
                }
                _ => {
                    // It is at the place of the lower one.
                    new.servers = lower.servers.clone();
                    let merge = Change::Merge { lower: &lower, upper: &upper, at: BOUND };
                    self.reshard(&merge, &new)?;
                    Layout::One(new)
                }
            },
        })
    }

    /// Two operators move a shard each: at the same moment, or the second one when the command of the
    /// first one was killed.
    fn move_both(
        &mut self,
        [lower, upper]: [&ShardServer; 2],
        [new_lower, new_upper]: [&ShardServer; 2],
    ) -> Done {
        let first = Change::Move { old: upper, first: BOUND };
        let second = Change::Move { old: lower, first: 0 };
        let mut killed = self.table.reshard(&first, new_upper)?;
        let mut other = self.table.reshard(&second, new_lower)?;
        let at_once =
            if (self.made / 8).is_multiple_of(2) { Some(start(&mut other)?) } else { None };
        let is_first_made = self.is_made_though_killed(&mut killed)?;
        let mut process = at_once.map_or_else(|| start(&mut other), Ok)?;
        let is_second_made = process.wait()?.success();
        self.second += 1;
        self.repeat_until_made(is_first_made, &mut killed, &first, new_upper)?;
        self.repeat_until_made(is_second_made, &mut other, &second, new_lower)
    }

    /// Makes a change, and repeats it until it is made.
    fn reshard(&mut self, change: &Change<'_>, new: &ShardServer) -> Done {
        let mut command = self.table.reshard(change, new)?;
        let is_made = self.is_made_though_hindered(&mut command)?;
        if !is_made {
            self.run_second_operator(&mut command, change, new)?;
        }
        self.repeat_until_made(is_made, &mut command, change, new)
    }

    /// A second operator repeats a command that was killed, while the first one does, or gives the change
    /// up; or there is none.
    fn run_second_operator(
        &mut self,
        command: &mut Command,
        change: &Change<'_>,
        new: &ShardServer,
    ) -> Done {
        let mut second = match self.kills % 3 {
            0 => return Ok(()),
            1 => start(self.table.reshard(change, new)?.arg("--undo"))?,
            _ => start(command)?,
        };
        self.second += 1;
        // Each is refused while the other one works; and a change whose rows were cut is not given up.
        start(command)?.wait()?;
        second.wait()?;
        Ok(())
    }

    fn repeat_until_made(
        &mut self,
        is_made: bool,
        command: &mut Command,
        change: &Change<'_>,
        new: &ShardServer,
    ) -> Done {
        let mut is_made = is_made;
        for _ in 0..TRIES {
            if is_made {
                self.made += 1;
                return Ok(());
            }
            // As a service manager would, it starts what does not run.
            for server in change.old().into_iter().chain([new]) {
                let _ = self.table.start(server);
            }
            let begun = Instant::now();
            is_made = start(command)?.wait()?.success();
            self.took = begun.elapsed();
        }
        Err(format!("'{}' fails again and again", change.name()).into())
    }

    /// Runs the command, while something hinders it: a client that does not follow the map, one that
    /// is dead, or a kill. Returns whether it has ended well.
    fn is_made_though_hindered(&mut self, command: &mut Command) -> Done<bool> {
        match self.made {
            change if change % STAYS == 0 => self.is_made_though_one_stays(command),
            change if change % DIES == 2 => self.is_made_though_one_has_died(command),
            _ => self.is_made_though_killed(command),
        }
    }

    /// Runs the command, while a client does not follow the map: the command names it, and a server
    /// tells it that its shard is another one.
    fn is_made_though_one_stays(&mut self, command: &mut Command) -> Done<bool> {
        let staying = Bystander::start(self.table.folder(), STAYING)?;
        let named_before = self.times_named(STAYING);
        let is_made = start(command)?.wait()?.success();
        let ended = staying.ended()?;
        if !ended.success() {
            return Err(format!("a client that does not follow the map has ended: {ended}").into());
        }
        if self.times_named(STAYING) == named_before {
            return Err("the command has not named a client that does not follow the map".into());
        }
        self.stayed += 1;
        Ok(is_made)
    }

    /// How often the command has reported that it waits for this client.
    fn times_named(&self, client: u8) -> usize {
        let log = std::fs::read_to_string(self.table.log()).unwrap_or_default();
        log.matches(&format!("waits for client {client} ")).count()
    }

    /// Runs the command just after the client has died that has followed the map.
    fn is_made_though_one_has_died(&mut self, command: &mut Command) -> Done<bool> {
        self.end_follower()?;
        self.died += 1;
        let is_made = start(command)?.wait()?.success();
        self.follower = Some(Bystander::start(self.table.folder(), FOLLOWER)?);
        Ok(is_made)
    }

    /// Kills the client that follows the map. It has done so until now.
    fn end_follower(&mut self) -> Done {
        self.follower.take().map_or(Ok(()), Bystander::kill)
    }

    /// Runs the command, and kills it after a part of the time that it takes, which is another one
    /// each time, if there are kills left. Returns whether it has ended well.
    fn is_made_though_killed(&mut self, command: &mut Command) -> Done<bool> {
        let mut process = start(command)?;
        if self.kills_left > 0 {
            self.kills_left -= 1;
            self.kills += 1;
            thread::sleep(self.took * (self.kills * 7 % 20) / 20);
            // With the commands that it runs, and not with the servers that they have started. It may
            // have ended.
            let _ = shell(&format!("kill -9 -{} 2>/dev/null", process.id()));
        }
        Ok(process.wait()?.success())
    }

    /// Whether each row is in one store on which a server may start, with its last value.
    fn has_each_row_once(&self, last: u64) -> bool {
        let mut found = Vec::new();
        for store in self.table.stores() {
            let Ok(store) = SqliteStore::read(store) else { continue };
            if store.snapshot.shard.is_some_and(|shard: KeptShard| !shard.is_sealed) {
                found.extend(store.snapshot.rows);
            }
        }
        found.sort_unstable_by_key(|(key, _)| *key);
        let numbers: Vec<_> = found.iter().map(|(key, value)| (*key, value.to_u64())).collect();
        let is_right = match numbers[..] {
            [(LEFT, Some(left)), (RIGHT, Some(right))] => right >= last && left >= right,
            _ => false,
        };
        if !is_right {
            println!("WRONG: the stores have {numbers:?}, and {last} was answered");
        }
        is_right
    }
}

/// Starts the command, with all that it runs in a group of its own.
fn start(command: &mut Command) -> std::io::Result<Child> {
    command.process_group(0).spawn()
}

/// Waits until the writer has written some numbers more.
fn wait_for_writes(run: &Run) -> Done {
    let begun = run.last();
    until(TIMEOUT, "the clients do not come to anything", || {
        Ok((run.last() >= begun + LEAST_WRITES).then_some(()))
    })
}
