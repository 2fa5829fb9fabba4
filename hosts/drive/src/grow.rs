//! How long a shard of 65,536 rows is away while it is cut, moved and merged, as its clients see it;
//! and how long calls take at another shard meanwhile.
use crate::Found;
use crate::resharded::{Change, ShardServer, Table};
use krl::store::{KeptShard, Snapshot};
use krl::{Client, Outcome, Shard, ShardMap, SqliteStore, Value};
use std::error::Error;
use std::num::NonZeroU64;
use std::path::Path;
use std::sync::atomic::{AtomicBool, Ordering};
use std::thread;
use std::time::{Duration, Instant};

type Done<T = ()> = Result<T, Box<dyn Error>>;

/// As many rows as a server has room for by default.
const ROWS: u64 = 65_536;

/// One of so many keys has a row.
const STEP: u64 = 10;

/// The shard that changes ends here, and is cut in its middle.
const END: u64 = ROWS * STEP;
const MIDDLE: u64 = END / 2;

/// The rows of the other shard.
const OTHER_ROWS: u64 = 1000;

const CLIENTS: u8 = 2;

/// How long a call waits.
const TIMEOUT: Duration = Duration::from_secs(60);

/// A thread rests between two calls.
const REST: Duration = Duration::from_millis(2);

/// For so long before and after each change calls are compared with those while it is made.
const AROUND: Duration = Duration::from_secs(5);

/// A call that was answered.
#[derive(Clone, Copy)]
struct Call {
    begun: Instant,
    ended: Instant,
}

/// When a change was made, and since when and until when nothing else was done.
struct Made {
    name: &'static str,
    before: Instant,
    begun: Instant,
    ended: Instant,
    after: Instant,
}

/// What a thread has done.
#[derive(Default)]
struct Work {
    calls: Vec<Call>,
    failed: u64,
}

pub fn run(folder: &Path, program: &Path) -> Found {
    let mut table = Table::new(folder, program, "10s")?;
    let first = begin(&mut table)?;
    let join = |number| table.join(number, TIMEOUT);
    let clients = (0..CLIENTS).map(join).collect::<Done<Vec<Client>>>()?;
    let is_over = &AtomicBool::new(false);
    let (changes, works) = thread::scope(|scope| {
        // At the lower half, the upper half and the other shard, each client by a thread.
        let begin_at = |lo: u64| {
            let start = |client| scope.spawn(move || work(client, lo, is_over));
            clients.iter().map(start).collect::<Vec<_>>()
        };
        let threads = [0, MIDDLE, END].map(begin_at);
        let changes = change(&mut table, &first);
        is_over.store(true, Ordering::SeqCst);
        let joined = |threads: Vec<thread::ScopedJoinHandle<'_, Work>>| {
            threads.into_iter().filter_map(|thread| thread.join().ok()).collect::<Vec<Work>>()
        };
        (changes, threads.map(joined))
    });
    let [lower, upper, other] = works;
    for Made { name, before, begun, ended, after } in changes? {
        let away = longest_wait(lower.iter().chain(&upper), begun, ended);
        println!(
            "{name}: {:.2} s; a thread there had no answer for {away:.2} s",
            seconds(ended - begun)
        );
        let times = [("before", before, begun), ("while", begun, ended), ("after", ended, after)];
        for (when, from, to) in times {
            println!("    {when}: at the other shard {}", latencies(&other, from, to));
        }
    }
    let all = || lower.iter().chain(&upper).chain(&other);
    let failed: u64 = all().map(|work| work.failed).sum();
    let calls: usize = all().map(|work| work.calls.len()).sum();
    println!("{calls} calls were answered, and {failed} failed");
    Ok(failed == 0)
}

/// Two shards, the servers of both and the map. Returns the server of the first shard.
fn begin(table: &mut Table<'_>) -> Done<ShardServer> {
    let value = |key: u64| Value::try_from([key.to_be_bytes(); 4].as_flattened());
    let (first, other) = (table.new_server()?, table.new_server()?);
    let parts =
        [(&first, 0, ROWS, format!("0..{END}@1")), (&other, END, OTHER_ROWS, format!("{END}..@1"))];
    for (server, lo, count, shard) in parts {
        let keys = (0..count).map(|row| lo + STEP * row);
        let rows = keys.map(|key| Ok((key, value(key)?))).collect::<Done<_>>()?;
        let shard: Option<KeptShard> = Some(shard.parse()?);
        let store = Snapshot { epoch: 1, rows, shard, ..Snapshot::default() };
        SqliteStore::create(table.store(server), &store)?;
    }
    let shards = vec![Shard::new(0, &first.servers), Shard::new(END, &other.servers)];
    let map = ShardMap::new(shards)?.with_version(NonZeroU64::MIN);
    std::fs::write(table.map(), map.to_toml())?;
    table.start(&first)?;
    table.start(&other)?;
    Ok(first)
}

/// Cuts the shard, moves its upper half and merges both.
fn change(table: &mut Table<'_>, whole: &ShardServer) -> Done<Vec<Made>> {
    let upper = table.new_server()?;
    let cut = made(table, &Change::Split { whole, at: MIDDLE }, &upper)?;
    let moved = table.new_server()?;
    let movement = made(table, &Change::Move { old: &upper, first: MIDDLE }, &moved)?;
    let mut last = table.new_server()?;
    // It is at the place of the lower one.
    last.servers = whole.servers.clone();
    let merge = Change::Merge { lower: whole, upper: &moved, at: MIDDLE };
    Ok(vec![cut, movement, made(table, &merge, &last)?])
}

fn made(table: &Table<'_>, change: &Change<'_>, new: &ShardServer) -> Done<Made> {
    let mut command = table.reshard(change, new)?;
    let before = Instant::now();
    thread::sleep(AROUND);
    let begun = Instant::now();
    let status = command.status()?;
    let ended = Instant::now();
    if !status.success() {
        return Err(format!(
            "'{}' has ended: {status}: see {}",
            change.name(),
            table.log().display()
        )
        .into());
    }
    thread::sleep(AROUND);
    Ok(Made { name: change.name(), before, begun, ended, after: Instant::now() })
}

/// Writes a row and reads ten others, again and again. The client asks the server for each.
fn work(client: &Client, lo: u64, is_over: &AtomicBool) -> Work {
    let mut work = Work::default();
    for turn in 0_u64.. {
        if is_over.load(Ordering::SeqCst) {
            break;
        }
        // Each client has its own rows, next to those of the others.
        let row = lo + STEP * (100 * u64::from(client.number()) + turn % 50);
        let lowest = row + 50 * STEP;
        work.call(|| client.put(row, Value::from(turn)).is_ok_and(|it| it == Outcome::Applied));
        work.call(|| {
            client.read_once(lowest..lowest + 10 * STEP).is_ok_and(|rows| rows.len() == 10)
        });
        thread::sleep(REST);
    }
    work
}

impl Work {
    fn call(&mut self, call: impl FnOnce() -> bool) {
        let begun = Instant::now();
        if call() {
            self.calls.push(Call { begun, ended: Instant::now() });
        } else {
            self.failed += 1;
        }
    }
}

/// The longest time, in seconds, in which a thread had no answer, of those that end in this time or
/// after it.
fn longest_wait<'w>(works: impl Iterator<Item = &'w Work>, from: Instant, to: Instant) -> f64 {
    let wait = |work: &Work| {
        let gaps = work.calls.windows(2).map(|pair| (pair[0].ended, pair[1].ended));
        let meets = |(start, end): &(Instant, Instant)| *end > from && *start < to;
        gaps.filter(meets).map(|(start, end)| end - start).max().unwrap_or_default()
    };
    seconds(works.map(wait).max().unwrap_or_default())
}

/// How long the calls took that began in this time.
fn latencies(works: &[Work], from: Instant, to: Instant) -> String {
    let calls = works.iter().flat_map(|work| &work.calls);
    let is_in_time = |call: &&Call| from <= call.begun && call.begun < to;
    let mut took: Vec<f64> =
        calls.filter(is_in_time).map(|call| 1e3 * seconds(call.ended - call.begun)).collect();
    took.sort_by(f64::total_cmp);
    let Some(last) = took.len().checked_sub(1) else { return "no call".into() };
    format!(
        "{} calls, of {:.2} ms (median), {:.2} ms (99 percent), {:.2} ms (the longest)",
        took.len(),
        took[last / 2],
        took[last * 99 / 100],
        took[last]
    )
}

fn seconds(time: Duration) -> f64 {
    time.as_secs_f64()
}
