//! A benchmark that a user runs: clients with caches of their own read and write the same rows.
mod histogram;
mod report;
mod workload;

use crate::arguments::{BenchWords, Options};
use crate::failure::Failure;
use crate::session::Session;
use crate::signals::{LEAVE_TIMEOUT, Signals, Taken};
use crate::waiting::note_at_terminal;
use krl::{Client, END, Outcome};
use rand::SeedableRng;
use rand::rngs::StdRng;
use std::ops::Range;
use std::sync::Arc;
use std::thread;
use std::time::{Duration, Instant};
use workload::{Measured, ReadingWorker, Span, Worker, random_value};

/// Makes the rows, measures, deletes the rows, and prints what was measured.
pub fn run(options: &Options, words: &BenchWords, signals: &Signals) -> Result<u8, Failure> {
    let keys = keys_of(words)?;
    refuse_clients(options, words)?;
    let sessions = Session::join_some(options, &keys, usize::from(words.clients))?;
    for session in &sessions {
        signals.ends(&session.client);
    }
    let taken = signals.to_loop();
    let ended = measure_all(&sessions, &keys, words, &taken);
    let timeout = if taken.is_ended() { LEAVE_TIMEOUT } else { options.timeout };
    Session::leave_all(sessions, timeout);
    let (measured, took) = ended?;
    report::print(options.format(), words, &measured, took)?;
    match measured.failed {
        0 => Ok(0),
        failed => Err(Failure::NoAnswer(format!("{failed} calls failed: they got no answer"))),
    }
}

fn keys_of(words: &BenchWords) -> Result<Range<u64>, Failure> {
    let end = words.first_key.checked_add(words.keys).filter(|end| *end < END);
    let end = end.ok_or_else(|| {
        Failure::Usage("the keys end above 2^63 - 2: give a lower --first-key".into())
    })?;
    if words.rows > words.keys {
        return Err(Failure::Usage(format!(
            "a read of {} rows needs as many keys, and there are {}: give fewer --rows or more \
             --keys",
            words.rows, words.keys
        )));
    }
    Ok(words.first_key..end)
}

/// Each client needs a number of its own.
fn refuse_clients(options: &Options, words: &BenchWords) -> Result<(), Failure> {
    let numbers = options.numbers().0;
    let count = numbers.clone().count();
    if usize::from(words.clients) <= count {
        return Ok(());
    }
    Err(Failure::Usage(format!(
        "{} clients need as many numbers, and {} to {} are {count}: give fewer --clients or more \
         numbers, such as --number 0-63",
        words.clients,
        numbers.start(),
        numbers.end()
    )))
}

fn measure_all(
    sessions: &[Session],
    keys: &Range<u64>,
    words: &BenchWords,
    signals: &Taken<'_>,
) -> Result<(Measured, Duration), Failure> {
    let maker = sessions.first().map(|session| &session.client);
    let maker = maker.ok_or_else(|| Failure::Usage("a benchmark needs a client".into()))?;
    refuse_rows(maker, keys)?;
    let mut made = keys.start..keys.start;
    note_at_terminal(&format!("makes {} rows", words.keys));
    let measured = make_rows(maker, keys, words.value_size, &mut made, signals).and_then(|()| {
        note_at_terminal(&format!("measures for {} s", words.warm_up + words.seconds));
        measure(sessions, keys, words, signals)
    });
    if signals.is_ended() {
        maker.set_timeout(LEAVE_TIMEOUT.min(maker.timeout()));
    }
    note_at_terminal("deletes the rows");
    let deleted = delete_rows(maker, made);
    let measured = measured?;
    deleted?;
    Ok(measured)
}

/// A benchmark overwrites nobody's rows.
fn refuse_rows(client: &Client, keys: &Range<u64>) -> Result<(), Failure> {
    if client.read(keys.clone())?.is_empty() {
        return Ok(());
    }
    Err(Failure::Refused(format!(
        "there are rows of keys from {} to {}, and a benchmark takes keys that have none: give \
         others with --first-key",
        keys.start,
        keys.end - 1
    )))
}

/// Makes the rows, and returns the keys of those that it has made.
fn make_rows(
    client: &Client,
    keys: &Range<u64>,
    value_size: u8,
    made: &mut Range<u64>,
    signals: &Taken<'_>,
) -> Result<(), Failure> {
    let mut random = StdRng::from_entropy();
    for key in keys.clone() {
        if signals.is_ended() {
            break;
        }
        let outcome = client.insert(key, random_value(&mut random, value_size))?;
        if outcome != Outcome::Applied {
            let why = format!("the row of key {key} can't be inserted: {outcome}");
            return Err(Failure::Refused(why));
        }
        made.end = key + 1;
    }
    // Each client begins with an empty cache.
    Ok(client.forget(keys.clone())?)
}

fn delete_rows(client: &Client, mut made: Range<u64>) -> Result<(), Failure> {
    made.try_for_each(|key| client.delete(key).map(drop))?;
    Ok(())
}

/// Lets each thread of each client work until the time is over, and returns what was measured, and
/// in how much time.
fn measure(
    sessions: &[Session],
    keys: &Range<u64>,
    words: &BenchWords,
    signals: &Taken<'_>,
) -> Result<(Measured, Duration), Failure> {
    let span = Span::from(Instant::now(), words.warm_up, words.seconds);
    let clients = sessions.iter().map(|session| &session.client);
    let workers: Result<Vec<Worker>, Failure> = clients
        .flat_map(|client| (0..words.threads).map(move |_| client))
        .map(|client| Worker::new(Arc::clone(client), keys, words))
        .collect();
    let readers = readers(sessions, keys, words)?;
    let mut all = Measured::default();
    thread::scope(|scope| {
        let run = |mut worker: Worker| scope.spawn(move || worker.run(span, signals));
        let read = |mut reader: ReadingWorker| scope.spawn(move || reader.run(span, signals));
        let threads = workers?.into_iter().map(run).chain(readers.into_iter().map(read));
        for thread in threads.collect::<Vec<_>>() {
            let measured = thread
                .join()
                .map_err(|_| Failure::Refused("a thread of the benchmark panicked".into()))?;
            all.add(&measured);
        }
        Ok::<(), Failure>(())
    })?;
    Ok((all, span.measured_from.elapsed()))
}

/// The readers, which are at the place of the clients.
fn readers(
    sessions: &[Session],
    keys: &Range<u64>,
    words: &BenchWords,
) -> Result<Vec<ReadingWorker>, Failure> {
    let Some(Session { client, place, .. }) = sessions.first() else { return Ok(Vec::new()) };
    let reader = || ReadingWorker::new(place.reader(client.timeout()), keys, words);
    (0..words.readers).map(|_| reader()).collect()
}
