//! A client that has joined: its number, its lock file, and how it leaves.
use crate::arguments::Options;
use crate::failure::Failure;
use crate::output::print_note;
use crate::place::Place;
use crate::waiting::with_note_if_long;
use krl::error::{LockFileError, Refusal};
use krl::operate::lock_folder;
use krl::{Client, ClientBuilder, JoinError, JoinErrorKind};
use std::collections::VecDeque;
use std::ops::Range;
use std::path::PathBuf;
use std::sync::Arc;
use std::thread;
use std::time::{Duration, Instant};

/// A client that has joined.
pub struct Session {
    pub client: Arc<Client>,
    pub place: Place,
    /// How long the join took.
    pub joined_in: Duration,
}

impl Session {
    /// Joins by the greatest number of the options that is free.
    /// It joins only the shards that have some of these keys.
    pub fn join(options: &Options, keys: &Range<u64>) -> Result<Session, Failure> {
        let join = || Session::join_some(options, keys, 1);
        let mut sessions = with_note_if_long(|| waits_for(options), join)?;
        sessions.pop().ok_or_else(|| none_is_free(options))
    }

    /// Joins this many clients, the greatest free numbers first. Those that other users or machines
    /// have come last.
    pub fn join_some(
        options: &Options,
        keys: &Range<u64>,
        count: usize,
    ) -> Result<Vec<Session>, Failure> {
        let (place, files) = (Place::of(options, keys.clone())?, LockFiles::of(options)?);
        let mut numbers: VecDeque<u8> = options.numbers().0.rev().collect();
        let mut sessions = Vec::new();
        while sessions.len() < count {
            let session = Session::join_first(options, &place, &files, &numbers)?;
            let is_passed_over = |number: &&u8| **number != session.client.number();
            numbers.rotate_left(numbers.iter().take_while(is_passed_over).count());
            numbers.pop_front();
            sessions.push(session);
        }
        Ok(sessions)
    }

    /// Joins by the first of these numbers that is free.
    fn join_first(
        options: &Options,
        place: &Place,
        files: &LockFiles,
        numbers: &VecDeque<u8>,
    ) -> Result<Session, Failure> {
        let begun = Instant::now();
        let builder = place.configure(files.builder(&place.at, numbers)).timeout(options.timeout);
        let joined = builder.wait_if_in_use(options.timeout).join();
        let client = joined.map_err(|error| not_joined(options, place, files, error))?;
        if let Some(map) = &options.map {
            client.follow(map).map_err(|error| Failure::not_followed(map, &error))?;
        }
        let (client, joined_in) = (Arc::new(client), begun.elapsed());
        Ok(Session { client, place: place.clone(), joined_in })
    }

    /// Gives all back. If the server does not answer, it reports what others may notice.
    pub fn leave(self) {
        let timeout = self.client.timeout();
        Session::leave_all(vec![self], timeout);
    }

    /// The same for several at once.
    pub fn leave_all(sessions: Vec<Session>, timeout: Duration) {
        let unanswered: Vec<String> = thread::scope(|scope| {
            let leave = |session: Session| {
                let is_unanswered = session.client.within(timeout).leave().is_err();
                is_unanswered.then(|| session.client.number().to_string())
            };
            let leaving = sessions.into_iter().map(|it| scope.spawn(move || leave(it)));
            let leaving: Vec<_> = leaving.collect();
            leaving.into_iter().filter_map(|left| left.join().ok().flatten()).collect()
        });
        if !unanswered.is_empty() {
            print_note(&format!(
                "the server did not learn that client {} left: others may wait for what it held \
                 until a client of its number joins again",
                unanswered.join(", ")
            ));
        }
    }
}

/// What a user at a terminal reads of a program that waits for its server.
pub fn waits_for(options: &Options) -> String {
    let (timeout, server) = (humantime::format_duration(options.timeout), &options.server);
    match &options.map {
        None => format!("waiting for the server at {server}, for up to {timeout}"),
        Some(map) => format!("waiting for the servers of {}", map.display()),
    }
}

fn not_joined(options: &Options, place: &Place, files: &LockFiles, error: JoinError) -> Failure {
    let JoinError { kind, number, shard, .. } = error;
    let is_taken = matches!(kind, JoinErrorKind::LockFile { error: LockFileError::Taken, .. });
    let number = match number {
        Some(number) if !is_taken || options.numbers().only().is_some() => number,
        _ => return none_is_free(options),
    };
    let needs_new_file = matches!(kind, JoinErrorKind::Unserved(Refusal::FarAhead { .. }));
    let server = place.servers_of(shard).unwrap_or(&options.server);
    let failure = Failure::of_join(kind, number, server).at_shard(shard);
    if !needs_new_file {
        return failure;
    }
    let file = files.of_number(number, place, shard);
    failure.reworded(|why| format!("{why}. Its lock file is {}", file.display()))
}

fn none_is_free(options: &Options) -> Failure {
    let numbers = options.numbers().0;
    Failure::NotJoined(format!(
        "too few of the client numbers {} to {} are free: other processes of this user have them; \
         give others with --number",
        numbers.start(),
        numbers.end()
    ))
}

/// Where the lock files are.
enum LockFiles {
    /// This is the file of the only number.
    One(u8, PathBuf),
    In(PathBuf),
}

impl LockFiles {
    fn of(options: &Options) -> Result<LockFiles, Failure> {
        match (&options.lock_file, options.numbers().only()) {
            (Some(_), _) if options.map.is_some() => {
                let why = "a lock file is for one server: --lock-file can't be used with --map";
                Err(Failure::Usage(why.into()))
            }
            (Some(file), Some(number)) => Ok(LockFiles::One(number, file.clone())),
            (Some(_), None) => {
                let why = "a lock file is for one number: --lock-file needs a --number that is one \
                           number";
                Err(Failure::Usage(why.into()))
            }
            (None, _) => folder().map(LockFiles::In),
        }
    }

    /// A builder of a client of the first of these numbers that is free.
    fn builder(&self, at: &krl::Place, numbers: &VecDeque<u8>) -> ClientBuilder {
        match self {
            LockFiles::One(number, file) => Client::builder(at.clone(), *number, file),
            LockFiles::In(folder) => {
                Client::builder_with_numbers(at.clone(), numbers.iter().copied(), folder)
            }
        }
    }

    /// The lock file of a number at this server.
    fn of_number(&self, number: u8, place: &Place, shard: Option<u8>) -> PathBuf {
        match self {
            LockFiles::One(_, file) => file.clone(),
            LockFiles::In(folder) => folder.join(place.lock_file_name(number, shard)),
        }
    }
}

/// The user's folder of lock files and of the prompt's history. It is made if there is none.
pub fn folder() -> Result<PathBuf, Failure> {
    lock_folder().map_err(|why| {
        let why = JoinErrorKind::NoLockFolder(why);
        Failure::NotJoined(format!("{why}; or give the lock file with --number and --lock-file"))
    })
}
