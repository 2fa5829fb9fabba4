//! The transactions of the writers: plain SQL, of many kinds.
use super::check::End;
use super::{PAIRS, STABLE_PAIRS};
use crate::lossy::Draws;
use krl_testing::database::Sql;
use std::thread;
use std::time::Duration;

/// Of a hundred transactions this many are prepared, rolled back, or wait before they are
/// committed.
const PREPARED: u64 = 7;
const ROLLED_BACK: u64 = 5;
const LATE: u64 = 5;

/// A prepared transaction, or a late one, waits for at most this many milliseconds.
const LONGEST_WAIT: u64 = 300;

/// One transaction of this many is of a kind that heeds no snapshot.
const HEEDS_NO_SNAPSHOT: u64 = 150;

type Kind = fn(&mut Draws) -> String;

/// The kinds, and how often each is drawn. No kind takes a stable pair away.
const KINDS: [(u64, Kind); 13] = [
    (30, |draws| update(any_pair(draws))),
    (10, |draws| upsert(any_pair(draws))),
    (6, |draws| upsert(coming_pair(draws))),
    (6, |draws| delete(coming_pair(draws))),
    (6, replace),
    (4, copy),
    (6, |draws| format!("SELECT change({});", any_pair(draws))),
    (4, |draws| replace_parent(coming_pair(draws))),
    (4, replace_all_by_cascade),
    (4, update_by_cascade),
    (6, roll_back_to_a_savepoint),
    (6, |draws| (0..3).map(|_| update(any_pair(draws))).collect()),
    (2, |_| "UPDATE item SET n = n + 1;".to_string()),
];

/// Those that heed no snapshot, and so are right under READ COMMITTED only. A column that was
/// dropped counts as one of the 1,600 that a table may have: there are few.
const KINDS_WITHOUT_SNAPSHOT: [Kind; 8] =
    [truncate, truncate, truncate, rewrite, rewrite, add_column, change_database, change_role];

/// What a writer sends, and how it ends if nothing fails.
pub struct Transaction {
    statements: String,
    /// What ends a prepared transaction, and how long it waits for that.
    second_phase: Option<(Duration, String)>,
    end: End,
}

impl Transaction {
    /// A transaction of this token. `writer` is the beginning of its name, if it is prepared.
    pub fn draw(draws: &mut Draws, writer: &str, token: u64) -> Transaction {
        let (level, statements) = if draws.below(HEEDS_NO_SNAPSHOT) == 0 {
            let kind = KINDS_WITHOUT_SNAPSHOT[draws.place(KINDS_WITHOUT_SNAPSHOT.len())];
            ("READ COMMITTED", kind(draws))
        } else {
            (isolation_level(draws), draw_kind(draws)(draws))
        };
        // One that changes no row of the table is flushed by PostgreSQL.
        let statements = format!(
            "BEGIN ISOLATION LEVEL {level}; SET LOCAL drive.token = '{token}';
             INSERT INTO committed VALUES ({token}); {statements}
             SELECT set_config('synchronous_commit', 'on', true)
                 WHERE NOT EXISTS (SELECT FROM history WHERE token = {token});"
        );
        let is_rolled_back = draws.below(100) < ROLLED_BACK;
        let (end, last) =
            if is_rolled_back { (End::NotDone, "ROLLBACK") } else { (End::Done, "COMMIT") };
        let wait = Duration::from_millis(draws.below(LONGEST_WAIT));
        let roll = draws.below(100);
        if roll < PREPARED {
            let name = format!("{writer}-{}", draws.next());
            let statements = format!("{statements} PREPARE TRANSACTION '{name}'");
            let second_phase = Some((wait, format!("{last} PREPARED '{name}'")));
            return Transaction { statements, second_phase, end };
        }
        let seconds = if roll < PREPARED + LATE { wait.as_secs_f64() } else { 0.0 };
        let statements = format!("{statements} SELECT pg_sleep({seconds}); {last}");
        Transaction { statements, second_phase: None, end }
    }

    /// Makes it, and returns how it has ended.
    pub fn run(&self, sql: &Sql) -> End {
        if let Err(error) = sql.try_run(&self.statements) {
            // The database has ended the connection, or reports why it rolls back.
            let refused = error.as_db_error();
            let is_refused = refused.is_some_and(|it| !it.code().code().starts_with("57P"));
            return if is_refused { End::NotDone } else { End::Unknown };
        }
        let Some((wait, statement)) = &self.second_phase else { return self.end };
        thread::sleep(*wait);
        if sql.try_run(statement).is_ok() { self.end } else { End::Unknown }
    }
}

/// Commits the prepared transactions whose names begin so: their writer does not know them.
pub fn commit_prepared(sql: &Sql, writer: &str) -> Option<()> {
    let asked = format!("SELECT gid FROM pg_prepared_xacts WHERE gid LIKE '{writer}%'");
    let names = sql.try_query(&asked).ok()?;
    let commit = |name: &str| sql.try_run(&format!("COMMIT PREPARED '{name}'")).ok();
    names.iter().try_for_each(|row| commit(row.get(0)))
}

fn draw_kind(draws: &mut Draws) -> Kind {
    let mut rest = draws.below(KINDS.iter().map(|(weight, _)| weight).sum());
    let is_it = |(weight, _): &&(u64, Kind)| {
        let is_below = rest < *weight;
        rest = rest.saturating_sub(*weight);
        is_below
    };
    KINDS.iter().find(is_it).unwrap_or(&KINDS[0]).1
}

fn isolation_level(draws: &mut Draws) -> &'static str {
    match draws.below(10) {
        0 => "SERIALIZABLE",
        1 => "REPEATABLE READ",
        _ => "READ COMMITTED",
    }
}

fn any_pair(draws: &mut Draws) -> u64 {
    draws.below(PAIRS)
}

/// A pair that comes and goes.
fn coming_pair(draws: &mut Draws) -> u64 {
    STABLE_PAIRS + draws.below(PAIRS - STABLE_PAIRS)
}

fn update(pair: u64) -> String {
    let (left, right) = keys(pair);
    format!("UPDATE item SET n = n + 1 WHERE id IN ({left}, {right});")
}

fn insert(pair: u64) -> String {
    let (left, right) = keys(pair);
    format!("INSERT INTO item (id, pair) VALUES ({left}, {pair}), ({right}, {pair});")
}

fn upsert(pair: u64) -> String {
    let insert = insert(pair);
    let insert = insert.trim_end_matches(';');
    format!("{insert} ON CONFLICT (id) DO UPDATE SET n = item.n + 1;")
}

fn delete(pair: u64) -> String {
    let (left, right) = keys(pair);
    format!("DELETE FROM item WHERE id IN ({left}, {right});")
}

fn replace(draws: &mut Draws) -> String {
    let pair = any_pair(draws);
    delete(pair) + &insert(pair)
}

fn copy(draws: &mut Draws) -> String {
    let pair = any_pair(draws);
    let (delete, (left, right)) = (delete(pair), keys(pair));
    let rows = format!("{left} {pair}\\n{right} {pair}\\n");
    format!("{delete} COPY item (id, pair) FROM PROGRAM 'printf \"{rows}\"' (DELIMITER ' ');")
}

/// Deletes the row that rows of the table refer to, and so these, and inserts it again.
fn replace_parent(pair: u64) -> String {
    format!("DELETE FROM pair WHERE id = {pair}; INSERT INTO pair VALUES ({pair});")
}

fn replace_all_by_cascade(draws: &mut Draws) -> String {
    let pair = any_pair(draws);
    replace_parent(pair) + &insert(pair)
}

fn update_by_cascade(draws: &mut Draws) -> String {
    let pair = any_pair(draws);
    let other = pair + 1000;
    format!(
        "UPDATE pair SET id = {other} WHERE id = {pair};
         UPDATE pair SET id = {pair} WHERE id = {other};"
    )
}

fn roll_back_to_a_savepoint(draws: &mut Draws) -> String {
    let (undone, done) = (update(any_pair(draws)), update(any_pair(draws)));
    format!("SAVEPOINT before; {undone} ROLLBACK TO before; {done}")
}

fn truncate(_: &mut Draws) -> String {
    "LOCK TABLE item IN ACCESS EXCLUSIVE MODE;
     CREATE TEMP TABLE saved ON COMMIT DROP AS SELECT * FROM item;
     TRUNCATE item;
     INSERT INTO item SELECT * FROM saved;"
        .to_string()
}

/// Changes all rows without a trigger.
fn rewrite(_: &mut Draws) -> String {
    "LOCK TABLE item IN ACCESS EXCLUSIVE MODE;
     INSERT INTO history (id, token, has_row)
         SELECT id, current_setting('drive.token')::bigint, true FROM item;
     ALTER TABLE item ALTER COLUMN token TYPE bigint
         USING current_setting('drive.token')::bigint;"
        .to_string()
}

fn add_column(draws: &mut Draws) -> String {
    let number = draws.below(1000);
    format!(
        "ALTER TABLE item DROP COLUMN IF EXISTS extra,
             ADD COLUMN extra bigint DEFAULT {number};"
    )
}

/// Everything is taken back in the middle of the transaction.
fn change_database(draws: &mut Draws) -> String {
    let (before, after) = (update(any_pair(draws)), update(any_pair(draws)));
    format!("{before} ALTER DATABASE spare OWNER TO CURRENT_USER; {after}")
}

/// Everything is taken back before the commit.
fn change_role(draws: &mut Draws) -> String {
    let update = update(any_pair(draws));
    format!("ALTER ROLE spare NOLOGIN; ALTER ROLE spare LOGIN; {update}")
}

/// The keys of a pair.
fn keys(pair: u64) -> (u64, u64) {
    (2 * pair, 2 * pair + 1)
}
