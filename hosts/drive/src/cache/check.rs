//! Checks whether all that was read fits one order of the transactions.
//!
//! The order of the changes of each key is known, since a trigger writes them down in the same
//! transactions. So the question is exact: is there a moment for each transaction and each read,
//! between its call and its answer, so that each read has seen just what the transactions before
//! its moment have left? Each read comes after the transactions whose rows it has seen, and before
//! those that changed these rows next. These edges must have no cycle, and along them no moment may
//! have to be later than its answer.
use super::closed::is_within;
use super::readers::Language;
use std::collections::{BTreeMap, HashMap};
use std::fmt;
use std::ops::Range;

const NEVER: u64 = u64::MAX;

/// A committed change of a key, by the transaction of this token, which its row has then, if there
/// is one.
#[derive(Clone, Copy, Debug, PartialEq, Eq)]
pub struct Change {
    pub key: u64,
    pub token: u64,
    pub has_row: bool,
}

/// How a transaction ended, as far as its writer knows.
#[derive(Clone, Copy, Debug, PartialEq, Eq)]
pub enum End {
    Done,
    NotDone,
    Unknown,
}

/// What the writer of a transaction knows of it.
#[derive(Clone, Debug, PartialEq, Eq)]
pub struct NotedTransaction {
    pub token: u64,
    pub from: u64,
    /// When and how it ended, if it was answered.
    pub end: Option<(u64, End)>,
}

/// A read, and the keys and tokens of the rows.
#[derive(Clone, Debug, PartialEq, Eq)]
pub struct Read {
    /// The language of the reader; none if the drive itself has asked the database.
    pub reader: Option<Language>,
    pub from: u64,
    pub to: u64,
    pub keys: Range<u64>,
    pub rows: Vec<(u64, u64)>,
}

/// What the database has in the end: the tokens of all transactions, and their changes in the order
/// in which they were made.
#[derive(Debug, Default)]
pub struct Written {
    pub committed: Vec<u64>,
    pub changes: Vec<Change>,
}

/// What is wrong, and the language of the reader, if it is known.
type Wrong = (&'static str, Option<Language>);

/// What the comparison came to.
#[derive(Debug, Default)]
pub struct Verdict {
    pub rows: u64,
    pub gaps: u64,
    /// Gaps that fit several times without a row: they are left out.
    pub unclear: u64,
    pub transactions: u64,
    /// Those whose writer did not learn the end.
    pub unanswered: u64,
    pub wrong: BTreeMap<Wrong, u64>,
    /// The first of each kind.
    pub shown: Vec<String>,
}

impl Verdict {
    pub fn count_wrong(&self) -> u64 {
        self.wrong.values().sum()
    }

    fn wrong(&mut self, wrong: Wrong, example: impl FnOnce() -> String) {
        let count = self.wrong.entry(wrong).or_default();
        *count += 1;
        if *count <= 3 {
            self.shown.push(format!("{}: {}", wrong.0, example()));
        }
    }
}

impl fmt::Display for Verdict {
    fn fmt(&self, f: &mut fmt::Formatter<'_>) -> fmt::Result {
        write!(
            f,
            "{} rows and {} gaps compared, {} gaps unclear; {} transactions, of which {} were not \
             answered; {} wrong {:?}",
            self.rows,
            self.gaps,
            self.unclear,
            self.transactions,
            self.unanswered,
            self.count_wrong(),
            self.wrong
        )
    }
}

/// The moment of a transaction or a read lies between these.
#[derive(Clone, Copy, Debug)]
struct Node {
    from: u64,
    to: u64,
}

/// What a transaction has left of a key: its row with this token, or none.
#[derive(Clone, Copy, Debug)]
struct Event {
    node: usize,
    row: Option<u64>,
}

/// The changes of a key in their order, one by each transaction.
#[derive(Default)]
struct KeyHistory {
    events: Vec<Event>,
    /// How many changes there were when a row had this token.
    places: HashMap<u64, usize>,
    /// When this many changes can have been made at the earliest, and the next one at the latest.
    earliest: Vec<u64>,
    latest: Vec<u64>,
}

impl KeyHistory {
    /// Adds what a transaction has left after a change. Nobody sees what it had left before.
    fn push(&mut self, event: Event) {
        match self.events.last_mut() {
            Some(last) if last.node == event.node => *last = event,
            _ => self.events.push(event),
        }
    }

    /// Finds when each change can have been made.
    fn bound(&mut self, nodes: &[Node]) {
        let rows = self.events.iter().map(|event| event.row);
        self.places = rows.zip(1..).filter_map(|(row, count)| Some((row?, count))).collect();
        let mut from = 0;
        self.earliest = vec![0];
        for event in &self.events {
            from = nodes[event.node].from.max(from);
            self.earliest.push(from);
        }
        let mut to = NEVER;
        self.latest = vec![to];
        for event in self.events.iter().rev() {
            to = nodes[event.node].to.min(to);
            self.latest.push(to);
        }
        self.latest.reverse();
    }

    /// After how many changes there may have been no row, at some time between these.
    fn absent_between(&self, from: u64, to: u64) -> Vec<usize> {
        let is_absent = |count: &usize| {
            let last = count.checked_sub(1).and_then(|last| self.events[last].row);
            last.is_none() && self.earliest[*count] <= to && from <= self.latest[*count]
        };
        (0..=self.events.len()).filter(is_absent).collect()
    }
}

/// All that is compared: the nodes are those of the transactions, and after them those of the reads.
struct Order<'r> {
    tokens: &'r [u64],
    reads: &'r [Read],
    nodes: Vec<Node>,
    /// The first comes before the second.
    edges: Vec<(usize, usize)>,
    keys: BTreeMap<u64, KeyHistory>,
    verdict: Verdict,
}

/// Compares what was read with what was written. Nothing may have been read while it was closed.
pub fn check(
    written: &Written,
    noted: &[NotedTransaction],
    reads: &[Read],
    closed: &[Range<u64>],
) -> Verdict {
    let mut order = Order {
        tokens: &written.committed,
        reads,
        nodes: Vec::new(),
        edges: Vec::new(),
        keys: BTreeMap::new(),
        verdict: Verdict::default(),
    };
    let transactions = order.add_transactions(noted);
    order.add_changes(&written.changes, &transactions);
    order.compare_ends(noted, &transactions);
    for read in reads {
        if is_within(closed, read.from, read.to) {
            order.verdict.wrong(("a read of what is closed", read.reader), || format!("{read:?}"));
        }
        order.add_read(read);
    }
    order.find_moments();
    order.verdict
}

impl Order<'_> {
    /// Adds a node for each transaction that was committed. One whose end was not reported was made
    /// when somebody had seen a row of it.
    fn add_transactions(&mut self, noted: &[NotedTransaction]) -> HashMap<u64, usize> {
        let noted: HashMap<u64, &NotedTransaction> =
            noted.iter().map(|noted| (noted.token, noted)).collect();
        let seen = first_seen(self.reads);
        for token in self.tokens {
            let noted = noted.get(token);
            let end = noted.and_then(|noted| noted.end);
            let answered = end.filter(|(_, end)| *end == End::Done).map(|(at, _)| at);
            self.verdict.transactions += 1;
            // What was there before the writers has no report.
            self.verdict.unanswered += u64::from(noted.is_some() && answered.is_none());
            let to = if noted.is_none() { 0 } else { answered.unwrap_or(NEVER) };
            let to = to.min(seen.get(token).copied().unwrap_or(NEVER));
            self.nodes.push(Node { from: noted.map_or(0, |noted| noted.from), to });
        }
        self.tokens.iter().copied().zip(0..).collect()
    }

    /// Adds the changes of each key, one after the other.
    fn add_changes(&mut self, changes: &[Change], transactions: &HashMap<u64, usize>) {
        for change in changes {
            let Some(&node) = transactions.get(&change.token) else {
                self.verdict.wrong(("a change of no transaction", None), || format!("{change:?}"));
                continue;
            };
            let history = self.keys.entry(change.key).or_default();
            let last = history.events.last().map(|last| last.node);
            self.edges.extend(last.filter(|last| *last != node).map(|last| (last, node)));
            history.push(Event { node, row: change.has_row.then_some(change.token) });
        }
        for history in self.keys.values_mut() {
            history.bound(&self.nodes);
        }
    }

    fn compare_ends(&mut self, noted: &[NotedTransaction], transactions: &HashMap<u64, usize>) {
        for noted in noted {
            let is_done = transactions.contains_key(&noted.token);
            match noted.end {
                Some((_, End::Done)) if !is_done => {
                    let wrong = ("an answered transaction is lost", None);
                    self.verdict.wrong(wrong, || format!("{noted:?}"));
                }
                Some((_, End::NotDone)) if is_done => {
                    let wrong = ("a failed transaction is done", None);
                    self.verdict.wrong(wrong, || format!("{noted:?}"));
                }
                _ => {}
            }
        }
    }

    /// Adds a read: after the changes that it has seen, and before the next ones.
    fn add_read(&mut self, read: &Read) {
        let node = self.nodes.len();
        self.nodes.push(Node { from: read.from, to: read.to });
        let rows: BTreeMap<u64, u64> = read.rows.iter().copied().collect();
        if !rows.keys().eq(read.rows.iter().map(|(key, _)| key))
            || !rows.keys().all(|key| read.keys.contains(key))
        {
            let wrong = ("rows out of order or range", read.reader);
            self.verdict.wrong(wrong, || format!("{read:?}"));
        }
        for key in read.keys.clone() {
            let seen = match rows.get(&key) {
                Some(token) => self.row_seen(key, *token, read),
                None => self.gap_seen(key, read),
            };
            if let Some(next) = seen {
                self.add_edges(key, next, node);
            }
        }
    }

    /// How many changes of the key have come before a read that has this token.
    fn row_seen(&mut self, key: u64, token: u64, read: &Read) -> Option<usize> {
        self.verdict.rows += 1;
        let history = self.keys.get(&key);
        let count = history.and_then(|history| history.places.get(&token).copied());
        if count.is_none() {
            let wrong = ("a row that was never committed", read.reader);
            self.verdict.wrong(wrong, || format!("{key} in {read:?}"));
        }
        count
    }

    /// How many changes of the key have come before a read without a row, if that is clear.
    fn gap_seen(&mut self, key: u64, read: &Read) -> Option<usize> {
        let history = self.keys.get(&key);
        let counts = history.map_or(vec![0], |history| history.absent_between(read.from, read.to));
        match counts[..] {
            [next] => {
                self.verdict.gaps += 1;
                Some(next)
            }
            [] => {
                let wrong = ("a row is missing", read.reader);
                self.verdict.wrong(wrong, || format!("{key} in {read:?}"));
                None
            }
            _ => {
                self.verdict.unclear += 1;
                None
            }
        }
    }

    /// A read has seen this many changes of the key, and not the next one.
    fn add_edges(&mut self, key: u64, next: usize, read: usize) {
        let Some(KeyHistory { events, .. }) = self.keys.get(&key) else { return };
        if let Some(last) = next.checked_sub(1) {
            self.edges.push((events[last].node, read));
        }
        if let Some(event) = events.get(next) {
            self.edges.push((read, event.node));
        }
    }

    /// Gives each node the earliest moment that the nodes before it allow.
    fn find_moments(&mut self) {
        let mut after: Vec<Vec<usize>> = vec![Vec::new(); self.nodes.len()];
        let mut before = vec![0_usize; self.nodes.len()];
        for (first, second) in std::mem::take(&mut self.edges) {
            after[first].push(second);
            before[second] += 1;
        }
        let mut earliest: Vec<(u64, usize)> =
            self.nodes.iter().zip(0..).map(|(node, place)| (node.from, place)).collect();
        let mut ready: Vec<usize> = (0..before.len()).filter(|place| before[*place] == 0).collect();
        let mut done = 0;
        while let Some(place) = ready.pop() {
            done += 1;
            let moment = self.moment(place, earliest[place]);
            for &next in &after[place] {
                earliest[next] = earliest[next].max((moment, place));
                before[next] -= 1;
                if before[next] == 0 {
                    ready.push(next);
                }
            }
        }
        if done < self.nodes.len() {
            let left = (0..before.len()).filter(|place| before[*place] > 0);
            let left: Vec<String> = left.take(6).map(|place| self.name(place)).collect();
            let wrong = ("reads and transactions in a circle", None);
            self.verdict.wrong(wrong, || left.join(", "));
        }
    }

    /// The moment of a node, which cannot be before this one, because of that node.
    fn moment(&mut self, place: usize, (earliest, cause): (u64, usize)) -> u64 {
        let Node { to, .. } = self.nodes[place];
        if earliest > to {
            let late = (earliest - to) / 1000;
            let reader = self.reader(place).or_else(|| self.reader(cause));
            let (name, cause) = (self.name(place), self.name(cause));
            self.verdict.wrong(("a moment that is too late", reader), || {
                format!("{late} us: {name} comes after {cause}")
            });
        }
        // What comes after it is judged by itself.
        earliest.min(to)
    }

    /// The reader of a node that is a read.
    fn reader(&self, place: usize) -> Option<Language> {
        self.reads.get(place.checked_sub(self.tokens.len())?)?.reader
    }

    fn name(&self, place: usize) -> String {
        match self.tokens.get(place) {
            Some(token) => format!("transaction {token}"),
            None => format!("{:?}", self.reads[place - self.tokens.len()]),
        }
    }
}

/// When a row of each transaction was first read.
fn first_seen(reads: &[Read]) -> HashMap<u64, u64> {
    let mut seen = HashMap::new();
    for read in reads {
        for (_, token) in &read.rows {
            let first = seen.entry(*token).or_insert(NEVER);
            *first = read.to.min(*first);
        }
    }
    seen
}

#[cfg(test)]
mod tests {
    use super::*;

    fn change(key: u64, token: u64) -> Change {
        Change { key, token, has_row: true }
    }

    fn transaction(token: u64, from: u64, to: u64) -> NotedTransaction {
        NotedTransaction { token, from, end: Some((to, End::Done)) }
    }

    fn read(from: u64, to: u64, rows: &[(u64, u64)]) -> Read {
        Read { reader: None, from, to, keys: 1..3, rows: rows.to_vec() }
    }

    /// The key 1 was written by the transactions 10 and 11, and 2 only by 11, which has deleted it
    /// before.
    fn written() -> (Written, [NotedTransaction; 2]) {
        let deleted = Change { has_row: false, ..change(2, 11) };
        let changes = vec![change(1, 10), change(1, 11), deleted, change(2, 11)];
        let written = Written { committed: vec![10, 11], changes };
        (written, [transaction(10, 100, 200), transaction(11, 300, 400)])
    }

    fn wrong(reads: &[Read]) -> Vec<&'static str> {
        let (written, noted) = written();
        kinds(check(&written, &noted, reads, &[]))
    }

    fn kinds(verdict: Verdict) -> Vec<&'static str> {
        verdict.wrong.into_keys().map(|(what, _)| what).collect()
    }

    #[test]
    fn what_fits_one_order_is_right() {
        let reads = [
            read(50, 150, &[]),
            read(150, 160, &[(1, 10)]),
            read(310, 320, &[(1, 10)]),
            read(315, 500, &[(1, 10)]),
            read(330, 340, &[(1, 11), (2, 11)]),
        ];
        let (written, noted) = written();
        let verdict = check(&written, &noted, &reads, &[]);
        assert_eq!(verdict.count_wrong(), 0, "{:?}", verdict.shown);
        assert_eq!((verdict.rows, verdict.gaps, verdict.transactions), (5, 5, 2));
    }

    #[test]
    fn a_stale_read_is_wrong() {
        assert_eq!(
            wrong(&[read(410, 420, &[(1, 10)])]),
            ["a moment that is too late", "a row is missing"]
        );
        // Somebody has seen the later row before.
        let seen = read(310, 320, &[(1, 11), (2, 11)]);
        assert!(!wrong(&[seen, read(330, 340, &[(1, 10)])]).is_empty());
    }

    #[test]
    fn a_read_of_what_is_closed_is_wrong() {
        let (written, noted) = written();
        let reads = [read(150, 160, &[(1, 10)])];
        let kinds = |closed| kinds(check(&written, &noted, &reads, &[closed]));
        assert_eq!(kinds(140..170), ["a read of what is closed"]);
        assert!(kinds(140..160).is_empty());
    }

    #[test]
    fn half_of_a_transaction_is_wrong() {
        assert!(!wrong(&[read(410, 420, &[(1, 11)])]).is_empty());
        let circle = wrong(&[read(310, 390, &[(1, 10), (2, 11)])]);
        assert_eq!(circle, ["reads and transactions in a circle"]);
    }

    #[test]
    fn a_row_of_no_transaction_is_wrong() {
        assert_eq!(
            wrong(&[read(410, 420, &[(1, 12), (2, 11)])]),
            ["a row that was never committed"]
        );
        let early = wrong(&[read(50, 60, &[(1, 10)])]);
        assert_eq!(early, ["a moment that is too late"]);
    }

    #[test]
    fn what_a_writer_noted_has_to_be_so() {
        let (mut written, mut noted) = written();
        noted[1].end = Some((400, End::NotDone));
        assert_eq!(kinds(check(&written, &noted, &[], &[])), ["a failed transaction is done"]);
        noted[1].end = Some((400, End::Done));
        written = Written { committed: vec![10], changes: vec![change(1, 10)] };
        assert_eq!(kinds(check(&written, &noted, &[], &[])), ["an answered transaction is lost"]);
    }

    #[test]
    fn what_is_wrong_shows_the_reader() {
        let (written, noted) = written();
        let stale = |reader| Read { reader: Some(reader), ..read(410, 420, &[(1, 10)]) };
        let reads = [stale(Language::C), stale(Language::Python), stale(Language::Python)];
        let found = check(&written, &noted, &reads, &[]).wrong;
        let (missing, late) = ("a row is missing", "a moment that is too late");
        assert_eq!(found.get(&(missing, Some(Language::C))), Some(&1));
        assert_eq!(found.get(&(missing, Some(Language::Python))), Some(&2));
        // The transaction after the last of these reads is too late.
        assert_eq!(found.get(&(late, Some(Language::Python))), Some(&1));
    }
}
