//! A reader of one server.
use super::connection::{Connection, Lost};
use super::faults::Faults;
use super::until::Until;
use crate::call::error::{ErrorKind, JoinErrorKind};
use crate::client::backoff::{self, Backoff};
use crate::model::history::Seen;
use crate::model::row::Row;
use crate::net::servers::Servers;
use crate::wire::read_frame::{ReadRequest, RowPage};
use std::ops::Range;
use std::thread::sleep;
use std::time::{Duration, Instant};

/// How often a reader that waits for its server looks at the map.
const MAP_CHECK_INTERVAL: Duration = Duration::from_millis(50);

/// A reader of one server: of its only one, or of that of a shard.
#[derive(Debug)]
pub(crate) struct ServerReader {
    servers: Servers,
    connection: Option<Connection>,
    /// The server that it asks, by its place among the servers.
    place: usize,
    /// The last mark of a store that it has received.
    seen: Option<Seen>,
    /// The number of its last question.
    asked: u64,
    backoff: Backoff,
    faults: Faults,
}

impl ServerReader {
    /// It connects at its first call.
    pub fn new(servers: Servers) -> ServerReader {
        ServerReader {
            backoff: Backoff::among(servers.count(), backoff::seed()),
            servers,
            connection: None,
            place: 0,
            seen: None,
            asked: 0,
            faults: Faults::default(),
        }
    }

    pub fn servers(&self) -> &Servers {
        &self.servers
    }

    /// Whether a server has answered it once.
    pub fn has_answer(&self) -> bool {
        self.faults.have_answer()
    }

    /// Asks whether the server answers, for the row of the first of these keys.
    pub fn connect(&mut self, keys: &Range<u64>, until: &mut Until<'_>) -> Result<(), ErrorKind> {
        self.page(keys.start, keys.start + 1, until).map(drop)
    }

    /// Why the reader is not connected, if its first call ended so.
    pub fn why_not_connected(&mut self, kind: ErrorKind) -> JoinErrorKind {
        self.faults.why_not_connected(&self.servers, kind)
    }

    /// The rows of the keys at one moment, or `None` if they are more than a page has.
    pub fn read_at_one_moment(
        &mut self,
        keys: Range<u64>,
        until: &mut Until<'_>,
    ) -> Result<Option<Vec<Row>>, ErrorKind> {
        let page = self.page(keys.start, keys.end, until)?;
        Ok((page.next == keys.end).then_some(page.rows))
    }

    /// The rows of the keys, as the store has them; over more rows than a page has, in parts, each at
    /// a moment of its own.
    pub fn read(&mut self, keys: Range<u64>, until: &mut Until<'_>) -> Result<Vec<Row>, ErrorKind> {
        let Range { start: mut lo, end: hi } = keys;
        let mut rows = Vec::new();
        while lo < hi {
            let page = self.page(lo, hi, until)?;
            lo = page.next;
            rows.extend(page.rows);
        }
        Ok(rows)
    }

    /// Asks until there is an answer. A question may be asked several times: it changes nothing.
    fn page(&mut self, lo: u64, hi: u64, until: &mut Until<'_>) -> Result<RowPage, ErrorKind> {
        loop {
            self.asked += 1;
            let request = ReadRequest { number: self.asked, lo, hi };
            match self.ask(request, until.deadline) {
                Ok(page) => {
                    self.backoff.reset();
                    self.faults.answered();
                    return Ok(page);
                }
                Err(lost) => self.lose(lost, until)?,
            }
        }
    }

    /// Asks once on the connection, which is made if there is none.
    fn ask(&mut self, request: ReadRequest, deadline: Instant) -> Result<RowPage, Lost> {
        let connection = match &mut self.connection {
            Some(connection) => connection,
            none => {
                let address = self.servers.at(self.place);
                let made = Connection::open(address, &self.servers, self.seen, deadline)?;
                none.insert(made)
            }
        };
        let answer = connection.ask(request, deadline);
        self.seen = connection.seen().or(self.seen);
        answer
    }

    /// The connection has ended for this reason, or was not made. Returns after a pause, unless the
    /// call is to end.
    fn lose(&mut self, lost: Lost, until: &mut Until<'_>) -> Result<(), ErrorKind> {
        self.connection = None;
        self.place = (self.place + 1) % self.servers.count();
        let now = Instant::now();
        match lost {
            Lost::WentBack => {
                self.seen = None;
                return Err(ErrorKind::StoreWentBack);
            }
            Lost::Late => return Err(self.faults.why_unserved()),
            Lost::Refused(refusal) => self.faults.note_refusal(refusal, now),
            Lost::Failed(error) => self.faults.note_end(error, now),
        }
        let standing = until.refuse_elsewhere()?;
        let pause = self.faults.shorten(self.backoff.pause(), now);
        let is_hopeless = self.faults.are_final(standing) && !self.servers.are_several();
        if is_hopeless || now + pause >= until.deadline {
            return Err(self.faults.why_unserved());
        }
        rest(pause, until)
    }
}

/// Waits so long, or until the keys are elsewhere: then that is the error.
fn rest(pause: Duration, until: &mut Until<'_>) -> Result<(), ErrorKind> {
    let end = Instant::now() + pause;
    loop {
        let left = end.saturating_duration_since(Instant::now());
        if left.is_zero() {
            return until.refuse_elsewhere().map(drop);
        }
        sleep(left.min(MAP_CHECK_INTERVAL));
        until.refuse_elsewhere()?;
    }
}
