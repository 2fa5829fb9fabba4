//! A client without sockets, threads and clocks, for `hosts/simulation`: bytes go in, bytes come
//! out, and each call gets the time. The incarnations of its number are inside. Nothing here is a
//! part of the interface, whose client is [`crate::Client`].
use crate::call::error::{Error, ErrorKind};
use crate::client::engine;
use crate::client::session::Session;
use crate::client::state::{Asked, State};
use crate::lease::boot_clock::Moment;
use crate::lease::clocks::Now;
use crate::lease::terms::Sign;
use crate::model::change::{Outcome, Write};
use crate::model::row::Row;
use crate::net::servers::Servers;
use crate::proved::client_handle::{ClientHandle, Scan};
use crate::wire::frames::{self, Frames};
use std::fmt;
use std::io;
use std::ops::Range;
use std::sync::mpsc::TryRecvError;
use std::time::Duration;

pub use crate::client::incarnations::Incarnations;
pub use crate::client::state::{Held, Purpose};
pub use crate::lease::terms::Older;
#[cfg(feature = "tls")]
pub use crate::net::tls::TlsSession;

/// A client. A moment is a time by a clock that continues while the machine is suspended, and never
/// goes back.
pub struct Client<N> {
    session: Session,
    incarnations: N,
    frames: Frames,
    /// What is to be sent, as far as it was not yet.
    output: Vec<u8>,
    /// The moment of the last call.
    now: Duration,
}

/// Something that a client was asked to do.
pub struct Call<T>(Asked<T>);

/// What a cache knows of a range.
#[derive(Clone, Copy, Debug, PartialEq, Eq)]
pub enum Cached {
    /// Its rows.
    Rows,
    /// Not all of it.
    Missing,
    /// A write of the client to it is not answered.
    Pending,
    /// Nothing more: the client's lease has ended.
    Ended,
}

impl<T> Call<T> {
    /// The answer, if it has come. It comes once.
    #[must_use]
    pub fn answer(&self) -> Option<Result<T, Error>> {
        match self.0.answer.try_recv() {
            Ok(answer) => Some(answer.map_err(Error::from)),
            Err(TryRecvError::Empty) => None,
            Err(TryRecvError::Disconnected) => Some(Err(ErrorKind::Stopped.into())),
        }
    }
}

impl<N: Incarnations> Client<N> {
    /// A client of these incarnations, which is not connected and begins with the current one. It
    /// connects to one of `servers` places at a time, and draws its pauses between connections by
    /// `seed`.
    ///
    /// # Errors
    ///
    /// If memory was refused.
    pub fn of(
        incarnations: N,
        servers: usize,
        seed: u64,
        now: Duration,
    ) -> Result<Client<N>, Error> {
        let (number, current) = (incarnations.number(), incarnations.current());
        let handle = ClientHandle::open_after(number, current, incarnations.older())?;
        let state = State::new(handle, Now::simulated(now));
        let session = Session::new(Servers::unnamed(servers), state, seed);
        let (frames, output) = (Frames::to_client(), Vec::new());
        Ok(Client { session, incarnations, frames, output, now })
    }

    /// The session at this moment, or at the last one if that is later.
    fn at(&mut self, now: Duration) -> &mut Session {
        self.now = self.now.max(now);
        self.session.at(Now::simulated(self.now))
    }

    /// Reads the range from the cache into `rows`, in place of what they are, and returns what the
    /// cache knows of it.
    pub fn cached(&mut self, now: Duration, keys: &Range<u64>, rows: &mut Vec<Row>) -> Cached {
        match self.session.state().cache().scan(keys, rows, || Ok(moment(now))) {
            Ok(Scan::Rows) => Cached::Rows,
            Ok(Scan::Pending) => Cached::Pending,
            Ok(Scan::Ended) => Cached::Ended,
            Ok(Scan::Miss(_)) | Err(_) => Cached::Missing,
        }
    }

    /// The incarnations of its number.
    #[must_use]
    pub fn incarnations(&self) -> &N {
        &self.incarnations
    }

    /// The same, to be changed.
    pub fn incarnations_mut(&mut self) -> &mut N {
        &mut self.incarnations
    }

    /// The place of the server that it is connected to, or that the next connection goes to.
    #[must_use]
    pub fn place(&self) -> usize {
        self.session.place()
    }

    /// A connection is made. If the client needs a greater incarnation, it has one from here on;
    /// and its incarnation is on the disk before anything of it is to be sent.
    ///
    /// # Errors
    ///
    /// If the incarnation can't be kept, or memory was refused.
    pub fn connected(&mut self, now: Duration) -> io::Result<()> {
        self.at(now);
        self.frames = Frames::to_client();
        self.output = engine::begin_connection(&mut self.session, &mut self.incarnations)?;
        Ok(())
    }

    /// The same of a host of an older version, which has no leases: it sends no sign, and waits for
    /// no terms.
    ///
    /// # Errors
    ///
    /// Those of [`Client::connected`].
    pub fn connected_without_lease(&mut self, now: Duration) -> io::Result<()> {
        self.connected(now)?;
        self.session.state().go_without_terms()?;
        let unsigned = frames::split(&self.output).filter(|(frame, _)| Sign::read(frame).is_none());
        self.output = unsigned.flat_map(|(_, whole)| whole).copied().collect();
        Ok(())
    }

    /// Whether it needs a greater incarnation, which it takes with its next connection.
    pub fn has_to_begin_again(&mut self, now: Duration) -> bool {
        self.at(now).has_to_begin_again()
    }

    /// Bytes have come, cut anywhere.
    ///
    /// # Errors
    ///
    /// The connection has to end, for this reason.
    pub fn received(&mut self, now: Duration, mut bytes: &[u8]) -> io::Result<()> {
        self.at(now);
        while !bytes.is_empty() {
            self.frames.fill(&mut bytes)?;
            self.session.receive(&mut self.frames)?;
        }
        Ok(())
    }

    /// Continues with what it was asked.
    ///
    /// # Errors
    ///
    /// The connection has to end, for this reason.
    pub fn proceed(&mut self, now: Duration) -> io::Result<()> {
        self.at(now).proceed()
    }

    /// When it has to continue again if nothing comes.
    #[must_use]
    pub fn due(&self) -> Duration {
        self.now + self.session.due_in()
    }

    /// What is to be sent. Nothing is added as long as a part of it was not sent.
    pub fn output(&mut self, now: Duration) -> &[u8] {
        self.at(now);
        if self.output.is_empty() {
            self.session.take(&mut self.output);
        }
        &self.output
    }

    /// This many bytes of that were sent, or all if they are fewer.
    pub fn sent(&mut self, count: usize) {
        self.output.drain(..count.min(self.output.len()));
    }

    /// The connection has ended, or was not made. Returns when to make the next one.
    pub fn disconnected(&mut self, now: Duration, why: io::Error) -> Duration {
        self.output.clear();
        let pause = self.at(now).disconnected(why);
        self.now + pause
    }

    /// Asks to join.
    pub fn join(&mut self, now: Duration) -> Call<()> {
        Call(self.at(now).state().join())
    }

    /// Asks for the rows of a range that is not empty.
    pub fn read(&mut self, now: Duration, keys: Range<u64>) -> Call<Vec<Row>> {
        Call(self.at(now).state().read(keys))
    }

    /// Asks for a write. With a pin, it is made while that holds, or never.
    pub fn write(&mut self, now: Duration, write: Write, pin: Option<u64>) -> Call<Outcome> {
        let state = self.at(now).state();
        Call(match pin {
            Some(pin) => state.write_under(pin, write),
            None => state.write(write),
        })
    }

    /// Gives back a range that is not empty.
    pub fn forget(&mut self, now: Duration, keys: Range<u64>) -> Call<()> {
        Call(self.at(now).state().forget(keys))
    }

    /// Asks for the rows of a range that is not empty, and pins it.
    pub fn hold(&mut self, now: Duration, keys: Range<u64>, purpose: Purpose) -> Call<Held> {
        Call(self.at(now).state().hold(keys, purpose))
    }

    /// From now on it keeps what it reads, however often others write that.
    pub fn keep_all(&mut self) {
        self.session.state().keep_all();
    }

    /// Whether the pin holds.
    pub fn holds_pin(&mut self, now: Duration, pin: u64) -> bool {
        self.at(now).state().holds_pin(pin)
    }

    /// Drops a pin.
    pub fn unpin(&mut self, now: Duration, pin: u64) {
        self.at(now).state().unpin(pin);
    }

    /// Waits until what it knows of the range is no longer these rows.
    pub fn watch(&mut self, now: Duration, keys: Range<u64>, rows: Vec<Row>) -> Call<()> {
        Call(self.at(now).state().watch(keys, rows))
    }

    /// Asks to leave.
    pub fn leave(&mut self, now: Duration) -> Call<()> {
        Call(self.at(now).state().leave())
    }

    /// Nobody waits for the call any more. Returns why that has no answer, if none has come.
    ///
    /// # Errors
    ///
    /// Why there is no answer; or those of the call.
    pub fn give_up<T>(&mut self, now: Duration, call: &Call<T>) -> Result<T, Error> {
        let why = self.at(now).give_up(call.0.id);
        Ok(call.0.answer.try_recv().unwrap_or(Err(why))?)
    }
}

fn moment(now: Duration) -> Moment {
    Moment::of_nanoseconds(u64::try_from(now.as_nanos()).unwrap_or(u64::MAX))
}

impl<T> fmt::Debug for Call<T> {
    fn fmt(&self, f: &mut fmt::Formatter<'_>) -> fmt::Result {
        f.debug_tuple("Call").field(&self.0.id).finish()
    }
}

impl<N: Incarnations> fmt::Debug for Client<N> {
    fn fmt(&self, f: &mut fmt::Formatter<'_>) -> fmt::Result {
        f.debug_struct("Client")
            .field("number", &self.incarnations.number())
            .finish_non_exhaustive()
    }
}
