//! The network: connections that carry frames, and lose some of them.
use crate::dice::Dice;
use std::collections::BTreeMap;
use std::ops::Range;
use std::time::Duration;

/// The length of a frame stands before it.
pub const PREFIX: usize = 8;

/// For this long something still comes on a connection whose other direction is cut.
const STALLS: Duration = Duration::from_secs(1);

/// Which end of a connection.
#[derive(Clone, Copy, Debug, PartialEq, Eq, PartialOrd, Ord)]
pub enum Side {
    /// The client's.
    Client,
    /// The server's.
    Server,
}

impl Side {
    /// The end at the other side.
    #[must_use]
    pub fn other(self) -> Side {
        match self {
            Side::Client => Side::Server,
            Side::Server => Side::Client,
        }
    }
}

/// How the network carries frames.
#[derive(Clone, Debug, Default)]
pub struct Faults {
    /// How often a message is lost, in a thousand.
    pub loses: u64,
    /// How often it comes twice.
    pub repeats: u64,
    /// How often it overtakes others, or is overtaken.
    pub reorders: u64,
}

/// A connection of a client to a server.
#[derive(Debug)]
pub struct Link {
    /// The client.
    pub client: usize,
    /// The machine of the server.
    pub site: usize,
    /// The number that the server has given the connection.
    pub connection: u64,
    /// From when on what is sent to this side is swallowed, and neither side learns of it.
    swallows_from: [Duration; 2],
    /// This side has ended it.
    pub has_ended: [bool; 2],
    /// Until when what was sent to each side is on its way, and what its host was sent.
    busy_until: [Duration; 2],
    host_until: [Duration; 2],
}

impl Link {
    /// Whether what is sent to this side is swallowed by now.
    #[must_use]
    pub fn swallows(&self, to: Side, now: Duration) -> bool {
        now >= self.swallows_from[to as usize]
    }
}

/// A frame on its way.
#[derive(Clone, Debug, PartialEq, Eq)]
pub struct Carried {
    /// Frames are numbered as they are sent.
    pub number: u64,
    /// When it comes, or is lost.
    pub moment: Duration,
    /// It is lost.
    pub is_lost: bool,
    /// The frame, with its length.
    pub bytes: Vec<u8>,
}

/// All connections.
#[derive(Debug)]
pub struct Network {
    dice: Dice,
    /// What it does wrong.
    pub faults: Faults,
    /// How long a frame is on its way, in microseconds.
    pub latency: Range<u64>,
    links: BTreeMap<u64, Link>,
    next: u64,
    sent: u64,
}

impl Network {
    /// A network without connections.
    #[must_use]
    pub fn new(dice: Dice, faults: Faults, latency: Range<u64>) -> Network {
        Network { dice, faults, latency, links: BTreeMap::new(), next: 0, sent: 0 }
    }

    /// The name of the last connection that was made.
    #[must_use]
    pub fn last(&self) -> u64 {
        self.next
    }

    /// A new connection, and its name.
    pub fn connect(&mut self, client: usize, site: usize, connection: u64) -> u64 {
        self.next += 1;
        let link = Link {
            client,
            site,
            connection,
            swallows_from: [Duration::MAX; 2],
            has_ended: [false; 2],
            busy_until: [Duration::ZERO; 2],
            host_until: [Duration::ZERO; 2],
        };
        self.links.insert(self.next, link);
        self.next
    }

    /// A connection that is open at one side at least.
    #[must_use]
    pub fn link(&self, name: u64) -> Option<&Link> {
        self.links.get(&name)
    }

    /// The connections between the client and this machine swallow what is sent to these sides. If
    /// that is one of them, soon nothing comes from the other one either: nobody acknowledges what
    /// it sends.
    pub fn swallow(&mut self, client: usize, site: usize, sides: [bool; 2], now: Duration) {
        let between = |link: &&mut Link| link.client == client && link.site == site;
        for link in self.links.values_mut().filter(between) {
            for (from, is_cut) in link.swallows_from.iter_mut().zip(sides) {
                *from = (*from).min(if is_cut { now } else { now + STALLS });
            }
        }
    }

    /// A side has ended the connection, or has learned that it is over. Returns whether that is
    /// news.
    pub fn end(&mut self, name: u64, side: Side) -> bool {
        let Some(link) = self.links.get_mut(&name) else { return false };
        let is_news = !std::mem::replace(&mut link.has_ended[side as usize], true);
        if link.has_ended == [true; 2] {
            self.links.remove(&name);
        }
        is_news
    }

    /// When this side learns that the other one ends the connection now: after all that was sent
    /// before.
    pub fn arrives(&mut self, name: u64, to: Side, now: Duration) -> Duration {
        let arrives = now + self.dice.time(self.latency.clone());
        self.links.get(&name).map_or(arrives, |link| arrives.max(link.busy_until[to as usize]))
    }

    /// Carries what is sent on a connection to this side, frame by frame. Those of hosts come whole
    /// and in their order, as on any stream. Messages of the library may be lost, come twice, or
    /// overtake each other, but not what a host sent before.
    pub fn carry(&mut self, name: u64, to: Side, bytes: &[u8], now: Duration) -> Vec<Carried> {
        let Some(link) = self.links.get_mut(&name) else { return Vec::new() };
        let (dice, faults) = (&mut self.dice, &self.faults);
        let swallows = link.swallows(to, now);
        let mut carried = Vec::new();
        for frame in frames(bytes) {
            self.sent += 1;
            let is_message = frame.get(PREFIX).is_some_and(|first| *first != 0);
            let comes = link.host_until[to as usize].max(now + dice.time(self.latency.clone()));
            let mut put = |moment, is_lost| {
                let bytes = frame.to_vec();
                carried.push(Carried { number: self.sent, moment, is_lost, bytes });
            };
            if swallows || is_message && dice.happens(faults.loses) {
                put(comes, true);
                continue;
            }
            if is_message && dice.happens(faults.repeats) {
                put(comes + dice.time(0..50_000), false);
            }
            if is_message && dice.happens(faults.reorders) {
                put(comes + dice.time(0..20_000), false);
                continue;
            }
            let busy_until = &mut link.busy_until[to as usize];
            *busy_until = comes.max(*busy_until);
            put(*busy_until, false);
            if !is_message {
                link.host_until[to as usize] = *busy_until;
            }
        }
        carried
    }
}

/// The frames of what was sent, each with its length.
pub fn frames(bytes: &[u8]) -> impl Iterator<Item = &[u8]> {
    let mut rest = bytes;
    std::iter::from_fn(move || {
        let length = u64::from_le_bytes(*rest.first_chunk::<PREFIX>()?);
        let end = PREFIX + usize::try_from(length).ok()?;
        let (frame, after) = rest.split_at_checked(end)?;
        rest = after;
        Some(frame)
    })
}
