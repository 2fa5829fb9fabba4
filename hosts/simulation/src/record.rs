//! What happened in a run.
use std::fmt;
use std::time::Duration;

/// Where something happens.
#[derive(Clone, Copy, Debug, PartialEq, Eq, PartialOrd, Ord)]
pub enum Node {
    /// A client's machine.
    Client(usize),
    /// A machine on which a server may run.
    Server(usize),
}

/// Whether what is delivered is taken.
#[derive(Clone, Copy, Debug, PartialEq, Eq)]
pub enum Fate {
    /// Its receiver takes it.
    Taken,
    /// Its receiver is gone, or it was lost on its way.
    Lost,
}

/// Something that happened.
#[derive(Clone, Debug, PartialEq, Eq)]
pub enum Happened {
    /// The delivery of a frame.
    Delivery(Delivery),
    /// Something at one machine.
    At(Node, String),
    /// Something about all of them.
    World(String),
}

/// The delivery of a frame.
#[derive(Clone, Debug, PartialEq, Eq)]
pub struct Delivery {
    /// Frames are numbered as they are sent.
    pub number: u64,
    /// Which machine sent it.
    pub from: Node,
    /// To which machine it comes.
    pub to: Node,
    /// Whether it is taken.
    pub fate: Fate,
    /// The frame in words.
    pub what: String,
}

/// A line of the record.
#[derive(Clone, Debug, PartialEq, Eq)]
pub struct Line {
    /// When it happened.
    pub moment: Duration,
    /// What happened.
    pub happened: Happened,
}

/// All that happened: a number that stands for it, and the lines if somebody wants them.
#[derive(Debug)]
pub struct Record {
    fingerprint: u64,
    lines: Option<Vec<Line>>,
}

impl Record {
    /// An empty record.
    #[must_use]
    pub fn new(keeps_lines: bool) -> Record {
        Record { fingerprint: 0xcbf2_9ce4_8422_2325, lines: keeps_lines.then(Vec::new) }
    }

    /// A number that two runs have in common if all that happened was the same.
    #[must_use]
    pub fn fingerprint(&self) -> u64 {
        self.fingerprint
    }

    /// The lines, if they are kept.
    #[must_use]
    pub fn lines(self) -> Vec<Line> {
        self.lines.unwrap_or_default()
    }

    /// A part of what happens.
    pub fn mix(&mut self, number: u64) {
        let mixed = (self.fingerprint ^ number).wrapping_mul(0x9FB2_1C65_1E98_DF25);
        self.fingerprint = mixed ^ (mixed >> 29);
    }

    /// A frame is a part of what happens.
    pub fn mix_bytes(&mut self, bytes: &[u8]) {
        self.mix(bytes.len() as u64);
        for chunk in bytes.chunks(8) {
            let mut word = [0; 8];
            word[..chunk.len()].copy_from_slice(chunk);
            self.mix(u64::from_le_bytes(word));
        }
    }

    /// Notes a line, if lines are kept. The moment and what distinguishes such lines is mixed in.
    pub fn note(&mut self, moment: Duration, parts: &[u64], line: impl FnOnce() -> Happened) {
        self.mix(u64::try_from(moment.as_nanos()).unwrap_or(u64::MAX));
        for part in parts {
            self.mix(*part);
        }
        if let Some(lines) = &mut self.lines {
            lines.push(Line { moment, happened: line() });
        }
    }
}

impl fmt::Display for Node {
    fn fmt(&self, f: &mut fmt::Formatter<'_>) -> fmt::Result {
        match self {
            Node::Client(client) => write!(f, "client {client}"),
            Node::Server(site) => write!(f, "server {site}"),
        }
    }
}

impl fmt::Display for Line {
    fn fmt(&self, f: &mut fmt::Formatter<'_>) -> fmt::Result {
        let milliseconds = self.moment.as_secs_f64() * 1000.0;
        write!(f, "{milliseconds:.3} ms: ")?;
        match &self.happened {
            Happened::Delivery(Delivery { number, from, to, fate, what }) => {
                let lost = if *fate == Fate::Lost { ", lost" } else { "" };
                write!(f, "{number}, {from} to {to}: {what}{lost}")
            }
            Happened::At(node, what) => write!(f, "{node} {what}"),
            Happened::World(what) => write!(f, "{what}"),
        }
    }
}
