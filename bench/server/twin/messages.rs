// Modes and messages, as plain data: of a push that is sent and not read, no field is read.
#![allow(dead_code)]

pub const END: u64 = u64::MAX - 1;
pub const N: Mode = Mode { range: 0, key: 0 };
pub const RANGE_SS: Mode = Mode { range: 1, key: 1 };
pub const RANGE_XX: Mode = Mode { range: 3, key: 2 };
pub const X: Mode = Mode { range: 0, key: 2 };

// A range part of N, S, I, X, and a key part of N, S, X: 0 is N, and each fits next to those whose
// bits it has.
#[derive(Clone, Copy, PartialEq, Eq)]
pub struct Mode {
    pub range: u8,
    pub key: u8,
}

const RANGE_FITS: [u8; 4] = [0b1111, 0b0011, 0b0101, 0b0001];
const RANGE_JOIN: [[u8; 4]; 4] = [[0, 1, 2, 3], [1, 1, 3, 3], [2, 3, 2, 3], [3, 3, 3, 3]];
const RANGE_CAP: [u8; 4] = [3, 1, 2, 0];
const KEY_FITS: [u8; 3] = [0b111, 0b011, 0b001];
const KEY_CAP: [u8; 3] = [2, 1, 0];

impl Mode {
    pub fn fits(self, other: Mode) -> bool {
        RANGE_FITS[self.range as usize] >> other.range & 1 == 1 && KEY_FITS[self.key as usize] >> other.key & 1 == 1
    }

    pub fn join(self, other: Mode) -> Mode {
        Mode { range: RANGE_JOIN[self.range as usize][other.range as usize], key: self.key.max(other.key) }
    }

    // The greatest mode that fits next to this one.
    pub fn cap(self) -> Mode {
        Mode { range: RANGE_CAP[self.range as usize], key: KEY_CAP[self.key as usize] }
    }

    pub fn needs_entry(self) -> bool {
        self.range == 0 && self.key != 0
    }
}

#[derive(Clone, Copy)]
pub struct Value {
    pub bytes: [u8; 32],
    pub len: u8,
}

pub fn value_of(number: u64) -> Value {
    let mut bytes = [0; 32];
    bytes[..8].copy_from_slice(&number.to_be_bytes());
    Value { bytes, len: 8 }
}

#[derive(Clone, Copy)]
pub struct Holding {
    pub lo: u64,
    pub hi: u64,
    pub mode: Mode,
    pub value: Option<Value>,
}

#[derive(Clone, Copy)]
pub struct Holdings {
    pub items: [Holding; 8],
    pub len: usize,
}

#[derive(Clone, Copy)]
pub enum Op {
    Insert(u64, Value),
    Put(u64, Value),
    Delete(u64),
}

impl Op {
    pub fn key(self) -> u64 {
        match self {
            Op::Insert(key, _) | Op::Put(key, _) | Op::Delete(key) => key,
        }
    }
}

#[derive(Clone, Copy, PartialEq, Eq)]
pub enum Outcome {
    Applied,
    Exists,
    Absent,
    NotHeld,
}

#[derive(Clone, Copy)]
pub enum Ask {
    Lock { req: u64, point: u64, hi: u64, mode: Mode },
    Write { number: u64, op: Op },
    Release { lo: u64, hi: u64, mode: Mode },
    Ack,
}

pub enum Said {
    Hello,
    Report { epoch: u64, ranges: Vec<(u64, u64, u8)> },
    Request { epoch: u64, seen: u64, ask: Ask },
}

pub struct ToServer {
    pub client: u64,
    pub incarnation: u64,
    pub body: Said,
}

#[derive(Clone, Copy)]
pub enum Push {
    Grant { req: u64, holdings: Holdings },
    Absent { req: u64, point: u64 },
    Answer { number: u64, outcome: Outcome, holding: Holding },
}

#[derive(Clone, Copy)]
pub enum Told {
    Epoch { epoch: u64 },
    Push { epoch: u64, number: u64, body: Push },
    Callback { epoch: u64, lo: u64, hi: u64, keep: Mode },
}

#[derive(Clone, Copy)]
pub struct ToClient {
    pub client: u64,
    pub incarnation: u64,
    pub body: Told,
}
