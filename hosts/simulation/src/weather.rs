//! What a world is like: what there is in it, what goes wrong, and how often. Each world has its
//! own mixture, since what goes wrong all the time hides what seldom goes wrong.
use crate::dice::Dice;
use crate::network::Faults;
use krl::Leases;
use std::ops::Range;
use std::time::Duration;

/// Something that goes wrong, or that an operator does.
#[derive(Clone, Copy, Debug, PartialEq, Eq)]
pub enum Fault {
    /// A server's process is killed.
    KillServer,
    /// An operator ends a server, and starts it again.
    StopServer,
    /// A server stands still, and continues.
    FreezeServer,
    /// The server that stands by starts, though the other one may still run.
    TakeOver,
    /// A client's process is killed.
    KillClient,
    /// A client's machine loses its power: nobody learns of it.
    LosePower,
    /// A client stands still, and continues.
    FreezeClient,
    /// A client can't reach a server any more, and neither of them learns of it.
    Cut,
    /// It reaches them again.
    Mend,
    /// A connection breaks.
    Break,
    /// Something between a client and the servers rejects its connections for a while.
    Reject,
    /// An operator evicts a client whose process is dead.
    Evict,
    /// The store is copied.
    CopyStore,
    /// The copy is put in the place of the store.
    PutBack,
}

/// What a caller asks of its client.
#[derive(Clone, Copy, Debug, PartialEq, Eq)]
pub enum Ask {
    /// The rows of a range.
    Read,
    /// A write.
    Write,
    /// The rows of a range, which it pins.
    Hold,
    /// To give back a range.
    Forget,
    /// To learn of the next change of a range.
    Watch,
    /// To leave.
    Leave,
}

impl Fault {
    /// All of them.
    pub const ALL: [Fault; 14] = [
        Fault::KillServer,
        Fault::StopServer,
        Fault::FreezeServer,
        Fault::TakeOver,
        Fault::KillClient,
        Fault::LosePower,
        Fault::FreezeClient,
        Fault::Cut,
        Fault::Mend,
        Fault::Break,
        Fault::Reject,
        Fault::Evict,
        Fault::CopyStore,
        Fault::PutBack,
    ];
}

impl Ask {
    /// All of them.
    pub const ALL: [Ask; 6] =
        [Ask::Read, Ask::Write, Ask::Hold, Ask::Forget, Ask::Watch, Ask::Leave];
}

/// What servers grant.
#[derive(Clone, Copy, Debug, PartialEq, Eq)]
pub enum Terms {
    /// No leases.
    Endless,
    /// Leases of one length.
    One(Leases),
    /// Each server its own, or none.
    Each,
}

/// What clients keep of what they read.
#[derive(Clone, Copy, Debug, PartialEq, Eq)]
pub enum Keeps {
    /// All, until another client writes it.
    All,
    /// What others do not write more often than the client reads it again.
    WhatPays,
}

/// What a world is like.
#[derive(Clone, Debug)]
pub struct Weather {
    /// How many clients have callers.
    pub clients: usize,
    /// On how many machines a server may run.
    pub sites: usize,
    /// The keys lie below this one.
    pub keys: u64,
    /// What servers grant.
    pub terms: Terms,
    /// How many clients have a host that does not sign.
    pub unsigned: usize,
    /// The last client has the number of the first one.
    pub has_second_process: bool,
    /// Clients show who they are.
    pub is_identified: bool,
    /// The store keeps its history.
    pub has_history: bool,
    /// For how many rows the first server has room, if that is few.
    pub room: Option<usize>,
    /// In a thousand starts of a client, this many have a clock that is days ahead.
    pub far_ahead: u64,
    /// How often a commit fails, in ten thousand, and how often it takes seconds.
    pub store_fails: u64,
    /// See above.
    pub store_hangs: u64,
    /// How the network carries frames.
    pub network: Faults,
    /// How long a frame is on its way, in microseconds.
    pub latency: Range<u64>,
    /// Between two faults, in microseconds.
    pub between_faults: Range<u64>,
    /// How often each fault is drawn.
    pub faults: [u64; Fault::ALL.len()],
    /// How often a caller asks for each thing.
    pub asks: [u64; Ask::ALL.len()],
    /// How long a caller pauses, in microseconds, for each client.
    pub pauses: Vec<Range<u64>>,
    /// How long a pin lives, in microseconds.
    pub pin_lives: Range<u64>,
    /// What clients keep.
    pub keeps: Keeps,
}

impl Weather {
    /// Draws what a world is like.
    #[must_use]
    pub fn draw(dice: &mut Dice) -> Weather {
        let clients = 2 + dice.below(7);
        let terms = match dice.among(0..10) {
            0 => Terms::Endless,
            1..3 => Terms::Each,
            _ => Terms::One(leases(dice)),
        };
        let is_leased = matches!(terms, Terms::One(_));
        let unsigned = if dice.happens(200) { 1 + dice.below(clients) } else { 0 };
        let has_second_process = is_leased && unsigned == 0 && clients > 2 && dice.happens(200);
        let sites = if dice.happens(400) { 2 } else { 1 };
        let keys = dice.pick(&[3, 8, 16, 16, 40]);
        let has_history = dice.happens(700);
        let mut weather = Weather {
            clients,
            sites,
            keys,
            terms,
            unsigned,
            has_second_process,
            is_identified: dice.happens(300),
            has_history,
            room: (keys > 4 && dice.happens(150)).then(|| 2 + dice.below(4)),
            far_ahead: if terms != Terms::Each && dice.happens(50) { 200 } else { 0 },
            store_fails: if dice.happens(400) { dice.pick(&[5, 50]) } else { 0 },
            store_hangs: if dice.happens(500) { dice.pick(&[5, 20, 100]) } else { 0 },
            network: network(dice),
            latency: dice.pick(&[50..300, 50..2_000, 50..2_000, 1_000..30_000]),
            between_faults: dice.pick(&[10_000..200_000, 10_000..1_500_000, 100_000..6_000_000]),
            faults: [0; Fault::ALL.len()],
            asks: [0; Ask::ALL.len()],
            pauses: (0..clients).map(|_| pause(dice)).collect(),
            pin_lives: dice.pick(&[100..20_000, 1_000..400_000]),
            keeps: Keeps::All,
        };
        weather.draw_faults(dice);
        weather.draw_asks(dice);
        if dice.happens(300) {
            weather.keeps = Keeps::WhatPays;
        }
        weather
    }

    fn draw_faults(&mut self, dice: &mut Dice) {
        for weight in &mut self.faults {
            *weight = if dice.happens(450) { 0 } else { dice.among(1..5) };
        }
        self.weigh(Fault::Mend, 4);
        if self.sites == 1 {
            self.weigh(Fault::TakeOver, 0);
        }
        if dice.happens(850) {
            self.weigh(Fault::Reject, 0);
        }
        // An operator's word that no process is left has to be true.
        if self.has_second_process {
            self.weigh(Fault::Evict, 0);
        }
        // A store that went back is recognized by its history. With one that knows leases without
        // an end, an operator would have to evict each client.
        let goes_back = self.has_history && self.terms != Terms::Each && dice.happens(250);
        self.weigh(Fault::CopyStore, if goes_back { 3 } else { 0 });
        self.weigh(Fault::PutBack, if goes_back { 2 } else { 0 });
    }

    fn draw_asks(&mut self, dice: &mut Dice) {
        self.asks[Ask::Read as usize] = dice.among(1..30);
        self.asks[Ask::Write as usize] = dice.among(2..20);
        for (ask, most) in [(Ask::Hold, 10), (Ask::Forget, 5), (Ask::Watch, 5)] {
            self.asks[ask as usize] = if dice.happens(500) { dice.among(1..most) } else { 0 };
        }
        self.asks[Ask::Leave as usize] = u64::from(dice.happens(300));
    }

    fn weigh(&mut self, fault: Fault, weight: u64) {
        self.faults[fault as usize] = weight;
    }

    /// Nothing goes wrong any more.
    pub fn clear(&mut self) {
        (self.store_fails, self.store_hangs, self.far_ahead) = (0, 0, 0);
        self.network = Faults::default();
        self.faults = [0; Fault::ALL.len()];
        // Each client reads and writes soon. A client that contends all the time may wait for long.
        self.latency = 50..2_000;
        self.pauses.fill(20_000..200_000);
        self.pin_lives = 100..20_000;
        self.asks[Ask::Write as usize] = self.asks.iter().sum::<u64>().div_ceil(3);
        self.asks[Ask::Leave as usize] = 0;
    }
}

/// Leases of some length.
pub fn leases(dice: &mut Dice) -> Leases {
    let milliseconds = dice.pick(&[400, 1000, 2000, 2000, 4000]);
    Leases::of(Duration::from_millis(milliseconds)).expect("leases may be so long")
}

fn network(dice: &mut Dice) -> Faults {
    if dice.happens(400) {
        return Faults::default();
    }
    let [loses, repeats, reorders] = [100, 50, 200].map(|most| dice.among(0..most));
    Faults { loses, repeats, reorders }
}

/// A client is busy, or hasty, or idle.
fn pause(dice: &mut Dice) -> Range<u64> {
    dice.pick(&[1..100, 500..20_000, 500..50_000, 10_000..300_000])
}
