// A client that locks, reads what it is pushed, and scans its cache.
use crate::cache::{Cache, Part};
use crate::messages::{Ask, Holding, Mode, N, Push, Said, ToClient, ToServer, Told, Value};

pub struct Client {
    number: u64,
    incarnation: u64,
    epoch: u64,
    seen: u64,
    asked: u64,
    waits: bool,
    cache: Cache<Value>,
}

fn range_part(mode: Mode) -> Part {
    [Part::N, Part::S, Part::N, Part::X][mode.range as usize]
}

fn key_part(mode: Mode) -> Part {
    [Part::N, Part::S, Part::X][mode.key as usize]
}

// Whether these are one piece: side by side, with one range part, and each with its value.
fn is_one_piece(holdings: &[Holding]) -> bool {
    holdings.iter().all(|it| it.value.is_some())
        && holdings.windows(2).all(|two| two[0].hi == two[1].lo && two[0].mode.range == two[1].mode.range)
}

impl Client {
    pub fn start(number: u64, incarnation: u64) -> (Client, ToServer) {
        let cache = Cache::new();
        let client = Client { number, incarnation, epoch: 0, seen: 0, asked: 0, waits: false, cache };
        let hello = client.says(Said::Hello);
        (client, hello)
    }

    fn says(&self, body: Said) -> ToServer {
        ToServer { client: self.number, incarnation: self.incarnation, body }
    }

    fn requests(&self, ask: Ask) -> ToServer {
        self.says(Said::Request { epoch: self.epoch, seen: self.seen, ask })
    }

    pub fn lock(&mut self, point: u64, hi: u64, mode: Mode) -> Option<ToServer> {
        if self.waits || self.epoch == 0 {
            return None;
        }
        self.asked += 1;
        self.waits = true;
        Some(self.requests(Ask::Lock { req: self.asked, point, hi, mode }))
    }

    pub fn forget(&mut self, lo: u64, hi: u64) -> ToServer {
        self.cache.lower(lo, hi, Part::N);
        self.requests(Ask::Release { lo, hi, mode: N })
    }

    pub fn scan(&self, lo: u64, hi: u64) -> Option<Vec<(u64, Value)>> {
        self.cache.scan(lo, hi)
    }

    pub fn step(&mut self, message: &ToClient) -> Option<ToServer> {
        if message.client != self.number || message.incarnation != self.incarnation {
            return None;
        }
        match &message.body {
            Told::Epoch { epoch } if *epoch > self.epoch => {
                self.epoch = *epoch;
                (self.seen, self.asked, self.waits) = (0, 0, false);
                Some(self.says(Said::Report { epoch: *epoch, ranges: Vec::new() }))
            }
            Told::Push { epoch, number, body } if *epoch == self.epoch && *number == self.seen + 1 => {
                self.accept(body);
                self.seen += 1;
                Some(self.requests(Ask::Ack))
            }
            Told::Push { epoch, number, .. } if *epoch == self.epoch && *number == self.seen => {
                Some(self.requests(Ask::Ack))
            }
            Told::Callback { epoch, lo, hi, .. } if *epoch == self.epoch => Some(self.forget(*lo, *hi)),
            Told::Epoch { .. } | Told::Push { .. } | Told::Callback { .. } => None,
        }
    }

    fn accept(&mut self, body: &Push) {
        match body {
            Push::Grant { req, holdings } => {
                self.adopt(&holdings.items[..holdings.len]);
                self.waits &= *req != self.asked;
            }
            Push::Absent { req, .. } => self.waits &= *req != self.asked,
            Push::Answer { holding, .. } => self.adopt(&[*holding]),
        }
    }

    fn adopt(&mut self, holdings: &[Holding]) {
        if let ([first, .., last], true) = (holdings, is_one_piece(holdings)) {
            let part = range_part(first.mode);
            let slots = holdings.iter().filter_map(|it| Some((it.lo, it.hi, key_part(it.mode), it.value?)));
            self.cache.adopt_all(first.lo, last.hi, part, slots);
            return;
        }
        for it in holdings {
            if let Some(value) = it.value {
                self.cache.adopt(it.lo, it.hi, range_part(it.mode), value);
            }
        }
    }
}
