// The twin in Rust of calls.c: a server over the maps of Rust's library, sent the same, with the
// same lines.
//
// Its messages are no bytes. Its start builds the map of the index. Its report has only the range, without a key part
// for each row.
#[path = "../clock.rs"]
mod clock;
#[path = "../server/twin/messages.rs"]
mod messages;
#[path = "../server/twin/server.rs"]
mod server;

use clock::now;
use messages::{Ask, END, Mode, N, Op, RANGE_SS, RANGE_XX, Said, ToServer, value_of};
use server::Server;
use std::hint::black_box;

const BATCH: u64 = 1000;
const BATCHES: u64 = 20;
const STEP: u64 = 10;
const FIRST_SLOTS: u64 = 100;

struct Sender {
    number: u64,
    incarnation: u64,
    seen: u64,
    asked: u64,
    written: u64,
}

struct Bench {
    server: Server,
    entries: u64,
    word: u64,
}

fn key_of(place: u64) -> u64 {
    STEP * place + 9
}

impl Sender {
    fn new(number: u64, incarnation: u64) -> Sender {
        Sender { number, incarnation, seen: 0, asked: 0, written: 0 }
    }

    fn says(&self, body: Said) -> ToServer {
        ToServer { client: self.number, incarnation: self.incarnation, body }
    }

    fn lock(&mut self, epoch: u64, place: u64, slots: u64, mode: Mode) -> ToServer {
        self.asked += 1;
        self.seen += 1;
        let ask = Ask::Lock { req: self.asked, point: key_of(place), hi: key_of(place + slots - 1) + 1, mode };
        self.says(Said::Request { epoch, seen: self.seen - 1, ask })
    }

    fn release(&self, epoch: u64, lo: u64, hi: u64) -> ToServer {
        self.says(Said::Request { epoch, seen: self.seen, ask: Ask::Release { lo, hi, mode: N } })
    }

    fn write(&mut self, epoch: u64, op: Op) -> ToServer {
        self.written += 1;
        self.seen += 1;
        let ask = Ask::Write { number: self.written, op };
        self.says(Said::Request { epoch, seen: self.seen - 1, ask })
    }
}

impl Bench {
    fn next(&mut self) -> u64 {
        self.word = clock::next(self.word);
        self.word >> 33
    }

    fn print(&self, kind: &str, begun: u128, count: u64) {
        println!("{kind} {} {} {count}", self.entries, now() - begun);
    }

    fn tell(&mut self, messages: &[ToServer]) -> u64 {
        messages.iter().map(|message| black_box(self.server.step(black_box(message))).len() as u64).sum()
    }

    // Sends the messages, which are answered by this many, and prints the time.
    fn time(&mut self, kind: &str, messages: &[ToServer], count: u64, answered: u64) {
        let begun = now();
        let answers = self.tell(messages);
        self.print(kind, begun, count);
        assert_eq!(answers, answered, "{kind}: each message is answered as it should be");
    }

    fn time_locks(&mut self, kind: &str, sender: &mut Sender, among: u64) {
        let epoch = self.server.epoch;
        let mut batch = Vec::new();
        for _ in 0..BATCH {
            let place = self.next() % among;
            batch.push(sender.lock(epoch, place, 1, RANGE_SS));
            batch.push(sender.release(epoch, STEP * place, STEP * (place + 1)));
        }
        self.time(kind, &batch, BATCH, BATCH);
    }

    fn place_of(&self, n: u64, shift: u64) -> u64 {
        let apart = (self.entries - 1) / BATCH;
        377 * n % BATCH * apart + shift % apart
    }

    fn time_writes(&mut self, sender: &mut Sender) {
        let (epoch, shift) = (self.server.epoch, self.next());
        let places: Vec<u64> = (0..BATCH).map(|n| self.place_of(n, shift)).collect();
        let locks: Vec<_> = places.iter().map(|at| sender.lock(epoch, *at, 2, RANGE_XX)).collect();
        assert_eq!(self.tell(&locks), BATCH);
        let deletes: Vec<_> = places.iter().map(|at| sender.write(epoch, Op::Delete(key_of(*at)))).collect();
        self.time("delete", &deletes, BATCH, BATCH);
        let insert = |at: &u64| sender.write(epoch, Op::Insert(key_of(*at), value_of(*at)));
        let inserts: Vec<_> = places.iter().map(insert).collect();
        self.time("insert", &inserts, BATCH, BATCH);
        let release = sender.release(epoch, 0, END);
        self.tell(&[release]);
    }
}

// The server after a start that waits for the report of this client.
fn start(entries: u64, reader: &Sender) -> Bench {
    let begun = now();
    let mut server = Server::open(entries);
    let took = now() - begun;
    println!("start {entries} {took} 1");
    server.step(&reader.says(Said::Hello));
    Bench { server: Server::start(server.crash()), entries, word: 1 }
}

fn time_all(entries: u64) {
    let reader = Sender::new(0, 1);
    let mut writer = Sender::new(1, 1);
    let mut bench = start(entries, &reader);
    let report = reader.says(Said::Report { epoch: bench.server.epoch, ranges: vec![(0, END, RANGE_SS.range)] });
    bench.time("report", &[report], 1, 0);
    let again = Sender::new(0, 2).says(Said::Hello);
    bench.time("give-back", &[again], 1, 1);
    let hello = writer.says(Said::Hello);
    bench.time("hello", &[hello], 1, 1);
    for _ in 0..BATCHES {
        bench.time_locks("near", &mut writer, FIRST_SLOTS);
        bench.time_locks("far", &mut writer, entries);
        bench.time_writes(&mut writer);
    }
}

fn main() {
    time_all(1024);
    time_all(65536);
    time_all(1_048_576);
}
