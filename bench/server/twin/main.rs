// The twin in Rust of main.rt.txt: the same server over the maps of Rust's library, with the same messages and the
// same lines. It has what these messages need.
#[path = "../../clock.rs"]
mod clock;
mod messages;
mod server;

use clock::{next, now};
use messages::{Ask, Mode, N, Op, RANGE_SS, RANGE_XX, Said, ToServer, X, value_of};
use server::Server;
use std::hint::black_box;

const SCAN: u64 = 101;
const RANGES: u64 = 1000;
const PLACES: u64 = 64;
const REQUESTS: u64 = 13;

struct Client {
    number: u64,
    incarnation: u64,
    epoch: u64,
    seen: u64,
    asked: u64,
    written: u64,
}

fn tell(server: &mut Server, message: &ToServer) -> u64 {
    black_box(server.step(black_box(message))).len() as u64
}

impl Client {
    fn new(number: u64, incarnation: u64, epoch: u64) -> Client {
        Client { number, incarnation, epoch, seen: 0, asked: 0, written: 0 }
    }

    fn says(&self, body: Said) -> ToServer {
        ToServer { client: self.number, incarnation: self.incarnation, body }
    }

    fn request(&self, ask: Ask) -> ToServer {
        self.says(Said::Request { epoch: self.epoch, seen: self.seen, ask })
    }

    fn hello(&self, server: &mut Server) -> u64 {
        tell(server, &self.says(Said::Hello))
    }

    fn lock(&mut self, server: &mut Server, point: u64, hi: u64, mode: Mode) -> u64 {
        self.asked += 1;
        tell(server, &self.request(Ask::Lock { req: self.asked, point, hi, mode }))
    }

    fn get(&mut self, server: &mut Server, point: u64, hi: u64, mode: Mode) -> u64 {
        let sent = self.lock(server, point, hi, mode);
        self.seen += sent;
        sent
    }

    fn write(&mut self, server: &mut Server, op: Op) -> u64 {
        self.written += 1;
        let sent = tell(server, &self.request(Ask::Write { number: self.written, op }));
        self.seen += sent;
        sent
    }

    fn release(&self, server: &mut Server, i: u64, slots: u64) -> u64 {
        tell(server, &self.request(Ask::Release { lo: 10 * i, hi: 10 * (i + slots), mode: N }))
    }
}

fn pick(word: u64, entries: u64) -> u64 {
    (word >> 33) % (entries - SCAN)
}

fn place(word: u64, n: u64, entries: u64) -> u64 {
    let apart = entries / PLACES;
    (37 * n % PLACES * apart + (word >> 33) % apart) % (entries - 1)
}

fn print(kind: &str, entries: u64, nanos: u128, steps: u64, sent: u64) {
    println!("{kind} {entries} {nanos} {steps} {sent}");
}

fn scans(server: &mut Server, entries: u64, by_ranges: bool) {
    let mut client = Client::new(u64::from(by_ranges), 1, server.epoch);
    client.hello(server);
    let (mut locked, mut released, mut sent, mut last, mut word) = (0, 0, 0, 0, 1);
    for _ in 0..200 {
        word = next(word);
        let i = pick(word, entries);
        let start = now();
        sent += if by_ranges {
            let hi = 10 * (i + SCAN);
            (0..REQUESTS).map(|n| client.get(server, 10 * (i + 8 * n) + 3, hi, RANGE_SS)).sum::<u64>()
        } else {
            (0..SCAN).map(|n| 10 * (i + n) + 3).map(|at| client.get(server, at, at + 1, RANGE_SS)).sum::<u64>()
        };
        let middle = now();
        last += client.release(server, i, SCAN);
        locked += middle - start;
        released += now() - middle;
    }
    let words = if by_ranges { ["scan-by-13", "release-of-13"] } else { ["scan-by-101", "release-of-101"] };
    print(words[0], entries, locked, 200, sent);
    print(words[1], entries, released, 200, last);
}

fn writes(server: &mut Server, entries: u64) {
    let mut client = Client::new(2, 1, server.epoch);
    client.hello(server);
    let (mut took, mut sent, mut word) = ([0; 3], [0; 3], 1);
    for _ in 0..20 {
        word = next(word);
        for n in 0..PLACES {
            let i = place(word, n, entries);
            for at in [10 * i + 9, 10 * i + 19] {
                client.get(server, at, at + 1, RANGE_XX);
            }
        }
        for kind in 0..3 {
            let start = now();
            for n in 0..PLACES {
                let key = 10 * place(word, n, entries) + 9;
                let ops = [Op::Delete(key), Op::Insert(key, value_of(n)), Op::Put(key, value_of(n))];
                sent[kind] += client.write(server, ops[kind]);
            }
            took[kind] += now() - start;
        }
        client.release(server, 0, 65536);
    }
    for (kind, word) in ["delete", "insert", "put"].iter().enumerate() {
        print(word, entries, took[kind], 20 * PLACES, sent[kind]);
    }
}

fn acks(server: &mut Server, entries: u64, incarnation: u64, apart: bool) {
    let mut holder = Client::new(0, incarnation, server.epoch);
    let at = |number| 10 * place(1, if apart { number } else { 1 }, entries) + 9;
    holder.hello(server);
    for number in 1..64 {
        holder.get(server, at(number), at(number) + 1, RANGE_XX);
    }
    for number in 1..64 {
        let mut client = Client::new(number, incarnation, server.epoch);
        client.hello(server);
        client.lock(server, at(number), at(number) + 1, X);
    }
    let ack = holder.request(Ask::Ack);
    let (mut took, mut sent) = (0, 0);
    for _ in 0..1000 {
        let start = now();
        sent += tell(server, &ack);
        took += now() - start;
    }
    print(if apart { "ack-at-63-slots" } else { "ack-at-one-slot" }, entries, took, 1000, sent);
}

fn crowds(server: &mut Server, entries: u64) {
    let (mut took, mut sent, mut word) = (0, 0, 1);
    for round in 0..20 {
        word = next(word);
        let point = 10 * pick(word, entries) + 9;
        for number in 0..64 {
            Client::new(number, round + 4, server.epoch).hello(server);
        }
        for number in 0..64 {
            Client::new(number, round + 4, server.epoch).get(server, point, point + 1, RANGE_SS);
        }
        let start = now();
        for number in 0..64 {
            let mut client = Client::new(number, round + 4, server.epoch);
            (client.seen, client.asked) = (1, 1);
            sent += client.lock(server, point, point + 1, X);
        }
        took += now() - start;
    }
    print("wait-of-64", entries, took, 20 * 64, sent);
}

fn restart(server: Server, entries: u64) {
    let durable = server.crash();
    let start = now();
    let mut server = Server::start(durable);
    print("start", entries, now() - start, 1, server.epoch);
    let (mut took, mut sent) = (0, 0);
    for number in 0..64 {
        let first = number * RANGES % (entries - RANGES);
        let ranges = (first..first + RANGES).map(|n| (10 * n, 10 * n + 10, 1)).collect();
        let message = Client::new(number, 23, server.epoch).says(Said::Report { epoch: server.epoch, ranges });
        let start = now();
        sent += tell(&mut server, &message);
        took += now() - start;
    }
    print("report-of-1000", entries, took, 64, sent);
}

fn times(entries: u64) {
    let mut server = Server::open(entries);
    scans(&mut server, entries, false);
    scans(&mut server, entries, true);
    writes(&mut server, entries);
    acks(&mut server, entries, 2, true);
    acks(&mut server, entries, 3, false);
    crowds(&mut server, entries);
    restart(server, entries);
}

fn main() {
    times(1024);
    times(65536);
}
