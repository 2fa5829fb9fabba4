// The twin in Rust of main.rt.txt: a client and a server over the maps of Rust's library, in one
// process, and the same lines. The server and the cache are those of the twins next to this one.
// Not all that the others have is called here.
#[allow(dead_code)]
#[path = "../../cache/twin/cache.rs"]
mod cache;
mod client;
#[path = "../../clock.rs"]
mod clock;
#[path = "../../server/twin/messages.rs"]
mod messages;
#[allow(dead_code)]
#[path = "../../server/twin/server.rs"]
mod server;

use client::Client;
use clock::{next, now};
use messages::{RANGE_SS, ToServer};
use server::Server;
use std::hint::black_box;

const ROWS: u64 = 100;
const SLOTS: u64 = 101;

struct Session {
    server: Server,
    client: Client,
    messages: u64,
}

impl Session {
    // A server on so many entries, and a client that has joined it.
    fn open(entries: u64) -> Session {
        let (client, hello) = Client::start(0, 1);
        let mut session = Session { server: Server::open(entries), client, messages: 0 };
        session.settle(Some(hello));
        session
    }

    // Hands over these messages, and all that follows.
    fn settle(&mut self, first: Option<ToServer>) {
        let mut waiting: Vec<ToServer> = first.into_iter().collect();
        while !waiting.is_empty() {
            let mut said = Vec::new();
            for message in &waiting {
                let out = black_box(self.server.step(message));
                self.messages += 1 + out.len() as u64;
                for reply in &out {
                    said.extend(self.client.step(reply));
                }
            }
            waiting = said;
        }
    }

    fn lock(&mut self, point: u64, hi: u64) -> u64 {
        let asked = self.client.lock(point, hi, RANGE_SS);
        let done = u64::from(asked.is_some());
        self.settle(asked);
        done
    }

    fn forget(&mut self, lo: u64, hi: u64) -> u64 {
        let said = self.client.forget(lo, hi);
        self.settle(Some(said));
        1
    }

    fn rows(&self, lo: u64, hi: u64) -> u64 {
        self.client.scan(lo, hi).map_or(0, |rows| black_box(rows).len() as u64)
    }
}

fn lock_scan(session: &mut Session, i: u64, step: u64) -> u64 {
    let mut sum = 0;
    for n in (0..SLOTS).step_by(step as usize) {
        let point = 10 * (i + n) + 3;
        sum += session.lock(point, if step == 1 { point + 1 } else { 10 * (i + SLOTS) });
    }
    sum
}

fn scans(session: &mut Session, entries: u64, step: u64) {
    let (mut took, mut sum, mut word) = ([0; 3], [0; 3], 1);
    for _ in 0..200 {
        word = next(word);
        let i = (word >> 33) % (entries - SLOTS);
        let start = now();
        sum[0] += lock_scan(session, i, step);
        let middle = now();
        sum[1] += (0..10).map(|_| session.rows(10 * i + 1, 10 * (i + ROWS))).sum::<u64>();
        let late = now();
        sum[2] += session.forget(10 * i, 10 * (i + SLOTS));
        took[0] += middle - start;
        took[1] += late - middle;
        took[2] += now() - late;
    }
    let by = if step > 1 { 13 } else { 101 };
    println!("scan-by-{by} {entries} {} 200 {}", took[0], sum[0]);
    println!("row-by-{by} {entries} {} {} {}", took[1], sum[1], sum[1]);
    println!("release-of-{by} {entries} {} 200 {}", took[2], sum[2]);
}

fn times(entries: u64) {
    let mut session = Session::open(entries);
    scans(&mut session, entries, 1);
    scans(&mut session, entries, 8);
    println!("messages {entries} 1 1 {}", session.messages);
}

fn main() {
    times(1024);
    times(65536);
}
