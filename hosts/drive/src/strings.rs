//! Strings for both decoders: random ones, and real messages that were changed. What a decoder
//! takes has to be the spelling of a message, so the message that it found is spelled again; what
//! it refuses has to change nothing.
use crate::Found;
use crate::ffi;
use crate::lossy::Draws;
use crate::strangers::memory;
use std::ptr;

const DONE: u32 = 0;
const REPLY_LOST: u32 = 1;
const BAD_MESSAGE: u32 = 8;
const ALARM: u32 = 12;
const RANGE_S_S: u32 = 4;
const RANGE_I_N: u32 = 6;

/// How much memory the strings may cost, in bytes: none of them is longer than a hundred bytes or
/// so, whatever counts and lengths it promises.
const MAX_MEMORY: u64 = 16 << 20;

/// The kinds of messages.
const KINDS: [u8; 17] = [0, 1, 2, 3, 4, 5, 6, 7, 8, 9, 10, 11, 16, 17, 18, 19, 20];

/// The longest random string.
const LONGEST: u64 = 120;

type Respell = unsafe extern "C" fn(*const u8, usize, *mut u8, usize) -> ffi::Reply;

unsafe extern "C" {
    fn krl_respell_to_server(
        bytes: *const u8,
        length: usize,
        spelling: *mut u8,
        room: usize,
    ) -> ffi::Reply;
    fn krl_respell_to_client(
        bytes: *const u8,
        length: usize,
        spelling: *mut u8,
        room: usize,
    ) -> ffi::Reply;
}

/// A server and a client that take strings, and what went wrong.
struct Table {
    server: ffi::Handle,
    client: ffi::Handle,
    spelling: Vec<u8>,
    taken: u64,
    wrong: u64,
}

pub fn run(count: u64, changed: u64) -> Found {
    let mut table = Table::open();
    let (to_server, to_client) = table.real_messages();
    println!("{} real messages to a server, {} to a client", to_server.len(), to_client.len());
    let (mut draws, before) = (Draws(1), memory()?);
    for _ in 0..count {
        let string = random(&mut draws);
        table.try_both(&string);
    }
    println!("{count} random strings to both: {} taken, {} wrong", table.taken, table.wrong);
    let random_wrong = std::mem::take(&mut table.wrong);
    table.taken = 0;
    for _ in 0..changed {
        let messages = if draws.below(2) == 0 { &to_server } else { &to_client };
        let string = change(pick(messages, &mut draws), pick(messages, &mut draws), &mut draws);
        table.try_both(&string);
    }
    println!("{changed} changed messages to both: {} taken, {} wrong", table.taken, table.wrong);
    table.close();
    let grown = memory()?.saturating_sub(before);
    println!("{} wrong in all, {} kB more memory", random_wrong + table.wrong, grown >> 10);
    Ok(random_wrong + table.wrong == 0 && grown < MAX_MEMORY)
}

fn pick<'m>(messages: &'m [Vec<u8>], draws: &mut Draws) -> &'m [u8] {
    &messages[draws.place(messages.len())]
}

/// A string that often begins as a message does.
fn random(draws: &mut Draws) -> Vec<u8> {
    let length = draws.below(LONGEST);
    let mut string: Vec<u8> = (0..length).map(|_| (draws.next() >> 56) as u8).collect();
    if draws.below(4) > 0 && string.len() > 18 {
        string[0] = 1;
        string[1] = KINDS[draws.place(KINDS.len())];
        // Small numbers make spans and counts that can be.
        for byte in &mut string[2..] {
            *byte = if draws.below(3) == 0 { *byte % 9 } else { 0 };
        }
    }
    string
}

/// The message with a bit, a byte, its length or its end changed.
fn change(message: &[u8], other: &[u8], draws: &mut Draws) -> Vec<u8> {
    let mut string = message.to_vec();
    let at = draws.place(string.len());
    match draws.below(6) {
        0 => string[at] ^= 1 << draws.below(8),
        1 => string[at] = (draws.next() >> 56) as u8,
        2 => string.truncate(at),
        3 => string.push((draws.next() >> 56) as u8),
        4 => drop(string.remove(at)),
        _ => {
            string.truncate(at);
            string.extend_from_slice(&other[at.min(other.len())..]);
        }
    }
    string
}

fn closed() -> ffi::Handle {
    ffi::Handle { is_open: false, at: ptr::null_mut() }
}

impl Table {
    fn open() -> Table {
        let (mut server, mut client) = (closed(), closed());
        // SAFETY: the handle and what it is given live longer than the call.
        let opened = unsafe {
            ffi::krl_server_open(
                &raw mut server,
                krl::operate::Room::default().rows(),
                krl::operate::Reach::MAX.slots(),
                0,
                ptr::null(),
                0,
                ptr::null(),
                0,
            )
        };
        assert_eq!(opened.code, DONE, "a server opens");
        // SAFETY: the handle and what it is given live longer than the call.
        let opened = unsafe { ffi::krl_client_open(&raw mut client, 0, 1) };
        assert_eq!(opened.code, DONE, "a client opens");
        Table { server, client, spelling: vec![0; 1 << 16], taken: 0, wrong: 0 }
    }

    fn close(&mut self) {
        // SAFETY: the handle and what it is given live longer than the call.
        unsafe {
            ffi::krl_close(&raw mut self.server);
            ffi::krl_close(&raw mut self.client);
        }
    }

    /// What a client and a server send each other in a short life.
    fn real_messages(&mut self) -> (Vec<Vec<u8>>, Vec<Vec<u8>>) {
        let (mut up, mut down) = (Vec::new(), Vec::new());
        let client: *mut ffi::Handle = &raw mut self.client;
        self.settle(&mut up, &mut down);
        for key in [10, 20, 30, 40] {
            // SAFETY: the handle and what it is given live longer than the call.
            unsafe { ffi::krl_client_lock(client, key, key + 1, RANGE_I_N) };
            self.settle(&mut up, &mut down);
            // SAFETY: the handle and what it is given live longer than the call.
            unsafe { ffi::krl_client_insert(client, key, [1, 2, 3].as_ptr(), 3) };
            self.settle(&mut up, &mut down);
        }
        // SAFETY: the handle and what it is given live longer than the call.
        unsafe { ffi::krl_client_lock(client, 0, 35, RANGE_S_S) };
        self.settle(&mut up, &mut down);
        // SAFETY: the handle and what it is given live longer than the call.
        unsafe { ffi::krl_client_put(client, 20, [9; 32].as_ptr(), 32) };
        self.settle(&mut up, &mut down);
        // SAFETY: the handle and what it is given live longer than the call.
        unsafe { ffi::krl_client_forget(client, 0, 15) };
        self.settle(&mut up, &mut down);
        // SAFETY: the handle and what it is given live longer than the call.
        unsafe { ffi::krl_client_lock(client, 99, 100, 3) };
        self.settle(&mut up, &mut down);
        // SAFETY: the handle and what it is given live longer than the call.
        unsafe { ffi::krl_client_tick(client) };
        self.settle(&mut up, &mut down);
        (up, down)
    }

    /// Hands messages over until nobody has one to send.
    fn settle(&mut self, up: &mut Vec<Vec<u8>>, down: &mut Vec<Vec<u8>>) {
        loop {
            let sent = take(&mut self.client);
            for message in &sent {
                // SAFETY: the handle and what it is given live longer than the call.
                unsafe {
                    ffi::krl_server_step(&raw mut self.server, message.as_ptr(), message.len())
                };
            }
            let answers = take(&mut self.server);
            for message in &answers {
                // SAFETY: the handle and what it is given live longer than the call.
                unsafe {
                    ffi::krl_client_step(&raw mut self.client, message.as_ptr(), message.len())
                };
            }
            if sent.is_empty() && answers.is_empty() {
                return;
            }
            up.extend(sent);
            down.extend(answers);
        }
    }

    fn try_both(&mut self, string: &[u8]) {
        let is_spelling = self.respells(string, krl_respell_to_server);
        // SAFETY: the handle and what it is given live longer than the call.
        let stepped =
            unsafe { ffi::krl_server_step(&raw mut self.server, string.as_ptr(), string.len()) };
        self.judge(string, is_spelling, stepped.reply.code);
        if stepped.reply.code == BAD_MESSAGE && stepped.change.kind != 0 {
            self.wrong += 1;
        }
        let is_spelling = self.respells(string, krl_respell_to_client);
        // SAFETY: the handle and what it is given live longer than the call.
        let reply =
            unsafe { ffi::krl_client_step(&raw mut self.client, string.as_ptr(), string.len()) };
        self.judge(string, is_spelling, reply.code);
        // What they send in answer would pile up.
        take(&mut self.server);
        take(&mut self.client);
    }

    /// Whether the string is taken. If so it is spelled again, and has to be the same.
    fn respells(&mut self, string: &[u8], respell: Respell) -> bool {
        let room = self.spelling.len();
        // SAFETY: the handle and what it is given live longer than the call.
        let reply =
            unsafe { respell(string.as_ptr(), string.len(), self.spelling.as_mut_ptr(), room) };
        let is_same = self.spelling.get(..length_of(reply.detail)) == Some(string);
        if reply.code == DONE && !is_same {
            eprintln!("WRONG: taken, and spelled otherwise: {string:02x?}");
            self.wrong += 1;
        }
        reply.code == DONE
    }

    fn judge(&mut self, string: &[u8], is_spelling: bool, code: u32) {
        self.taken += u64::from(is_spelling);
        let is_taken = matches!(code, DONE | REPLY_LOST | ALARM);
        if is_taken != is_spelling || !is_taken && code != BAD_MESSAGE {
            eprintln!("WRONG: code {code} for {string:02x?}");
            self.wrong += 1;
        }
    }
}

/// The length that the library reports. One beyond all memory is no length of anything.
fn length_of(detail: u64) -> usize {
    usize::try_from(detail).unwrap_or(usize::MAX)
}

/// What waits to be sent, message by message. Nothing here has a disk: what was reported counts as
/// kept.
fn take(handle: &mut ffi::Handle) -> Vec<Vec<u8>> {
    // SAFETY: the handle lives longer than the calls.
    unsafe {
        let reported = ffi::krl_confirm(handle, 0).detail;
        ffi::krl_confirm(handle, reported);
    }
    // SAFETY: the handle and what it is given live longer than the call.
    let length = length_of(unsafe { ffi::krl_take(handle, ptr::null_mut(), 0) }.detail);
    let mut frames = vec![0; length];
    // SAFETY: the handle and what it is given live longer than the call.
    let reply = unsafe { ffi::krl_take(handle, frames.as_mut_ptr(), length) };
    assert_eq!(reply.code, DONE, "what waits is taken");
    let (mut messages, mut rest) = (Vec::new(), &frames[..]);
    while let Some((length, after)) = rest.split_first_chunk() {
        let (message, after) = after.split_at(length_of(u64::from_le_bytes(*length)));
        messages.push(message.to_vec());
        rest = after;
    }
    messages
}
