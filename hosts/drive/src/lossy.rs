//! A network between clients and a server that drops, repeats and swaps one message in ten each.
use crate::sealed::Sealed;
use std::error::Error;
use std::io::{self, Read, Write};
use std::net::{Shutdown, SocketAddr, TcpListener, TcpStream};
use std::thread;
use std::time::Duration;

/// One message in this many is dropped, one repeated, and one sent after the next.
const ONE_IN: u64 = 10;

/// The longest message that is passed on.
const LONGEST: u64 = 1 << 21;

/// How long a message that is held back waits for the next one.
const TIMEOUT: Duration = Duration::from_secs(5);

/// What carries the messages on both sides of the network.
#[derive(Clone, Copy, Debug, PartialEq, Eq)]
pub enum Carrier {
    Plain,
    /// TLS ends in the network: below it no single message could be lost.
    Tls,
}

/// Both ends of a client's connection. They are shut with it.
struct Ends([TcpStream; 2]);

/// Starts the network, and returns where clients connect.
pub fn start(server: SocketAddr, carrier: Carrier) -> io::Result<SocketAddr> {
    start_joining(server, move |client, server, seed| {
        thread::spawn(move || {
            // If a handshake fails the client's connection ends too.
            let _ = join(client, server, carrier, seed);
        });
    })
}

/// Starts a network that joins each connection of a client to one of its own to the server, and
/// counts them from 1. If no server runs, the client's connection ends.
pub fn start_joining(
    server: SocketAddr,
    join: impl Fn(TcpStream, TcpStream, u64) + Send + 'static,
) -> io::Result<SocketAddr> {
    let listener = TcpListener::bind("127.0.0.1:0")?;
    let address = listener.local_addr()?;
    thread::spawn(move || {
        for (number, client) in (1..).zip(listener.incoming().flatten()) {
            if let Ok(server) = TcpStream::connect(server) {
                join(client, server, number);
            }
        }
    });
    Ok(address)
}

fn join(
    client: TcpStream,
    server: TcpStream,
    carrier: Carrier,
    seed: u64,
) -> Result<(), Box<dyn Error>> {
    let ends = Ends([client.try_clone()?, server.try_clone()?]);
    for end in &ends.0 {
        end.set_nodelay(true)?;
        end.set_write_timeout(Some(TIMEOUT))?;
    }
    match carrier {
        Carrier::Plain => {
            let (to_client, to_server) = (client.try_clone()?, server.try_clone()?);
            Ok(pass_both((client, to_server), (server, to_client), ends, seed)?)
        }
        Carrier::Tls => {
            let (client, number) = Sealed::accept(client)?;
            let server = Sealed::connect(server, number)?;
            let (to_client, to_server) = (client.try_clone()?, server.try_clone()?);
            Ok(pass_both((client, to_server), (server, to_client), ends, seed)?)
        }
    }
}

/// Passes messages on in both directions, until one side ends.
fn pass_both<S: Read + Write + Send + 'static>(
    there: (S, S),
    back: (S, S),
    ends: Ends,
    seed: u64,
) -> io::Result<()> {
    let of_both = ends.try_clone()?;
    thread::spawn(move || {
        pass(back.0, back.1, Draws(2 * seed + 1));
        drop(of_both);
    });
    pass(there.0, there.1, Draws(2 * seed));
    drop(ends);
    Ok(())
}

impl Ends {
    fn try_clone(&self) -> io::Result<Ends> {
        let Ends([client, server]) = self;
        Ok(Ends([client.try_clone()?, server.try_clone()?]))
    }
}

impl Drop for Ends {
    fn drop(&mut self) {
        for end in &self.0 {
            // One that its other side has ended is shut already.
            let _ = end.shutdown(Shutdown::Both);
        }
    }
}

/// Passes messages on until one side ends.
fn pass(mut from: impl Read, mut to: impl Write, mut draws: Draws) {
    let mut held: Option<Vec<u8>> = None;
    while let Some(frame) = read_frame(&mut from) {
        let frames = match draws.below(ONE_IN) {
            0 => Vec::new(),
            1 => [&frame[..], &frame[..]].concat(),
            2 if held.is_none() => {
                held = Some(frame);
                continue;
            }
            _ => frame,
        };
        let later = held.take().unwrap_or_default();
        if to.write_all(&[frames, later].concat()).is_err() {
            break;
        }
    }
}

/// A length and its message.
fn read_frame(stream: &mut impl Read) -> Option<Vec<u8>> {
    let mut length = [0; 8];
    stream.read_exact(&mut length).ok()?;
    let count = u64::from_le_bytes(length);
    if count > LONGEST {
        return None;
    }
    let mut frame = length.to_vec();
    stream.take(count).read_to_end(&mut frame).ok()?;
    (frame.len() as u64 == 8 + count).then_some(frame)
}

/// Numbers drawn from a seed (`SplitMix64`).
pub struct Draws(pub u64);

impl Draws {
    pub fn next(&mut self) -> u64 {
        self.0 = self.0.wrapping_add(0x9e37_79b9_7f4a_7c15);
        let mixed = (self.0 ^ (self.0 >> 30)).wrapping_mul(0xbf58_476d_1ce4_e5b9);
        let mixed = (mixed ^ (mixed >> 27)).wrapping_mul(0x94d0_49bb_1331_11eb);
        mixed ^ (mixed >> 31)
    }

    pub fn below(&mut self, limit: u64) -> u64 {
        self.next() % limit
    }

    /// A place in a list of this many.
    pub fn place(&mut self, count: usize) -> usize {
        usize::try_from(self.below(count as u64)).unwrap_or(0)
    }
}
