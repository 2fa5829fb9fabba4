//! A network between clients and a server that loses nothing, and delays everything by the same
//! time.
use crate::lossy::start_joining;
use std::io::{self, Read, Write};
use std::net::{Shutdown, SocketAddr, TcpStream};
use std::sync::mpsc::{Receiver, Sender, channel};
use std::thread;
use std::time::{Duration, Instant};

/// How much is read at once.
const GULP: usize = 1 << 16;

/// What came, and when it is to leave.
type Due = (Instant, Vec<u8>);

/// Starts the network, and returns where clients connect. Everything that is sent takes this long
/// each way.
pub fn start(server: SocketAddr, delay: Duration) -> io::Result<SocketAddr> {
    start_joining(server, move |client, server, _| {
        // A connection that can't be used ends.
        let _ = join(&client, &server, delay);
    })
}

fn join(client: &TcpStream, server: &TcpStream, delay: Duration) -> io::Result<()> {
    for (from, to) in [(client, server), (server, client)] {
        to.set_nodelay(true)?;
        let (from, to) = (from.try_clone()?, to.try_clone()?);
        let (sender, due) = channel();
        thread::spawn(move || take(from, &sender, delay));
        thread::spawn(move || pass(&due, to));
    }
    Ok(())
}

fn take(mut from: TcpStream, sender: &Sender<Due>, delay: Duration) {
    let mut bytes = vec![0; GULP];
    while let Ok(count @ 1..) = from.read(&mut bytes) {
        let due = Instant::now() + delay;
        if sender.send((due, bytes[..count].to_vec())).is_err() {
            return;
        }
    }
}

/// Passes on what is due, until nothing more comes, and ends the other side then.
fn pass(due: &Receiver<Due>, mut to: TcpStream) {
    for (at, bytes) in due {
        thread::sleep(at.saturating_duration_since(Instant::now()));
        if to.write_all(&bytes).is_err() {
            break;
        }
    }
    let _ = to.shutdown(Shutdown::Both);
}
