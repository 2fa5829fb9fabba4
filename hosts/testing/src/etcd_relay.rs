//! What stands between a server and the nodes of etcd, and holds back what the server asks: for a
//! while, or until it comes late.
use std::io::{self, BufRead, BufReader, Write};
use std::net::{Shutdown, SocketAddr, TcpListener, TcpStream};
use std::sync::{Arc, Condvar, Mutex, MutexGuard, PoisonError};
use std::thread;
use std::time::Duration;

/// How long a connection to a node may take.
const CONNECT: Duration = Duration::from_secs(2);

/// How long a node may take for an answer that nobody waits for.
const ANSWER: Duration = Duration::from_secs(2);

/// The longest request: a batch of a full table's buckets.
const LONGEST: usize = 1 << 24;

/// The relay of one server.
#[derive(Clone, Debug)]
pub struct Relay {
    gate: Arc<Gate>,
    at: Vec<SocketAddr>,
}

/// What is held back. What is held once stays so until all is let go, even if other requests pass.
#[derive(Clone, Copy, Debug, Default, PartialEq, Eq)]
pub enum Holds {
    /// Nothing.
    #[default]
    Nothing,
    /// The next change of the store, and nothing after it.
    NextChange,
    /// Each change of the store.
    Changes,
    /// Whatever the server asks.
    Everything,
}

#[derive(Debug, Default)]
struct Gate {
    state: Mutex<State>,
    changed: Condvar,
}

#[derive(Debug, Default)]
struct State {
    holds: Holds,
    /// How many requests are held.
    held: usize,
    /// How many times all were let go.
    round: u64,
}

impl Relay {
    /// A relay to these nodes. `enter` is called on each of its threads that opens sockets.
    pub fn start(
        nodes: &[SocketAddr],
        enter: impl Fn() -> io::Result<()> + Clone + Send + 'static,
    ) -> io::Result<Relay> {
        let gate = Arc::new(Gate::default());
        let at = nodes.iter().map(|node| listen(*node, Arc::clone(&gate), enter.clone()));
        Ok(Relay { at: at.collect::<Result<_, _>>()?, gate })
    }

    /// Where the server reaches the nodes, in their order.
    pub fn addresses(&self) -> &[SocketAddr] {
        &self.at
    }

    /// From now on requests of this kind are held.
    pub fn hold(&self, holds: Holds) {
        self.gate.lock().holds = holds;
    }

    /// Waits until something is held, and returns whether that came.
    pub fn has_held(&self, timeout: Duration) -> bool {
        let is_free = |state: &mut State| state.held == 0;
        let waited = self.gate.changed.wait_timeout_while(self.gate.lock(), timeout, is_free);
        waited.unwrap_or_else(PoisonError::into_inner).0.held > 0
    }

    /// What is held continues to the nodes, and nothing more is held.
    pub fn let_go(&self) {
        let mut state = self.gate.lock();
        *state = State { round: state.round + 1, ..State::default() };
        self.gate.changed.notify_all();
    }
}

impl Gate {
    fn lock(&self) -> MutexGuard<'_, State> {
        self.state.lock().unwrap_or_else(PoisonError::into_inner)
    }

    /// Waits while the request is held.
    fn pass(&self, is_change: bool) {
        let mut state = self.lock();
        match state.holds {
            Holds::Everything => {}
            Holds::Changes if is_change => {}
            Holds::NextChange if is_change => state.holds = Holds::Nothing,
            _ => return,
        }
        state.held += 1;
        self.changed.notify_all();
        let round = state.round;
        let is_held = |state: &mut State| state.round == round;
        drop(self.changed.wait_while(state, is_held));
    }
}

/// Starts to relay to one node, and returns where.
fn listen(
    node: SocketAddr,
    gate: Arc<Gate>,
    enter: impl FnOnce() -> io::Result<()> + Send + 'static,
) -> io::Result<SocketAddr> {
    let (sender, receiver) = std::sync::mpsc::channel();
    thread::spawn(move || {
        let listener = enter().and_then(|()| TcpListener::bind("127.0.0.1:0"));
        let address = listener.as_ref().map(TcpListener::local_addr);
        let address = address.unwrap_or_else(|error| Err(error.kind().into()));
        let _ = sender.send(address);
        for server in listener.iter().flat_map(TcpListener::incoming).flatten() {
            let gate = Arc::clone(&gate);
            // If either side ends its connection, so does the other.
            thread::spawn(move || drop(relay(server, node, &gate)));
        }
    });
    receiver.recv().unwrap_or_else(|_| Err(io::ErrorKind::BrokenPipe.into()))
}

/// Passes requests on, each once the gate lets it. A server that gives up meanwhile takes nothing
/// back: what it has asked is on its way.
fn relay(server: TcpStream, node: SocketAddr, gate: &Gate) -> io::Result<()> {
    let mut node = TcpStream::connect_timeout(&node, CONNECT)?;
    node.set_nodelay(true)?;
    let (mut answers, mut asker) = (node.try_clone()?, server.try_clone()?);
    thread::spawn(move || {
        let _ = io::copy(&mut answers, &mut asker);
        let _ = asker.shutdown(Shutdown::Both);
    });
    let mut server = BufReader::new(server);
    while let Some(request) = read_request(&mut server)? {
        gate.pass(is_change(&request));
        node.write_all(&request)?;
    }
    // A node gives up a request whose sender goes away.
    thread::sleep(ANSWER);
    node.shutdown(Shutdown::Both)
}

/// The next request, whole: none after the last one.
fn read_request(from: &mut impl BufRead) -> io::Result<Option<Vec<u8>>> {
    let (mut request, mut length) = (Vec::new(), 0);
    loop {
        let begin = request.len();
        if from.read_until(b'\n', &mut request)? == 0 {
            return Ok(None);
        }
        let line = String::from_utf8_lossy(&request[begin..]).to_ascii_lowercase();
        if let Some(value) = line.strip_prefix("content-length:") {
            length = value.trim().parse().unwrap_or(0);
        }
        if line.trim().is_empty() {
            break;
        }
    }
    let begin = request.len();
    request.resize(begin + LONGEST.min(length), 0);
    from.read_exact(&mut request[begin..])?;
    Ok(Some(request))
}

/// Whether the request would change the table: it sets something, and not the place of an election,
/// which has a lease.
fn is_change(request: &[u8]) -> bool {
    let text = String::from_utf8_lossy(request);
    text.starts_with("POST /v3/kv/txn ")
        && text.contains("\"requestPut\"")
        && !text.contains("\"lease\":")
}

#[cfg(test)]
mod tests {
    use super::*;

    fn request(path: &str, body: &str) -> Vec<u8> {
        let length = body.len();
        format!("POST {path} HTTP/1.1\r\nContent-Length: {length}\r\n\r\n{body}").into_bytes()
    }

    #[test]
    fn requests_are_read_one_by_one() {
        let (one, two) = (request("/v3/kv/txn", "{\"requestPut\"}"), request("/v3/kv/range", ""));
        let mut both = io::Cursor::new([&one[..], &two[..]].concat());
        assert_eq!(read_request(&mut both).unwrap(), Some(one.clone()));
        assert_eq!(read_request(&mut both).unwrap(), Some(two.clone()));
        assert_eq!(read_request(&mut both).unwrap(), None);
        assert!(is_change(&one) && !is_change(&two));
        assert!(!is_change(&request("/v3/kv/txn", "{\"requestPut\":{\"lease\":\"7\"}}")));
        assert!(read_request(&mut &one[..one.len() - 1]).is_err(), "it is cut short");
    }

    #[test]
    fn one_change_is_held_and_the_next_ones_pass() {
        let gate = Arc::new(Gate::default());
        let relay = Relay { gate: Arc::clone(&gate), at: Vec::new() };
        relay.hold(Holds::NextChange);
        gate.pass(false);
        assert!(!relay.has_held(Duration::ZERO));
        let held = thread::spawn({
            let gate = Arc::clone(&gate);
            move || gate.pass(true)
        });
        assert!(relay.has_held(Duration::from_secs(60)));
        gate.pass(true);
        assert!(!held.is_finished());
        relay.let_go();
        held.join().unwrap();
        gate.pass(true);
    }
}
