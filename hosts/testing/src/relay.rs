//! A relay to a server or a database that fails as proxies, address translators and load balancers
//! do: it swallows what passes, loses answers, ends connections, or answers by itself.
use std::collections::VecDeque;
use std::io::{Read, Write};
use std::net::{Shutdown, SocketAddr, TcpListener, TcpStream};
use std::sync::atomic::{AtomicBool, Ordering};
use std::sync::{Arc, Mutex, MutexGuard};
use std::thread;

/// What becomes of a connection as it comes.
#[derive(Clone, Copy, Debug)]
pub enum Plan {
    /// It stays open, and nothing that either side sends arrives.
    Swallow,
    /// It receives these bytes, and ends. The server knows nothing of it.
    Answer(&'static [u8]),
    /// It ends.
    End,
}

/// A relay to one server.
#[derive(Debug)]
pub struct Relay {
    at: SocketAddr,
    shared: Arc<Shared>,
}

#[derive(Debug, Default)]
struct Shared {
    /// The plans for the next connections. Those after them pass.
    plans: Mutex<VecDeque<Plan>>,
    routes: Mutex<Vec<Arc<Route>>>,
    loss: Mutex<Loss>,
    has_lost: AtomicBool,
}

/// Which answers get lost, so that their connections end.
#[derive(Clone, Copy, Debug, Default, PartialEq, Eq)]
enum Loss {
    #[default]
    None,
    Next,
    All,
}

/// One connection that came.
#[derive(Debug)]
struct Route {
    streams: Vec<TcpStream>,
    loses_requests: AtomicBool,
    loses_answers: AtomicBool,
}

impl Relay {
    /// A relay to this server.
    pub fn to(server: SocketAddr) -> Relay {
        let listener = TcpListener::bind("127.0.0.1:0").unwrap();
        let relay = Relay { at: listener.local_addr().unwrap(), shared: Arc::default() };
        let shared = Arc::clone(&relay.shared);
        thread::spawn(move || {
            listener.incoming().flatten().for_each(|client| shared.take(client, server));
        });
        relay
    }

    /// Where it listens.
    pub fn at(&self) -> SocketAddr {
        self.at
    }

    /// The next connections go by these plans, one each.
    pub fn plan(&self, plans: impl IntoIterator<Item = Plan>) {
        lock(&self.shared.plans).extend(plans);
    }

    /// How many connections have come.
    pub fn count(&self) -> usize {
        lock(&self.shared.routes).len()
    }

    /// The open connections stay open, and nothing passes on them any more. New ones pass.
    pub fn swallow(&self) {
        self.each(|route| {
            route.loses_requests.store(true, Ordering::SeqCst);
            route.loses_answers.store(true, Ordering::SeqCst);
        });
    }

    /// What the server sends on the open connections is lost from now on.
    pub fn lose_answers(&self) {
        self.each(|route| route.loses_answers.store(true, Ordering::SeqCst));
    }

    /// The next answer gets lost, and its connection ends.
    pub fn lose_next_answer(&self) {
        *lock(&self.shared.loss) = Loss::Next;
    }

    /// From now on each answer gets lost, and its connection ends.
    pub fn lose_all_answers(&self) {
        *lock(&self.shared.loss) = Loss::All;
    }

    /// Whether an answer got lost in one of these ways.
    pub fn has_lost(&self) -> bool {
        self.shared.has_lost.load(Ordering::SeqCst)
    }

    /// Ends the open connections.
    pub fn end(&self) {
        self.each(Route::end);
    }

    fn each(&self, does: impl Fn(&Route)) {
        lock(&self.shared.routes).iter().for_each(|route| does(route));
    }
}

impl Shared {
    /// Takes one connection. It is counted when its plan is done or it passes.
    fn take(self: &Arc<Shared>, mut client: TcpStream, server: SocketAddr) {
        let plan = lock(&self.plans).pop_front();
        let server = match plan {
            None => TcpStream::connect(server).ok(),
            Some(Plan::Answer(bytes)) => {
                // A side that has gone gets nothing.
                let _ = client.write_all(bytes);
                let _ = client.shutdown(Shutdown::Write);
                None
            }
            Some(Plan::Swallow | Plan::End) => None,
        };
        if matches!(plan, Some(Plan::End)) {
            let _ = client.shutdown(Shutdown::Both);
        }
        let streams = [Some(&client), server.as_ref()].into_iter().flatten();
        let streams = streams.map(|stream| stream.try_clone().unwrap()).collect();
        let (loses_requests, loses_answers) = Default::default();
        let route = Arc::new(Route { streams, loses_requests, loses_answers });
        lock(&self.routes).push(Arc::clone(&route));
        if let Some(server) = server {
            route.start(client, server, Arc::clone(self));
        }
    }

    /// Whether an answer gets lost that came just now.
    fn loses_this(&self) -> bool {
        let mut loss = lock(&self.loss);
        let is_lost = *loss != Loss::None;
        if *loss == Loss::Next {
            *loss = Loss::None;
        }
        self.has_lost.fetch_or(is_lost, Ordering::SeqCst);
        is_lost
    }
}

impl Route {
    fn start(self: Arc<Route>, client: TcpStream, server: TcpStream, shared: Arc<Shared>) {
        let (requests, answers) = (client.try_clone().unwrap(), server.try_clone().unwrap());
        let back = Arc::clone(&self);
        thread::spawn(move || self.pass(requests, server, &self.loses_requests, || false));
        let is_lost = move || shared.loses_this();
        thread::spawn(move || back.pass(answers, client, &back.loses_answers, is_lost));
    }

    fn pass(
        &self,
        mut from: TcpStream,
        mut to: TcpStream,
        loses: &AtomicBool,
        is_lost: impl Fn() -> bool,
    ) {
        let mut bytes = [0; 16 * 1024];
        while let Ok(count @ 1..) = from.read(&mut bytes) {
            if loses.load(Ordering::SeqCst) {
                continue;
            }
            if is_lost() || to.write_all(&bytes[..count]).is_err() {
                break;
            }
        }
        // A relay that swallows lets neither side learn that the other one has gone.
        if !self.loses_requests.load(Ordering::SeqCst) {
            self.end();
        }
    }

    fn end(&self) {
        for stream in &self.streams {
            let _ = stream.shutdown(Shutdown::Both);
        }
    }
}

fn lock<T>(mutex: &Mutex<T>) -> MutexGuard<'_, T> {
    mutex.lock().unwrap()
}
