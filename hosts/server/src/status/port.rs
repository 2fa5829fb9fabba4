//! The status port: HTTP in a thread of its own.
use super::looks::Looks;
use super::origin::Asker;
use super::recent::{self, Recent};
use super::shown::{Shown, Table};
use super::visitors::{Visit, Visitors};
use super::{backup, pages, tls_stream};
use crate::process::role::Role;
use hyper::server::conn::Http;
use hyper::service::service_fn;
use hyper::{Body, Request};
use krl::operate::{PeerCheck, RateLimit};
use krl::{Address, Identity, Listener, TlsConfig};
use std::convert::Infallible;
use std::future::ready;
use std::io::{self, ErrorKind};
use std::net::{SocketAddr, TcpListener};
use std::pin::pin;
use std::sync::{Arc, Mutex, PoisonError};
use std::thread;
use std::time::{Duration, Instant};
use tokio::io::{AsyncRead, AsyncWrite, AsyncWriteExt};
use tokio::net::TcpStream;
use tokio::sync::Notify;
use tokio::time::{sleep, timeout};

/// How long a peer may take to send the whole head of its request.
const HEAD_WAIT: Duration = Duration::from_secs(5);

/// The most bytes of a head.
const MAX_HEAD: usize = 1 << 14;

/// How long a handshake may take.
const HANDSHAKE_WAIT: Duration = Duration::from_secs(5);

/// How long a connection may take from its request on, unless its order is carried out.
const ANSWER_WAIT: Duration = Duration::from_secs(90);

/// How long the last bytes of an answer may take to leave.
const LAST_BYTES_WAIT: Duration = Duration::from_secs(5);

/// How long to wait before the next try when the system has no room for another connection.
const ACCEPT_PAUSE: Duration = Duration::from_millis(50);

/// Serves the pages at the address, and returns where it listens. At an address of TLS it shows
/// this, and serves only operators.
pub fn start(
    address: &Address,
    tls: Option<TlsConfig>,
    role: Role,
    table: Table,
) -> io::Result<Address> {
    let listener = Listener::bind(address)?;
    let at = listener.address()?;
    let certificate = tls.clone();
    let (listener, tls) = match (listener, tls) {
        (Listener::Tcp(listener), _) => (listener, None),
        (Listener::Tls(listener), Some(tls)) => (listener, Some(tls)),
        (Listener::Tls(_), None) => {
            return Err(refused(
                "an address of TLS needs --tls-certificate and what belongs to it",
            ));
        }
        _ => return Err(refused("it has to be an address of TCP or TLS")),
    };
    listener.set_nonblocking(true)?;
    let runtime = tokio::runtime::Builder::new_current_thread().enable_all().build()?;
    let name = match address {
        Address::Host(name, _) => Some(name.clone()),
        _ => None,
    };
    let (recent, looks) = (Recent::default(), Looks::default());
    let shown = Shown { role, table, certificate, name, recent, looks };
    let serves = move || {
        if let Err(error) = runtime.block_on(serve(listener, tls, shown)) {
            tracing::error!(%error, "the status port ended");
        }
    };
    thread::Builder::new().name("status port".to_string()).spawn(serves)?;
    Ok(at)
}

fn refused(why: &str) -> io::Error {
    io::Error::new(ErrorKind::InvalidInput, why)
}

async fn serve(listener: TcpListener, tls: Option<TlsConfig>, shown: Shown) -> io::Result<()> {
    let listener = tokio::net::TcpListener::from_std(listener)?;
    tokio::spawn(sample(shown.clone()));
    let visitors = Visitors::default();
    let refused = Arc::new(Mutex::new(RateLimit::default()));
    loop {
        let Ok((stream, peer)) = listener.accept().await else {
            sleep(ACCEPT_PAUSE).await;
            continue;
        };
        let visit = Arc::new(visitors.accept(peer.ip(), Instant::now()));
        let asker = Asker::Unknown(peer.ip());
        let guest = Guest { peer, asker, visit, shown: shown.clone() };
        tokio::spawn(attend(stream, guest, tls.clone(), Arc::clone(&refused)));
    }
}

/// Samples what the server counts, for as long as the process lives.
async fn sample(shown: Shown) {
    loop {
        shown.recent.look(&shown.role.state(), Instant::now());
        sleep(recent::RECENT_PERIOD).await;
    }
}

/// Who is connected, and to what.
struct Guest {
    peer: SocketAddr,
    asker: Asker,
    visit: Arc<Visit>,
    shown: Shown,
}

/// Answers one connection, until it has to be closed for another one.
async fn attend(
    stream: TcpStream,
    guest: Guest,
    tls: Option<TlsConfig>,
    refused: Arc<Mutex<RateLimit>>,
) {
    let visit = Arc::clone(&guest.visit);
    let answered = async {
        match tls {
            None => answer(stream, guest).await,
            Some(tls) => answer_operator(stream, &tls, guest, &refused).await,
        }
    };
    tokio::select! {
        () = visit.closed() => {}
        () = answered => {}
    }
}

/// Answers by TLS, if an operator is at the other end. Any other connection is closed.
async fn answer_operator(
    stream: TcpStream,
    tls: &TlsConfig,
    guest: Guest,
    refused: &Mutex<RateLimit>,
) {
    let Ok(session) = PeerCheck::of_client(tls) else { return };
    let address = guest.peer;
    let why = match timeout(HANDSHAKE_WAIT, tls_stream::shake(stream, session)).await {
        Ok(Ok((stream, peer))) => {
            if !peer.is_operator() {
                log_refused(address, &format!("{peer} is not an operator"), refused);
                return refuse(stream, peer).await;
            }
            guest.visit.take_place();
            return answer(stream, Guest { asker: Asker::Operator, ..guest }).await;
        }
        Ok(Err(error)) => error.to_string(),
        Err(_) => return,
    };
    log_refused(address, &why, refused);
}

/// Logs who was refused, now and then.
fn log_refused(address: SocketAddr, why: &str, refused: &Mutex<RateLimit>) {
    let due = refused.lock().unwrap_or_else(PoisonError::into_inner).admits(Instant::now());
    if let Some(passed_over) = due {
        tracing::warn!(peer = %address, %why, passed_over, "the status port refused a connection");
    }
}

/// Ends a connection after its answer. What the peer still sends is read and dropped until it ends
/// too, for a while: otherwise the system might drop the last of the answer.
async fn end(mut stream: impl AsyncRead + AsyncWrite + Unpin) {
    let ends = async {
        stream.shutdown().await?;
        tokio::io::copy(&mut stream, &mut tokio::io::sink()).await
    };
    let _ = timeout(LAST_BYTES_WAIT, ends).await;
}

/// Answers a peer that has shown a certificate, and not an operator's, that it is refused.
async fn refuse(stream: impl AsyncRead + AsyncWrite + Unpin + Send + 'static, peer: Identity) {
    let answer = service_fn(|_| ready(Ok::<_, Infallible>(pages::refused(peer))));
    let served = http().serve_connection(stream, answer).without_shutdown();
    if let Ok(Ok(parts)) = timeout(HEAD_WAIT, served).await {
        end(parts.io).await;
    }
}

fn http() -> Http {
    let mut http = Http::new();
    http.http1_only(true).http1_keep_alive(false).max_buf_size(MAX_HEAD);
    http
}

async fn answer(stream: impl AsyncRead + AsyncWrite + Unpin + Send + 'static, guest: Guest) {
    let Guest { asker, visit, shown, .. } = guest;
    let has_asked = Notify::new();
    let answer = service_fn(|request: Request<Body>| {
        visit.take_place();
        has_asked.notify_one();
        let (shown, visit) = (shown.clone(), Arc::clone(&visit));
        let answer = async move { pages::answer(request, asker, shown, &visit).await };
        Box::pin(async { Ok::<_, Infallible>(answer.await) })
    });
    let mut served = pin!(http().serve_connection(stream, answer).without_shutdown());
    // A peer that asks and goes away, or takes too long, gets no answer.
    let answered = tokio::select! {
        answered = &mut served => Ok(answered),
        () = sleep(HEAD_WAIT) => return,
        () = has_asked.notified() => timeout(ANSWER_WAIT, &mut served).await,
    };
    let answered = match answered {
        Err(_) if visit.is_ordering() => timeout(backup::TIMEOUT, served).await,
        answered => answered,
    };
    if let Ok(Ok(parts)) = answered {
        end(parts.io).await;
    }
}
