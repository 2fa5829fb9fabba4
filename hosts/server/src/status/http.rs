//! One request to a status port.
use super::paths::JSON;
use super::tls_stream;
use crate::process::Done;
use crate::settings::StatusPort;
use hyper::body::HttpBody;
use hyper::client::conn;
use hyper::header::{ACCEPT, CONTENT_TYPE, HOST};
use hyper::{Body, Method, Request, StatusCode};
use krl::operate::PeerCheck;
use std::error::Error;
use std::io;
use std::time::Duration;
use tokio::io::{AsyncRead, AsyncWrite};
use tokio::net::TcpStream;
use tokio::runtime::{Builder, Runtime};
use tokio::time::timeout;

/// The host that a request names: one that each status port answers, whatever its name is.
const NAMED_HOST: &str = "localhost";

/// The most bytes of an answer. No page of a status port has as many.
const MAX_ANSWER: usize = 1 << 24;

/// Any error of a request, which another thread may have.
type Failure = Box<dyn Error + Send + Sync>;

/// What a status port has answered.
#[derive(Debug)]
pub struct Reply {
    pub status: StatusCode,
    pub text: String,
}

impl Reply {
    /// The text of a page of the port, or a sentence that explains why there is none.
    pub fn page_of(self, port: &StatusPort) -> Result<String, String> {
        match self.status {
            StatusCode::OK => Ok(self.text),
            StatusCode::BAD_REQUEST | StatusCode::FORBIDDEN | StatusCode::SERVICE_UNAVAILABLE => {
                Err(format!("{port} refuses: {}", self.text.trim_end()))
            }
            status => Err(format!("{port} is not a status port of krl: it answered {status}")),
        }
    }
}

/// Asks for a page, and returns its text.
pub fn page(port: &StatusPort, path: &str, accept: &str, wait: Duration) -> Done<String> {
    Ok(get(port, path, accept, wait)?.page_of(port)?)
}

/// Asks for a page.
pub fn get(port: &StatusPort, path: &str, accept: &str, wait: Duration) -> Done<Reply> {
    Ok(runtime()?.block_on(fetch(port, path, accept, wait))?)
}

/// Asks for a page, in a runtime that continues.
pub async fn fetch(
    port: &StatusPort,
    path: &str,
    accept: &str,
    wait: Duration,
) -> Result<Reply, String> {
    let request = Request::builder().uri(path).header(ACCEPT, accept);
    let request = request.header(HOST, NAMED_HOST).body(Body::empty());
    answered(port, request.map_err(|error| error.to_string())?, wait).await
}

/// Sends JSON to a path.
pub fn post(port: &StatusPort, path: &str, json: String, wait: Duration) -> Done<Reply> {
    let request = Request::builder().method(Method::POST).uri(path).header(HOST, NAMED_HOST);
    let request = request.header(CONTENT_TYPE, JSON).body(json.into())?;
    Ok(runtime()?.block_on(answered(port, request, wait))?)
}

fn runtime() -> io::Result<Runtime> {
    Builder::new_current_thread().enable_all().build()
}

/// The answer, or a sentence that explains why there is none.
async fn answered(
    port: &StatusPort,
    request: Request<Body>,
    wait: Duration,
) -> Result<Reply, String> {
    let answered = timeout(wait, exchange(port, request)).await;
    answered
        .map_err(|_| format!("the status port {port} gave no answer within {wait:?}"))?
        .map_err(|error| format!("the status port {port} gave no answer: {error}{}", hint(&error)))
}

/// What may be wrong if a connection is closed without an answer.
fn hint(error: &Failure) -> &'static str {
    let is_closed = error
        .downcast_ref::<hyper::Error>()
        .is_some_and(|error| error.is_incomplete_message() || error.is_closed());
    if is_closed { ": is it the port of clients, or one of TLS?" } else { "" }
}

async fn exchange(port: &StatusPort, request: Request<Body>) -> Result<Reply, Failure> {
    let socket = TcpStream::connect(&port.place).await?;
    match &port.tls {
        None => talk(socket, request).await,
        Some(tls) => {
            let (stream, _) = tls_stream::shake(socket, PeerCheck::of_server(tls)?).await?;
            talk(stream, request).await
        }
    }
}

async fn talk(
    stream: impl AsyncRead + AsyncWrite + Unpin + Send + 'static,
    request: Request<Body>,
) -> Result<Reply, Failure> {
    let (mut sender, connection) = conn::handshake(stream).await?;
    tokio::spawn(async move {
        // What fails here fails the request.
        let _ = connection.await;
    });
    let reply = sender.send_request(request).await?;
    let status = reply.status();
    let text = text(reply.into_body()).await?;
    Ok(Reply { status, text })
}

/// The text of an answer, if it is not too long.
async fn text(mut body: Body) -> Result<String, Failure> {
    let mut bytes = Vec::new();
    while let Some(piece) = body.data().await {
        bytes.extend_from_slice(&piece?);
        if bytes.len() > MAX_ANSWER {
            return Err(format!("it has more than {MAX_ANSWER} bytes").into());
        }
    }
    Ok(String::from_utf8_lossy(&bytes).into_owned())
}
