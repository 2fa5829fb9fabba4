//! What the status port answers.
use super::backup::{self, Order};
use super::locks::Question;
use super::metrics::metrics;
use super::origin::{self, Asker};
use super::paths::{self, FIGURES, HTML, JSON, SVG, TEXT};
use super::shown::Shown;
use super::visitors::Visit;
use super::{clients, page, report};
use crate::process::output::numbers;
use crate::process::role::State;
use hyper::header::{ACCEPT, ALLOW, CONTENT_TYPE};
use hyper::{Body, Method, Request, Response, StatusCode};
use krl::Identity;
use krl::operate::Liveness;
use krl::operate::{Monitor, Status};
use serde_json::Value;
use std::time::{Duration, Instant};
use tokio::time::timeout;

/// The most bytes of an order.
const MAX_ORDER: u64 = 1 << 16;

/// How long an order may take to come after its head.
const ORDER_WAIT: Duration = Duration::from_secs(5);

/// A page and its status.
#[derive(Debug, PartialEq, Eq)]
struct Page {
    status: StatusCode,
    kind: &'static str,
    text: String,
}

impl Page {
    fn new(status: StatusCode, kind: &'static str, text: String) -> Page {
        Page { status, kind, text }
    }

    fn text(status: StatusCode, text: impl Into<String>) -> Page {
        Page::new(status, TEXT, text.into())
    }
}

/// What a request is answered.
pub async fn answer(
    request: Request<Body>,
    asker: Asker,
    shown: Shown,
    visit: &Visit,
) -> Response<Body> {
    if let Some(why) = origin::refusal(request.headers(), asker, shown.name.as_deref()) {
        return response(Page::text(StatusCode::FORBIDDEN, why));
    }
    let path = request.uri().path();
    let state = shown.role.state();
    if path == paths::METRICS && matches!(*request.method(), Method::GET | Method::HEAD) {
        return response(Page::new(StatusCode::OK, FIGURES, metrics(&shown, &state)));
    }
    let State::Serves { monitor, .. } = state.clone() else {
        return response(match path {
            paths::PAGE => {
                Page::new(StatusCode::OK, HTML, page::without_a_server(&shown, &state).await)
            }
            _ => without_a_server(path, accepts(&request), &state),
        });
    };
    let page = match (request.method(), path) {
        (&Method::POST, paths::BACKUP) if !may_order(asker) => Page::text(
            StatusCode::FORBIDDEN,
            "a backup is ordered on the server's machine, at a loopback address, or by an operator \
             over TLS\n",
        ),
        (&Method::POST, paths::BACKUP) => order(request, monitor, visit).await,
        (_, paths::BACKUP) => return refused_method("POST"),
        (&Method::GET | &Method::HEAD, paths::LOCKS) => {
            let query = request.uri().query().unwrap_or("");
            locks_page(query, accepts(&request).contains(JSON), monitor).await
        }
        (&Method::GET | &Method::HEAD, paths::PAGE | paths::PICTURE) => {
            drawn_page(path, request.uri().query().unwrap_or(""), &shown, &monitor).await
        }
        (&Method::GET | &Method::HEAD, _) => page(path, accepts(&request), &shown, &monitor),
        _ => return refused_method("GET, HEAD"),
    };
    response(page)
}

/// What is answered to a peer that has shown a certificate, and not an operator's.
pub fn refused(peer: Identity) -> Response<Body> {
    let text =
        format!("this port is for operators only, and this certificate is of the client {peer}\n");
    response(Page::text(StatusCode::FORBIDDEN, text))
}

fn accepts(request: &Request<Body>) -> &str {
    request.headers().get(ACCEPT).and_then(|value| value.to_str().ok()).unwrap_or("")
}

fn response(page: Page) -> Response<Body> {
    let mut response = Response::new(Body::from(page.text));
    *response.status_mut() = page.status;
    let headers = response.headers_mut();
    headers.insert(CONTENT_TYPE, page.kind.parse().expect("a constant"));
    for (name, value) in guards(page.kind) {
        headers.insert(name, value.parse().expect("a constant"));
    }
    response
}

/// What keeps a web page of another site from showing an answer as its own, or using it as a
/// script.
fn guards(kind: &str) -> impl Iterator<Item = (&'static str, &'static str)> {
    let policy = match kind {
        HTML => Some(page::POLICY.as_str()),
        SVG => Some(page::PICTURE_POLICY),
        _ => None,
    };
    let always = [
        ("cache-control", "no-store"),
        ("cross-origin-resource-policy", "same-origin"),
        ("referrer-policy", "no-referrer"),
        ("x-content-type-options", "nosniff"),
    ];
    always.into_iter().chain(policy.map(|policy| ("content-security-policy", policy)))
}

fn refused_method(allowed: &'static str) -> Response<Body> {
    let text = format!("only {allowed} is allowed here\n");
    let mut response = response(Page::text(StatusCode::METHOD_NOT_ALLOWED, text));
    response.headers_mut().insert(ALLOW, allowed.parse().expect("a constant"));
    response
}

/// What a process answers that does not serve.
fn without_a_server(path: &str, accepts: &str, state: &State) -> Page {
    let text = format!("role: {state}\n");
    match path {
        paths::ALIVE => Page::text(StatusCode::OK, "ok\n"),
        paths::STATUS if accepts.contains(JSON) => as_json(&report::of_role(state)),
        paths::STATUS => Page::text(StatusCode::OK, text),
        paths::STATUS_AS_JSON => as_json(&report::of_role(state)),
        paths::READY | paths::CLIENTS | paths::LOCKS | paths::PICTURE | paths::BACKUP => {
            Page::text(StatusCode::SERVICE_UNAVAILABLE, text)
        }
        _ => Page::text(StatusCode::NOT_FOUND, paths::ALL),
    }
}

fn page(path: &str, accepts: &str, shown: &Shown, monitor: &Monitor) -> Page {
    let wants_json = accepts.contains(JSON);
    match path {
        paths::ALIVE => health(monitor.liveness()),
        paths::READY => readiness(&monitor.status()),
        paths::STATUS if wants_json => status_as_json(shown, monitor),
        paths::STATUS => Page::text(StatusCode::OK, monitor.status().to_string()),
        paths::STATUS_AS_JSON => status_as_json(shown, monitor),
        paths::CLIENTS if wants_json => {
            Page::new(StatusCode::OK, JSON, clients::page_as_json(&monitor.status()))
        }
        paths::CLIENTS => Page::text(StatusCode::OK, clients::as_text(&monitor.status())),
        _ => Page::text(StatusCode::NOT_FOUND, paths::ALL),
    }
}

/// Whether the asker may have the server write a file: an operator may, and a process on the
/// server's machine, where the file will be.
fn may_order(asker: Asker) -> bool {
    match asker {
        Asker::Operator => true,
        Asker::Unknown(peer) => peer.to_canonical().is_loopback(),
    }
}

/// Whether the server's loop continues, and if not, where it hangs.
fn health(liveness: Liveness) -> Page {
    let is_alive = liveness.is_alive();
    let status = if is_alive { StatusCode::OK } else { StatusCode::SERVICE_UNAVAILABLE };
    Page::text(status, format!("{liveness}\n"))
}

/// Whether the server answers requests, and if not, for whom it waits.
fn readiness(status: &Status) -> Page {
    if status.is_serving {
        return Page::text(StatusCode::OK, "serving\n");
    }
    let missing = numbers(&status.missing);
    let why = match &status.failure {
        Some(failure) => format!("failed: {failure}\n"),
        None if missing.is_empty() => "starting\n".to_string(),
        None => format!("recovering: the clients {missing} have to report, or to be evicted\n"),
    };
    Page::text(StatusCode::SERVICE_UNAVAILABLE, why)
}

/// Who holds what, as the server reports it between its turns. Other pages are served meanwhile.
async fn locks_page(query: &str, as_json: bool, monitor: Monitor) -> Page {
    let question = match Question::of_query(query) {
        Ok(question) => question,
        Err(text) => return Page::text(StatusCode::BAD_REQUEST, format!("{text}\n")),
    };
    let (points, limit) = (question.points.clone(), question.limit);
    let locks = tokio::task::spawn_blocking(move || monitor.locks(points, limit)).await;
    match locks {
        Ok(Ok(locks)) if as_json => Page::new(StatusCode::OK, JSON, question.as_json(&locks)),
        Ok(Ok(locks)) => Page::text(StatusCode::OK, question.as_text(&locks)),
        Ok(Err(error)) => Page::text(StatusCode::SERVICE_UNAVAILABLE, format!("{error}\n")),
        Err(_) => Page::text(StatusCode::INTERNAL_SERVER_ERROR, "the answer panicked\n"),
    }
}

/// The page for people, or its picture of who holds what.
async fn drawn_page(path: &str, query: &str, shown: &Shown, monitor: &Monitor) -> Page {
    let points = match Question::points_of_query(query) {
        Ok(points) => points,
        Err(text) => return Page::text(StatusCode::BAD_REQUEST, format!("{text}\n")),
    };
    if path == paths::PAGE {
        return Page::new(StatusCode::OK, HTML, page::html(shown, monitor, points).await);
    }
    match page::picture(shown, monitor, points).await {
        Ok(picture) => Page::new(StatusCode::OK, SVG, picture),
        Err(error) => Page::text(StatusCode::SERVICE_UNAVAILABLE, format!("{error}\n")),
    }
}

fn status_as_json(shown: &Shown, monitor: &Monitor) -> Page {
    let status = &monitor.status();
    let rates = shown.recent.rates(status, Instant::now());
    let shard = status.shard.or(shown.table.shard);
    as_json(&report::of_server(&shown.role.state(), status, shard, rates))
}

fn as_json(report: &Value) -> Page {
    Page::new(StatusCode::OK, JSON, format!("{report:#}\n"))
}

/// Takes the order to make a backup. Its kind has to be JSON, which no page of another site can
/// send without asking first.
async fn order(request: Request<Body>, monitor: Monitor, visit: &Visit) -> Page {
    let kind = request.headers().get(CONTENT_TYPE).and_then(|value| value.to_str().ok());
    if kind != Some(JSON) {
        return Page::text(StatusCode::UNSUPPORTED_MEDIA_TYPE, format!("an order is {JSON}\n"));
    }
    let bytes = match body(request).await {
        Ok(bytes) => bytes,
        Err(page) => return page,
    };
    let order: Order = match serde_json::from_slice(&bytes) {
        Ok(order) => order,
        Err(error) => {
            let text = format!("an order is {{\"file\": \"/path/of/a/new/file\"}}: {error}\n");
            return Page::text(StatusCode::BAD_REQUEST, text);
        }
    };
    if !visit.begin_order() {
        return Page::text(
            StatusCode::SERVICE_UNAVAILABLE,
            "other backups are being made: order this one again when they are done\n",
        );
    }
    // Files are written in another thread, so that other pages are served meanwhile.
    let file = order.file.clone();
    let made = tokio::task::spawn_blocking(move || backup::make(&monitor, &order)).await;
    match made {
        Ok(Ok(text)) => Page::text(StatusCode::CREATED, text),
        Ok(Err(error)) => {
            tracing::warn!(file = %file.display(), why = %error, "a backup has failed");
            Page::text(StatusCode::CONFLICT, format!("{error}\n"))
        }
        Err(_) => Page::text(StatusCode::INTERNAL_SERVER_ERROR, "the backup panicked\n"),
    }
}

/// The bytes of a request, if they are not too many.
async fn body(request: Request<Body>) -> Result<hyper::body::Bytes, Page> {
    use hyper::body::HttpBody;
    let length = request.body().size_hint().upper();
    if length.is_none_or(|length| length > MAX_ORDER) {
        let text = format!("an order has at most {MAX_ORDER} bytes, and states how many\n");
        return Err(Page::text(StatusCode::PAYLOAD_TOO_LARGE, text));
    }
    let bytes = timeout(ORDER_WAIT, hyper::body::to_bytes(request.into_body()));
    let bytes = bytes.await.map_err(|_| {
        let text = format!("the order has to come within {ORDER_WAIT:?} after its head\n");
        Page::text(StatusCode::REQUEST_TIMEOUT, text)
    })?;
    bytes.map_err(|error| Page::text(StatusCode::BAD_REQUEST, format!("{error}\n")))
}

#[cfg(test)]
mod tests {
    use super::*;

    #[test]
    fn the_servers_machine_and_operators_order_backups() {
        for (peer, may) in [
            ("127.0.0.1", true),
            ("127.8.9.1", true),
            ("::1", true),
            ("::ffff:127.0.0.1", true),
            ("10.0.0.5", false),
            ("::ffff:10.0.0.5", false),
            ("fe80::1", false),
        ] {
            assert_eq!(may_order(Asker::Unknown(peer.parse().unwrap())), may, "{peer}");
        }
        assert!(may_order(Asker::Operator));
    }

    #[test]
    fn a_server_whose_store_hangs_is_not_healthy() {
        assert_eq!(health(Liveness::Turns), Page::text(StatusCode::OK, "ok\n"));
        let waited = Duration::from_millis(1500);
        let page = health(Liveness::WaitsForStore { waited });
        assert_eq!(page.status, StatusCode::OK);
        assert_eq!(page.text, "ok: the loop has waited for its store for 1500 ms\n");
        let page = health(Liveness::StoreHangs { waited, longest: Duration::from_secs(1) });
        assert_eq!(page.status, StatusCode::SERVICE_UNAVAILABLE);
        assert!(page.text.contains("for 1500 ms, which may take 1000 ms at most"), "{}", page.text);
        let page = health(Liveness::Hangs { since_last_step: waited });
        assert_eq!(page.status, StatusCode::SERVICE_UNAVAILABLE);
    }

    #[test]
    fn a_server_that_recovers_is_not_ready() {
        let mut status = Status::default();
        status.missing = vec![1, 7];
        let page = readiness(&status);
        assert_eq!(page.status, StatusCode::SERVICE_UNAVAILABLE);
        assert_eq!(page.text, "recovering: the clients 1, 7 have to report, or to be evicted\n");
        let mut failed = status.clone();
        failed.failure = Some("no disk".to_string());
        assert_eq!(readiness(&failed).text, "failed: no disk\n");
        assert_eq!(readiness(&Status::default()).text, "starting\n");
        status.is_serving = true;
        assert_eq!(readiness(&status).status, StatusCode::OK);
    }
}
