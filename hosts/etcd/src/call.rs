//! Calls of etcd over its JSON gateway: one at a time, to one endpoint after another.
use crate::address::{Credentials, EtcdAddress};
use crate::explain::{self, Given};
use crate::request::{self, bytes_of, text_of};
use krl::store::fence::Failure;
use native_tls::{Certificate, Identity, TlsConnector};
use serde_json::{Value as Json, json};
use std::fmt;
use std::io::{BufRead, BufReader, Read};
use std::sync::Arc;
use std::thread;
use std::time::{Duration, Instant};

/// How long one endpoint may take for a connection, and for an answer.
const CONNECT: Duration = Duration::from_millis(500);
const ATTEMPT: Duration = Duration::from_secs(1);

/// How long a call may take whose request or answer may be large, and what a large request has.
const LARGE_ATTEMPT: Duration = Duration::from_secs(5);
const LARGE_BYTES: usize = 1 << 16;

/// The pause before the next attempt: the first one, and the longest.
const FIRST_PAUSE: Duration = Duration::from_millis(10);
const LONGEST_PAUSE: Duration = Duration::from_millis(200);

/// The most bytes of an answer: a full table has some 4 MB.
const LONGEST_ANSWER: u64 = 1 << 26;

/// Why an attempt has no answer.
enum Attempt {
    Failed(Failure),
    /// This endpoint refuses the connection, and does so again for what the server was given.
    Unusable(String),
}

impl From<Failure> for Attempt {
    fn from(failure: Failure) -> Attempt {
        Attempt::Failed(failure)
    }
}

/// A client of the cluster.
pub(crate) struct Etcd {
    agent: ureq::Agent,
    scheme: &'static str,
    endpoints: Vec<String>,
    user: Option<(String, String)>,
    given: Given,
    /// What the cluster gave for the user and the password.
    token: Option<String>,
    /// The endpoint that is asked next: the last one that answered.
    at: usize,
    retries: u64,
}

impl Etcd {
    /// # Errors
    ///
    /// If the credentials can't be used.
    pub fn new(address: &EtcdAddress, credentials: &Credentials) -> Result<Etcd, String> {
        let mut agent = ureq::AgentBuilder::new().timeout(ATTEMPT).timeout_connect(CONNECT);
        if address.is_secure {
            agent = agent.tls_connector(Arc::new(connector(credentials)?));
        }
        Ok(Etcd {
            agent: agent.build(),
            scheme: if address.is_secure { "https" } else { "http" },
            endpoints: address.endpoints.clone(),
            user: credentials.user.clone(),
            given: Given::new(address, credentials),
            token: None,
            at: 0,
            retries: 0,
        })
    }

    /// How many attempts had no answer.
    pub fn retries(&self) -> u64 {
        self.retries
    }

    /// Makes a call that may be made more than once, until it is answered or the deadline has
    /// passed. It ends before if no endpoint takes what the server was given.
    pub fn call(&mut self, path: &str, body: &Json, end: Instant) -> Result<Json, Failure> {
        let (mut pause, mut unusable) = (FIRST_PAUSE, 0);
        loop {
            let why = match self.attempt_as_user(path, body) {
                Ok(answer) => return Ok(answer),
                Err(Attempt::Failed(Failure::Refused(why))) => return Err(Failure::Refused(why)),
                Err(Attempt::Failed(Failure::Unknown(why))) => {
                    unusable = 0;
                    why
                }
                Err(Attempt::Unusable(why)) => {
                    unusable += 1;
                    why
                }
            };
            if unusable == self.endpoints.len() {
                return Err(Failure::Refused(why));
            }
            self.retries += 1;
            self.at = (self.at + 1) % self.endpoints.len();
            if Instant::now() + pause >= end {
                return Err(Failure::Unknown(why));
            }
            thread::sleep(pause);
            pause = LONGEST_PAUSE.min(2 * pause);
        }
    }

    /// Waits until the key changes, from this revision on, and for this time at most. Returns false if
    /// the endpoint that last answered gives no event before.
    pub fn watch(&self, key: &str, from: u64, most: Duration) -> bool {
        let end = Instant::now() + most;
        let mut request = self.post("watch").timeout(most);
        if let Some(token) = &self.token {
            request = request.set("Authorization", token);
        }
        let Ok(answer) = request.send_string(&request::watch(key, from).to_string()) else {
            return false;
        };
        let lines = BufReader::new(answer.into_reader()).lines().map_while(Result::ok);
        let events = lines.filter_map(|line| serde_json::from_str::<Json>(&line).ok());
        // The first line says that the watch is there.
        let mut changes = events.filter(|event| event["result"]["events"].is_array());
        changes.next().is_some() || Instant::now() >= end
    }

    fn post(&self, path: &str) -> ureq::Request {
        let url = format!("{}://{}/v3/{path}", self.scheme, self.endpoints[self.at]);
        self.agent.post(&url).set("Content-Type", "application/json")
    }

    /// One attempt, with the token of the user if there is one. A token that has run out is
    /// replaced: the next attempt has a new one.
    fn attempt_as_user(&mut self, path: &str, body: &Json) -> Result<Json, Attempt> {
        if let (Some((name, password)), None) = (&self.user, &self.token) {
            let asked = json!({"name": name, "password": password});
            let answer = self.attempt("auth/authenticate", &asked)?;
            self.token = answer["token"].as_str().map(str::to_string);
        }
        match self.attempt(path, body) {
            Err(Attempt::Failed(Failure::Refused(why) | Failure::Unknown(why)))
                if self.token.is_some() && explain::is_of_token(&why) =>
            {
                self.token = None;
                Err(Failure::Unknown(why).into())
            }
            answer => answer,
        }
    }

    fn attempt(&self, path: &str, body: &Json) -> Result<Json, Attempt> {
        let endpoint = &self.endpoints[self.at];
        let mut request = self.post(path);
        if let Some(token) = &self.token {
            request = request.set("Authorization", token);
        }
        let unknown = |why: String| Attempt::from(Failure::Unknown(format!("{endpoint}: {why}")));
        let text = body.to_string();
        if text.len() > LARGE_BYTES || body.get("rangeEnd").is_some() {
            request = request.timeout(LARGE_ATTEMPT);
        }
        match request.send_string(&text) {
            Ok(answer) => serde_json::from_reader(answer.into_reader().take(LONGEST_ANSWER))
                .map_err(|error| unknown(error.to_string())),
            Err(ureq::Error::Status(status, answer)) => {
                let (code, why) = read_error(&read_body(answer));
                let is_final = code.is_some_and(means_that_nothing_was_done);
                if is_final && !explain::passes_by_itself(&why) {
                    Err(Failure::Refused(explain::refusal(&why, &self.given)).into())
                } else {
                    Err(unknown(format!("{status} {why}")))
                }
            }
            Err(error) => {
                let why = error.to_string();
                match explain::connection(&why, &self.given) {
                    Some(reason) => Err(Attempt::Unusable(format!("{endpoint}: {reason}"))),
                    None => Err(unknown(explain::attempt(why))),
                }
            }
        }
    }
}

/// The body of an answer that is an error. The gateway puts fields after it, at which reading
/// fails: what came before that counts.
fn read_body(answer: ureq::Response) -> String {
    let mut bytes = Vec::new();
    let _ = answer.into_reader().take(LONGEST_ANSWER).read_to_end(&mut bytes);
    String::from_utf8_lossy(&bytes).into_owned()
}

/// What an answer that is an error holds: a status of gRPC, and why.
fn read_error(text: &str) -> (Option<u64>, String) {
    let json: Json = serde_json::from_str(text).unwrap_or_default();
    let why = json["message"].as_str().or(json["error"].as_str()).unwrap_or(text.trim());
    (json["code"].as_u64(), why.to_string())
}

/// Whether a status of gRPC means that nothing was done: the request is wrong, not allowed, or more
/// than there is room for. The others leave it open.
fn means_that_nothing_was_done(code: u64) -> bool {
    // Those that etcd and its gateway use: INVALID_ARGUMENT, NOT_FOUND, ALREADY_EXISTS,
    // PERMISSION_DENIED, RESOURCE_EXHAUSTED, FAILED_PRECONDITION, OUT_OF_RANGE, UNIMPLEMENTED,
    // UNAUTHENTICATED.
    matches!(code, 3 | 5 | 6 | 7 | 8 | 9 | 11 | 12 | 16)
}

fn connector(credentials: &Credentials) -> Result<TlsConnector, String> {
    let mut builder = TlsConnector::builder();
    if let Some(path) = &credentials.authority {
        let pem = read(path)?;
        let authority = Certificate::from_pem(&pem).map_err(|error| error.to_string())?;
        builder.add_root_certificate(authority).disable_built_in_roots(true);
    }
    if let Some((certificate, key)) = &credentials.certificate {
        let identity = Identity::from_pkcs8(&read(certificate)?, &read(key)?);
        builder.identity(identity.map_err(|error| error.to_string())?);
    }
    builder.build().map_err(|error| error.to_string())
}

fn read(path: &std::path::Path) -> Result<Vec<u8>, String> {
    std::fs::read(path).map_err(|error| format!("{}: {error}", path.display()))
}

/// A key with its value, as the gateway writes them.
pub(crate) fn pair_of(json: &Json) -> Result<(String, Vec<u8>), Failure> {
    let strange = || Failure::Refused("etcd's answer is not a key with a value".to_string());
    let key = text_of(&json["key"]).ok_or_else(strange)?;
    Ok((key, bytes_of(&json["value"]).ok_or_else(strange)?))
}

impl fmt::Debug for Etcd {
    fn fmt(&self, f: &mut fmt::Formatter<'_>) -> fmt::Result {
        f.debug_struct("Etcd").field("endpoints", &self.endpoints).finish_non_exhaustive()
    }
}

#[cfg(test)]
mod tests {
    use super::*;

    #[test]
    fn only_some_statuses_mean_that_nothing_was_done() {
        let (code, why) =
            read_error(r#"{"error":"mvcc: x","code":11,"message":"mvcc: compacted"}"#);
        assert_eq!((code, why.as_str()), (Some(11), "mvcc: compacted"));
        assert!(means_that_nothing_was_done(11));
        // Cancelled, Unknown, DeadlineExceeded, Aborted, Internal, Unavailable, DataLoss.
        for code in [1, 2, 4, 10, 13, 14, 15] {
            assert!(!means_that_nothing_was_done(code), "{code}");
        }
        assert_eq!(read_error("no JSON\n"), (None, "no JSON".to_string()));
    }

    #[test]
    fn a_cluster_that_is_away_is_asked_until_the_deadline() {
        let address = "etcd://127.0.0.1:9,127.0.0.1:10/x".parse().unwrap();
        let mut etcd = Etcd::new(&address, &Credentials::default()).unwrap();
        let begun = Instant::now();
        let asked = etcd.call("kv/range", &json!({}), begun + Duration::from_millis(300));
        assert!(matches!(asked, Err(Failure::Unknown(_))));
        assert!(begun.elapsed() < ATTEMPT && etcd.retries() > 1);
    }

    #[test]
    fn credentials_that_are_none_are_reported() {
        let address = "etcds://127.0.0.1:9/x".parse().unwrap();
        let authority = Some("/nowhere/ca.pem".into());
        let credentials = Credentials { authority, ..Credentials::default() };
        let error = Etcd::new(&address, &credentials).unwrap_err();
        assert!(error.starts_with("/nowhere/ca.pem: "), "{error}");
    }
}
