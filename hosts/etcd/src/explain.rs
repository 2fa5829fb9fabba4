//! What an operator has to know if etcd, or TLS below it, refuses what a server shows.
use crate::address::{Credentials, EtcdAddress};

/// What an error of TLS contains after which another attempt at the same node fails too.
const UNTRUSTED: &str = "certificate verify failed";
const HANDSHAKE: &str = "native_tls connect failed";
/// How a connection ends if the node does not know what it was sent: which of them depends on how
/// much the node had read by then.
const ENDED: [&str; 4] =
    ["unexpected EOF", "Unexpected EOF", "Connection reset by peer", "Broken pipe"];
const UNKNOWN_CLIENT: [&str; 4] = [
    "alert bad certificate",
    "alert certificate required",
    "alert unknown ca",
    "alert handshake failure",
];

/// What a refusal of etcd contains.
const WRONG_PASSWORD: &str = "invalid user ID or password";
const NO_USER: &str = "user name is empty";
const NO_USERS: &str = "authentication is not enabled";
const NOT_PERMITTED: &str = "permission denied";

/// Why a connection can't be used, if that lies in what the server was given: a sentence.
pub(crate) fn connection(why: &str, given: &Given) -> Option<String> {
    if why.contains(UNTRUSTED) {
        let by = given.authority.as_deref().unwrap_or("an authority of this system");
        Some(format!("its certificate is not certified by {by}, or is another host's: {why}"))
    } else if UNKNOWN_CLIENT.iter().any(|alert| why.contains(alert)) {
        Some(format!("it takes no client without a certificate of its authority: {why}"))
    } else {
        None
    }
}

/// Why an attempt at a node failed, with what may be wrong.
pub(crate) fn attempt(why: String) -> String {
    if !ENDED.iter().any(|end| why.contains(end)) {
        why
    } else if why.contains(HANDSHAKE) {
        format!("{why}; so does a node that speaks no TLS, and is reached by etcd://")
    } else {
        format!("{why}; so does a node that speaks only TLS, and is reached by etcds://")
    }
}

/// What etcd's refusal means for the server.
pub(crate) fn refusal(why: &str, given: &Given) -> String {
    let user = given.user.as_deref().unwrap_or("that was not given");
    if why.contains(WRONG_PASSWORD) {
        format!("the user {user} or the password is wrong")
    } else if why.contains(NO_USER) {
        "etcd wants a user and a password".to_string()
    } else if why.contains(NO_USERS) {
        format!("etcd has no users, and the user {user} was given: enable its users, or give none")
    } else if why.contains(NOT_PERMITTED) {
        format!("the user {user} may not use the keys below {}/", given.prefix)
    } else {
        format!("etcd refuses it: {why}")
    }
}

/// Whether etcd refuses a token that it gave: it has run out, or users have changed since.
pub(crate) fn is_of_token(why: &str) -> bool {
    ["auth token", "revision in header is old", "revision of auth store is old"]
        .iter()
        .any(|sign| why.contains(sign))
}

/// Whether etcd refuses a request since it knows no such lease: it has run out.
pub(crate) fn is_of_lost_lease(why: &str) -> bool {
    why.contains("requested lease not found")
}

/// Whether a refusal passes by itself: the node has more to do than it keeps up with.
pub(crate) fn passes_by_itself(why: &str) -> bool {
    why.contains("too many requests")
}

/// What the operator has given, but for the secrets.
pub(crate) struct Given {
    user: Option<String>,
    authority: Option<String>,
    prefix: String,
}

impl Given {
    pub fn new(address: &EtcdAddress, credentials: &Credentials) -> Given {
        Given {
            user: credentials.user.as_ref().map(|(name, _)| name.clone()),
            authority: credentials.authority.as_ref().map(|path| path.display().to_string()),
            prefix: address.prefix.clone(),
        }
    }
}

#[cfg(test)]
mod tests {
    use super::*;

    fn given(user: Option<&str>) -> Given {
        let user = user.map(|name| (name.to_string(), "secret".to_string()));
        let credentials = Credentials { user, ..Credentials::default() };
        Given::new(&"etcd://a:1/krl/orders".parse().unwrap(), &credentials)
    }

    #[test]
    fn what_etcd_refuses_is_reported_as_what_is_wrong() {
        let krl = given(Some("krl"));
        let failed = "etcdserver: authentication failed, invalid user ID or password";
        assert_eq!(refusal(failed, &krl), "the user krl or the password is wrong");
        let empty = "etcdserver: user name is empty";
        assert_eq!(refusal(empty, &given(None)), "etcd wants a user and a password");
        let denied = "etcdserver: permission denied";
        let reason = "the user krl may not use the keys below /krl/orders/";
        assert_eq!(refusal(denied, &krl), reason);
        assert_eq!(refusal("mvcc: compacted", &krl), "etcd refuses it: mvcc: compacted");
    }

    #[test]
    fn a_node_that_ends_a_connection_may_want_another_scheme() {
        for end in ["unexpected EOF", "Connection reset by peer (os error 104)"] {
            let reason = attempt(format!("Connection Failed: native_tls connect failed: {end}"));
            assert!(reason.ends_with("reached by etcd://"), "{reason}");
        }
        for end in ["Unexpected EOF", "Connection reset by peer (os error 104)"] {
            let reason = attempt(format!("Network Error: {end}"));
            assert!(reason.ends_with("reached by etcds://"), "{reason}");
        }
        assert_eq!(attempt("timed out".into()), "timed out");
    }

    #[test]
    fn what_passes_by_itself_is_nothing_that_was_given() {
        for why in ["Connection refused", "timed out", "Network Error: unexpected EOF"] {
            assert_eq!(connection(why, &given(None)), None);
        }
        let untrusted = connection("certificate verify failed: self-signed", &given(None));
        assert!(untrusted.is_some_and(|reason| reason.contains("of this system")));
    }
}
