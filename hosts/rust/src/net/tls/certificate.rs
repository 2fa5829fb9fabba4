//! The content of a side's own certificate.
use crate::identity::{Role, TableName};
use openssl::asn1::{Asn1Time, Asn1TimeRef};
use openssl::error::ErrorStack;
use openssl::nid::Nid;
use openssl::x509::{X509, X509NameRef, X509Ref};
use std::fmt::Write;

/// The most characters of a subject that are shown.
const LONGEST_SUBJECT: usize = 200;

/// A certificate, as it is shown to people.
#[derive(Clone, Debug, PartialEq, Eq)]
#[non_exhaustive]
pub struct Certificate {
    /// Its subject, such as `CN=krl server`. What is not printed is replaced, and 200 characters
    /// are shown at most.
    pub subject: String,
    /// Its names of the kind URI, such as `krl:server`.
    pub names: Vec<String>,
    /// When it begins to be valid, in seconds since 1970.
    pub valid_from: i64,
    /// When it expires, in seconds since 1970.
    pub expires: i64,
    /// When it begins to be valid, for people: `Nov 26 06:00:00 2026 GMT`.
    pub valid_from_at: String,
    /// When it expires, for people: `Nov 26 06:00:00 2027 GMT`.
    pub expires_at: String,
}

/// Why a server can't show a certificate.
#[derive(Clone, Copy, Debug, PartialEq, Eq)]
pub(super) enum Unfit {
    Expired,
    NotYetValid,
    NoName,
}

impl Certificate {
    /// The certificates of a text as PEM, in their order; or `None` if there are none, or one can't
    /// be read.
    #[must_use]
    pub fn all_of_pem(pem: &[u8]) -> Option<Vec<Certificate>> {
        let read = X509::stack_from_pem(pem).ok().filter(|read| !read.is_empty())?;
        read.iter().map(|certificate| Certificate::of(certificate).ok()).collect()
    }

    pub(super) fn of(certificate: &X509Ref) -> Result<Certificate, ErrorStack> {
        Ok(Certificate {
            subject: shown(certificate.subject_name()),
            names: names_of(certificate),
            valid_from: seconds(certificate.not_before())?,
            expires: seconds(certificate.not_after())?,
            valid_from_at: certificate.not_before().to_string(),
            expires_at: certificate.not_after().to_string(),
        })
    }

    /// Whether a server of this table can show it now, in seconds since 1970.
    pub(super) fn judge_for_server(&self, table: Option<&TableName>, now: i64) -> Option<Unfit> {
        if now >= self.expires {
            Some(Unfit::Expired)
        } else if now < self.valid_from {
            Some(Unfit::NotYetValid)
        } else if !Role::is_server(self.names.iter().map(String::as_str), table) {
            Some(Unfit::NoName)
        } else {
            None
        }
    }
}

/// A subject, as it is shown to people.
pub(super) fn shown(name: &X509NameRef) -> String {
    let mut text = String::new();
    for entry in name.entries() {
        let kind = entry.object().nid();
        let kind = if kind == Nid::UNDEF { "?" } else { kind.short_name().unwrap_or("?") };
        let value = entry.data().as_utf8();
        let value = value.as_ref().map_or("?", |value| &**value);
        let comma = if text.is_empty() { "" } else { ", " };
        // Writing to a string does not fail.
        let _ = write!(text, "{comma}{kind}={value}");
    }
    let printed = text.chars().map(|it| if it.is_control() { '?' } else { it });
    printed.take(LONGEST_SUBJECT).collect()
}

/// The names of the kind URI.
pub(super) fn names_of(certificate: &X509Ref) -> Vec<String> {
    let names = certificate.subject_alt_names();
    let names = names.iter().flatten().filter_map(|name| name.uri());
    names.map(String::from).collect()
}

/// In seconds since 1970.
fn seconds(time: &Asn1TimeRef) -> Result<i64, ErrorStack> {
    let since = Asn1Time::from_unix(0)?.diff(time)?;
    Ok(i64::from(since.days) * 86_400 + i64::from(since.secs))
}

#[cfg(test)]
mod tests {
    use super::*;

    #[test]
    fn a_server_shows_a_certificate_that_is_valid_now_and_names_it() {
        let certificate = Certificate {
            subject: "CN=krl server".into(),
            names: vec!["krl:server@orders".into()],
            valid_from: 100,
            expires: 200,
            valid_from_at: "now".into(),
            expires_at: "then".into(),
        };
        let (orders, none) = ("orders".parse::<TableName>().unwrap(), None);
        let judge = |now| certificate.judge_for_server(Some(&orders), now);
        assert_eq!((judge(100), judge(199)), (None, None));
        assert_eq!((judge(99), judge(200)), (Some(Unfit::NotYetValid), Some(Unfit::Expired)));
        assert_eq!(certificate.judge_for_server(none, 150), Some(Unfit::NoName));
        let client = Certificate { names: vec!["krl:client:3@orders".into()], ..certificate };
        assert_eq!(client.judge_for_server(Some(&orders), 150), Some(Unfit::NoName));
    }
}
