//! Where a request comes from: a web page of another site must not read or order anything.
//!
//! A browser lets a page talk to the name that the page came from. The owner of that name may have
//! it resolve to 127.0.0.1 a moment later, and the page talks to this port then. But the browser
//! still names that site as the host of its requests.
use hyper::HeaderMap;
use hyper::header::{HOST, ORIGIN};
use std::net::{IpAddr, Ipv6Addr};

/// Who asks.
#[derive(Clone, Copy, Debug, PartialEq, Eq)]
pub enum Asker {
    /// A peer that has shown an operator's certificate.
    Operator,
    /// Anybody who can connect from this address.
    Unknown(IpAddr),
}

/// Why a request is refused, if a web page may have sent it. At a port without TLS the host that it
/// names has to be an address, `localhost`, or the name at which the port is configured to listen.
pub fn refusal(headers: &HeaderMap, asker: Asker, own_name: Option<&str>) -> Option<String> {
    if headers.contains_key(ORIGIN) {
        return Some("a web page has sent this request: it is not answered\n".to_string());
    }
    let host = headers.get(HOST)?;
    let is_own = |host: &str| is_own(host, own_name);
    if asker == Asker::Operator || host.to_str().is_ok_and(is_own) {
        return None;
    }
    Some(
        "the host of a request has to be an address, localhost, or the name in the setting status\n"
            .to_string(),
    )
}

fn is_own(host: &str, own_name: Option<&str>) -> bool {
    let name = without_port(host);
    let address = name.strip_prefix('[').and_then(|rest| rest.strip_suffix(']'));
    name.parse::<IpAddr>().is_ok()
        || address.is_some_and(|address| address.parse::<Ipv6Addr>().is_ok())
        || name.eq_ignore_ascii_case("localhost")
        || own_name.is_some_and(|own| name.eq_ignore_ascii_case(own))
}

fn without_port(host: &str) -> &str {
    match host.rsplit_once(':') {
        Some((name, port)) if port.bytes().all(|it| it.is_ascii_digit()) => name,
        _ => host,
    }
}

#[cfg(test)]
mod tests {
    use super::*;

    fn refusal_of(host: &str, origin: Option<&str>, asker: Asker) -> Option<String> {
        let mut headers = HeaderMap::new();
        headers.insert(HOST, host.parse().unwrap());
        if let Some(origin) = origin {
            headers.insert(ORIGIN, origin.parse().unwrap());
        }
        refusal(&headers, asker, Some("db1"))
    }

    #[test]
    fn a_name_of_another_site_is_refused() {
        let anybody = Asker::Unknown(Ipv6Addr::LOCALHOST.into());
        for host in [
            "127.0.0.1:7401",
            "127.0.0.1",
            "[::1]:7401",
            "[::1]",
            "localhost",
            "LOCALHOST:7401",
            "db1:7401",
            "10.0.0.5:80",
        ] {
            assert_eq!(refusal_of(host, None, anybody), None, "{host}");
        }
        for host in [
            "evil.example",
            "evil.example:7401",
            "127.0.0.1.evil.example",
            "localhost.evil.example",
            "db1.evil.example:7401",
            "",
            ":7401",
            "[evil]",
            "::1:evil",
        ] {
            assert!(refusal_of(host, None, anybody).is_some(), "{host}");
        }
        assert_eq!(refusal_of("evil.example", None, Asker::Operator), None, "it has a certificate");
        assert_eq!(refusal(&HeaderMap::new(), anybody, None), None, "no browser names no host");
    }

    #[test]
    fn a_request_of_a_web_page_is_refused() {
        for asker in [Asker::Operator, Asker::Unknown(Ipv6Addr::LOCALHOST.into())] {
            for origin in ["http://127.0.0.1:7401", "null"] {
                assert!(refusal_of("127.0.0.1:7401", Some(origin), asker).is_some(), "{origin}");
            }
        }
    }
}
