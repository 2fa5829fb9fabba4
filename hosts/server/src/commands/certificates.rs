//! Until when certificates are valid.
use krl::operate::Certificate;
use std::fmt::Write;
use std::time::{SystemTime, UNIX_EPOCH};

const HOUR: i64 = 3600;
const DAY: i64 = 24 * HOUR;

/// How the file of a certificate as PEM begins, if nothing stands before it.
const BEGIN: &[u8] = b"-----BEGIN ";

/// Whether the bytes are those of a file as PEM.
pub fn is_pem(bytes: &[u8]) -> bool {
    bytes.windows(BEGIN.len()).any(|part| part == BEGIN)
}

/// A description of the certificates, and whether all are valid now and for this many days.
pub fn judge(certificates: &[Certificate], now: SystemTime, days: u32) -> (String, bool) {
    let now = now.duration_since(UNIX_EPOCH).map_or(0, |since| since.as_secs());
    let now = i64::try_from(now).unwrap_or(i64::MAX);
    let (mut text, mut are_valid) = (String::new(), true);
    for certificate in certificates {
        let Certificate { subject, names, valid_from_at, expires_at, .. } = certificate;
        let names = if names.is_empty() { "none".to_string() } else { names.join(", ") };
        let (judgment, is_valid) = judge_one(certificate, now, days);
        are_valid &= is_valid;
        // A string takes all that is written to it.
        let _ = write!(
            text,
            "subject: {subject}\nnames: {names}\nvalid from: {valid_from_at}\nvalid until: \
             {expires_at}\n{judgment}\n"
        );
    }
    (text, are_valid)
}

fn judge_one(certificate: &Certificate, now: i64, days: u32) -> (String, bool) {
    let left = certificate.expires - now;
    if left <= 0 {
        return (format!("it has expired {} ago", length(-left)), false);
    }
    if certificate.valid_from > now {
        return (format!("it becomes valid in {}", length(certificate.valid_from - now)), false);
    }
    let is_valid = left >= i64::from(days) * DAY;
    let wanted = if is_valid { String::new() } else { format!(", and not for {days} days") };
    (format!("it is valid for {} more{wanted}", length(left)), is_valid)
}

/// A number of seconds, for people.
fn length(seconds: i64) -> String {
    let (count, unit) = match seconds {
        DAY.. => (seconds / DAY, "day"),
        HOUR.. => (seconds / HOUR, "hour"),
        _ => (seconds, "second"),
    };
    format!("{count} {unit}{}", if count == 1 { "" } else { "s" })
}

#[cfg(test)]
mod tests {
    use super::*;

    #[test]
    fn lengths_for_people() {
        for (seconds, message) in
            [(5, "5 seconds"), (HOUR, "1 hour"), (DAY - 1, "23 hours"), (2 * DAY, "2 days")]
        {
            assert_eq!(length(seconds), message);
        }
    }

    #[test]
    fn a_file_of_pem_is_known_by_its_first_line() {
        assert!(is_pem(b"-----BEGIN CERTIFICATE-----\n"));
        assert!(is_pem(b"Bag Attributes\n-----BEGIN CERTIFICATE-----\n"));
        assert!(!is_pem(b"SQLite format 3\0"));
        assert!(!is_pem(b""));
    }
}
