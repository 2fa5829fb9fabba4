//! What etcd has of leases.
use krl::store::{ClientSet, LeaseRecord};

/// The record as text: `LONGEST UNLEASED`, nanoseconds and a number in hexadecimal digits, in which
/// the bit of value 2^n stands for client n.
pub(crate) fn encode(record: LeaseRecord) -> String {
    format!("{} {:016x}", record.longest, record.unleased.bits())
}

/// The record, if the text is one.
pub(crate) fn decode(text: &str) -> Option<LeaseRecord> {
    let (longest, unleased) = text.split_once(' ')?;
    let unleased = ClientSet::of_bits(u64::from_str_radix(unleased, 16).ok()?);
    let record = LeaseRecord { longest: longest.parse().ok()?, unleased };
    (encode(record) == text).then_some(record)
}

#[cfg(test)]
mod tests {
    use super::*;

    #[test]
    fn records_are_read_as_they_are_written() {
        for unleased in [0, 5, 1 << 63, u64::MAX] {
            for longest in [0, 10_000_000_000, u64::MAX] {
                let record = LeaseRecord { longest, unleased: ClientSet::of_bits(unleased) };
                assert_eq!(decode(&encode(record)), Some(record));
            }
        }
        for text in
            ["", "0", "0 5", "01 0000000000000005", "1 +00000000000000f", "1 000000000000000F"]
        {
            assert_eq!(decode(text), None, "{text}");
        }
    }
}
