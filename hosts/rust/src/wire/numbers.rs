//! Numbers in the frames of the hosts: eight bytes each, the lowest first.

/// The bytes of the numbers.
pub(crate) fn bytes_of(numbers: impl IntoIterator<Item = u64>) -> Vec<u8> {
    numbers.into_iter().flat_map(u64::to_le_bytes).collect()
}

/// Appends the bytes of the numbers.
pub(crate) fn append<const N: usize>(numbers: [u64; N], bytes: &mut Vec<u8>) {
    bytes.extend_from_slice(numbers.map(u64::to_le_bytes).as_flattened());
}

/// The numbers that the bytes begin with. A later release may send more after them.
pub(crate) fn read<const N: usize>(bytes: &[u8]) -> Option<[u64; N]> {
    let (mut numbers, mut rest) = ([0; N], bytes);
    for number in &mut numbers {
        let (first, after) = rest.split_first_chunk()?;
        (*number, rest) = (u64::from_le_bytes(*first), after);
    }
    Some(numbers)
}
