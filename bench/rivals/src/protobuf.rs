//! As much of protocol buffers as etcd's messages need: numbers and bytes.
use crate::system::Found;

/// A message that is put together.
#[derive(Clone, Debug, Default)]
pub struct Message(pub Vec<u8>);

impl Message {
    pub fn number(mut self, field: u8, value: u64) -> Message {
        self.0.push(field << 3);
        push_varint(&mut self.0, value);
        self
    }

    pub fn bytes(mut self, field: u8, value: &[u8]) -> Message {
        self.0.push(field << 3 | 2);
        push_varint(&mut self.0, value.len() as u64);
        self.0.extend_from_slice(value);
        self
    }
}

fn push_varint(to: &mut Vec<u8>, mut value: u64) {
    while value >= 0x80 {
        to.push(value.to_le_bytes()[0] | 0x80);
        value >>= 7;
    }
    to.push(value.to_le_bytes()[0]);
}

/// What a field has.
#[derive(Clone, Copy, Debug, PartialEq, Eq)]
pub enum Field<'a> {
    Number(u64),
    Bytes(&'a [u8]),
}

/// The fields of a message, in their order.
pub fn fields(mut message: &[u8]) -> Found<Vec<(u64, Field<'_>)>> {
    let mut fields = Vec::new();
    while !message.is_empty() {
        let tag = take_varint(&mut message)?;
        let value = take_varint(&mut message)?;
        let field = match tag & 7 {
            0 => Field::Number(value),
            2 => Field::Bytes(take(&mut message, value)?),
            kind => return Err(format!("a field of kind {kind} is not expected").into()),
        };
        fields.push((tag >> 3, field));
    }
    Ok(fields)
}

/// The bytes of the first field of this number, none if there is no such field.
pub fn bytes_of<'a>(fields: &[(u64, Field<'a>)], number: u64) -> &'a [u8] {
    let bytes = |field: &(u64, Field<'a>)| match field {
        (found, Field::Bytes(bytes)) if *found == number => Some(*bytes),
        _ => None,
    };
    fields.iter().find_map(bytes).unwrap_or_default()
}

/// The number of the first field of this number, 0 if there is no such field.
pub fn number_of(fields: &[(u64, Field<'_>)], number: u64) -> u64 {
    let value = |field: &(u64, Field<'_>)| match field {
        (found, Field::Number(value)) if *found == number => Some(*value),
        _ => None,
    };
    fields.iter().find_map(value).unwrap_or_default()
}

fn take<'a>(from: &mut &'a [u8], count: u64) -> Found<&'a [u8]> {
    let count = usize::try_from(count)?;
    let (taken, rest) = from.split_at_checked(count).ok_or("a message is too short")?;
    *from = rest;
    Ok(taken)
}

fn take_varint(from: &mut &[u8]) -> Found<u64> {
    let mut value = 0;
    for shift in (0..64).step_by(7) {
        let byte = take(from, 1)?[0];
        value |= u64::from(byte & 0x7f) << shift;
        if byte & 0x80 == 0 {
            return Ok(value);
        }
    }
    Err("a number of a message is too long".into())
}

#[cfg(test)]
mod tests {
    use super::*;

    #[test]
    fn messages_read_back() {
        let message = Message::default().number(3, 300).bytes(11, b"ab").number(1, u64::MAX);
        let fields = fields(&message.0).unwrap();
        let expected =
            [(3, Field::Number(300)), (11, Field::Bytes(b"ab")), (1, Field::Number(u64::MAX))];
        assert_eq!(fields, expected);
        assert_eq!((number_of(&fields, 3), bytes_of(&fields, 11)), (300, &b"ab"[..]));
        assert_eq!((number_of(&fields, 4), bytes_of(&fields, 4)), (0, &b""[..]));
    }
}
