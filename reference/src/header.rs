//! The header of an item: a lead byte, with the payload in it or in the bytes that follow.

/// What a header announces.
#[derive(Clone, Copy, PartialEq, Eq, Debug)]
pub enum Code {
    Null,
    True,
    False,
    Float4,
    Float8,
    Bytes,
    Positive,
    Negative,
    Container,
    String,
    Symbol,
    Key,
    Reference,
}

/// A header that was read.
#[derive(Clone, Copy, PartialEq, Eq, Debug)]
pub struct Header {
    pub code: Code,
    /// 0 where the code has no payload: null, true, false and the floats.
    pub payload: u64,
    /// Bytes of the header, the lead byte counted.
    pub length: usize,
}

impl Code {
    fn of_lead_byte(lead: u8) -> Code {
        match (lead >> 5, lead & 0x1F) {
            (0, 0) => Code::Null,
            (0, 1) => Code::True,
            (0, 2) => Code::False,
            (0, 3) => Code::Float4,
            (0, 4) => Code::Float8,
            (0, _) => Code::Bytes,
            (1, _) => Code::Positive,
            (2, _) => Code::Negative,
            (3, _) => Code::Container,
            (4, _) => Code::String,
            (5, _) => Code::Symbol,
            (6, _) => Code::Key,
            _ => Code::Reference,
        }
    }
}

impl Header {
    /// Reads the header that the bytes begin with; `None` where they end inside it.
    pub fn parse(bytes: &[u8]) -> Option<Header> {
        let (&lead, following) = bytes.split_first()?;
        let code = Code::of_lead_byte(lead);
        let sz = lead & 0x1F;
        let (payload, count) = match (code, sz) {
            (Code::Null | Code::True | Code::False | Code::Float4 | Code::Float8, _) => (0, 0),
            (_, 24..=31) => {
                let count = usize::from(sz - 23);
                (big_endian(following.get(..count)?), count)
            }
            (Code::Bytes, _) => (u64::from(sz - 5), 0),
            _ => (u64::from(sz), 0),
        };
        let length = 1 + count;
        Some(Header {
            code,
            payload,
            length,
        })
    }

    /// How many bytes of content follow the header.
    pub fn content_length(&self) -> u64 {
        match self.code {
            Code::Float4 => 4,
            Code::Float8 => 8,
            Code::Bytes | Code::String | Code::Symbol | Code::Key => self.payload,
            _ => 0,
        }
    }

    /// Whether a shorter header says the same.
    pub fn is_long(&self) -> bool {
        self.length > shortest(self.code, self.payload).len()
    }

    /// Whether this is the second header for −(2^64 − 1), which canonical bundles do not use.
    pub fn is_superfluous_negative(&self) -> bool {
        self.code == Code::Negative && self.payload == u64::MAX
    }
}

/// The number in at most eight bytes, most significant first.
pub fn big_endian(bytes: &[u8]) -> u64 {
    bytes
        .iter()
        .fold(0, |number, &byte| number << 8 | u64::from(byte))
}

/// The shortest header for a payload. It is the only one where the code has no payload.
pub fn shortest(code: Code, payload: u64) -> Vec<u8> {
    match code {
        Code::Null => vec![0],
        Code::True => vec![1],
        Code::False => vec![2],
        Code::Float4 => vec![3],
        Code::Float8 => vec![4],
        Code::Bytes => shortest_with_payload(0, payload, 5),
        Code::Positive => shortest_with_payload(1, payload, 0),
        Code::Negative => shortest_with_payload(2, payload, 0),
        Code::Container => shortest_with_payload(3, payload, 0),
        Code::String => shortest_with_payload(4, payload, 0),
        Code::Symbol => shortest_with_payload(5, payload, 0),
        Code::Key => shortest_with_payload(6, payload, 0),
        Code::Reference => shortest_with_payload(7, payload, 0),
    }
}

/// `taken` is how many values of sz the code has given away to items without a payload.
fn shortest_with_payload(code: u8, payload: u64, taken: u8) -> Vec<u8> {
    if payload <= u64::from(23 - taken) {
        return vec![code << 5 | (payload as u8 + taken)];
    }
    let digits = payload.to_be_bytes();
    let zeros = digits.iter().take_while(|&&digit| digit == 0).count();
    let digits = &digits[zeros..];
    let mut header = vec![code << 5 | (23 + digits.len() as u8)];
    header.extend_from_slice(digits);
    header
}
