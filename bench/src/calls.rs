//! The calls that are measured.

use crate::codec::Codec;
use crate::message::Message;
use nachricht::limits::{MAX_BYTES, MAX_ROWS};
use nachricht_sys::{Answer, Row};

/// A call, and which encoding of a message it gets.
#[derive(Clone, Copy, PartialEq, Eq)]
pub enum Call {
    Check,
    CheckStrict,
    Read,
    Write,
    /// Of canonical bytes.
    Canonicalize,
    CanonicalizeLoose,
    Join,
}

/// Each call with its name.
pub const CALLS: [(Call, &str); 7] = [
    (Call::Check, "check"),
    (Call::CheckStrict, "check strict"),
    (Call::Read, "read"),
    (Call::Write, "write"),
    (Call::Canonicalize, "canonicalize"),
    (Call::CanonicalizeLoose, "canonicalize loose"),
    (Call::Join, "join"),
];

/// What a call writes to.
#[derive(Clone, PartialEq, Eq)]
pub struct Buffers {
    pub rows: Vec<Row>,
    pub out: Vec<u8>,
}

impl Buffers {
    /// Large enough for every result, and filled with what no call writes there.
    pub fn untouched() -> Buffers {
        let row = Row {
            kind: 0xEE,
            number: 0xEE,
            start: 0xEE,
        };
        Buffers {
            rows: vec![row; MAX_ROWS],
            out: vec![0xEE; MAX_BYTES],
        }
    }
}

impl Call {
    /// Makes the call.
    #[inline(always)]
    pub fn make(self, codec: &Codec, message: &Message, buffers: &mut Buffers) -> Answer {
        let canonical = &message.canonical;
        let Buffers { rows, out } = buffers;
        match self {
            Call::Check => (codec.check)(canonical, false),
            Call::CheckStrict => (codec.check)(canonical, true),
            Call::Read => (codec.read)(canonical, false, rows),
            Call::Write => (codec.write)(&message.rows, canonical, out),
            Call::Canonicalize => (codec.canonicalize)(canonical, out),
            Call::CanonicalizeLoose => (codec.canonicalize)(&message.loose, out),
            Call::Join => (codec.join)(&message.first, &message.second, out),
        }
    }
}
