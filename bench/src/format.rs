//! The numbers of the format, by name.

/// The codes of headers.
pub mod code {
    pub const BINARY: u8 = 0;
    pub const POSITIVE: u8 = 1;
    pub const NEGATIVE: u8 = 2;
    pub const CONTAINER: u8 = 3;
    pub const STRING: u8 = 4;
    pub const SYMBOL: u8 = 5;
    pub const KEY: u8 = 6;
    pub const REFERENCE: u8 = 7;
}

/// The values of `sz`, the lower five bits of a lead byte.
pub mod sz {
    pub const NULL: u8 = 0;
    pub const FALSE: u8 = 2;
    pub const FLOAT32: u8 = 3;
    pub const FLOAT64: u8 = 4;
    /// How many values code 0 has for types of fixed size.
    pub const FIXED: u8 = 5;
    /// Of a payload in the lead byte; those above it say how many bytes follow.
    pub const MAX_INLINE: u8 = 23;
}

/// The kinds of rows.
pub mod kind {
    pub const NULL: u8 = 0;
    pub const FALSE: u8 = 2;
    pub const FLOAT32: u8 = 3;
    pub const FLOAT64: u8 = 4;
    pub const BYTES: u8 = 5;
    pub const POSITIVE: u8 = 6;
    pub const NEGATIVE: u8 = 7;
    pub const CONTAINER: u8 = 8;
    pub const STRING: u8 = 9;
    pub const SYMBOL: u8 = 10;
    pub const KEY: u8 = 11;
}

/// The kind of row that a code stands for: from bytes on kinds stand in the order of codes.
pub const fn kind_of(code: u8) -> u8 {
    code + kind::BYTES
}

/// The code of a kind that is not of a fixed size.
pub const fn code_of(kind: u8) -> u8 {
    kind - kind::BYTES
}

/// The payload of a second encoding of the least integer, −(2^64 − 1).
pub const NEGATIVE_ALIAS: u64 = u64::MAX;
