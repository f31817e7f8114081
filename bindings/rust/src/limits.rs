//! The limits of the format.

/// Bytes in a bundle, and in the text that [`write`](crate::write) is lent.
pub const MAX_BYTES: usize = 16_384;

/// Rows, that is items, of a bundle.
pub const MAX_ROWS: usize = 1_024;

/// Entries in the symbol table of a bundle.
pub const MAX_ENTRIES: usize = 256;

/// Containers open at once.
pub const MAX_DEPTH: usize = 32;

/// Bytes in an envelope: a bundle and the [`ENVELOPE_HEADER`] before it.
pub const MAX_ENVELOPE: usize = ENVELOPE_HEADER + MAX_BYTES;

/// Bytes in an envelope before its bundle: two of length, one of version.
pub const ENVELOPE_HEADER: usize = 3;
