//! The four limits of a bundle.

/// Bytes in a bundle, and in the text handed to `write`.
pub const MAX_BYTES: usize = 16_384;

/// Rows, that is items, in a bundle.
pub const MAX_ROWS: usize = 1_024;

/// Entries in the symbol table.
pub const MAX_ENTRIES: usize = 256;

/// Containers open at once.
pub const MAX_OPEN: usize = 32;
