//! The C functions of `libnachricht.a` as safe functions over slices, which answer what the library does.
//!
//! The header `nachricht.h` says what each does. The crate `nachricht` is what programs want to use: it has errors and
//! items in place of numbers.
#![deny(missing_docs)]

mod c;

/// What a C function answers, field by field as in `nachricht.h`.
#[repr(C)]
#[derive(Clone, Copy, PartialEq, Eq, Hash, Debug, Default)]
pub struct Answer {
    /// 0, or the error's number.
    pub error: u64,
    /// Where the error is; 0 without one.
    pub place: u64,
    /// In joining: 1 or 2 for the bundle that does not read, else 0.
    pub side: u64,
    /// In writing: beside error 3 the number of the row; else 0.
    pub row: u64,
    /// Rows read, bytes written, or in opening the bundle's length; 0 beside an error.
    pub count: u64,
    /// In checking and reading: entries in the symbol table; 0 beside an error.
    pub entries: u64,
    /// In checking and reading: fields at the top level; 0 beside an error.
    pub fields: u64,
}

/// A row of a table, field by field as in `nachricht.h`.
#[repr(C)]
#[derive(Clone, Copy, PartialEq, Eq, Hash, Debug, Default)]
pub struct Row {
    /// The number of a kind.
    pub kind: u8,
    /// What the kind says.
    pub number: u64,
    /// The offset of the content in the bundle or text, also of empty content; 0 for kinds without content.
    pub start: usize,
}

/// A type whose slices are tables of rows too. A crate cannot add methods to [`Row`], so it may have a type of its own.
///
/// # Safety
///
/// The type is `#[repr(C)]` with the fields of [`Row`] in the same order.
pub unsafe trait RowLayout {}

// SAFETY: it is the type itself.
unsafe impl RowLayout for Row {}

// Of every call below: a pointer and its length come from one slice, so it is good for that length and aligned; what is
// written to is borrowed mutably, so it overlaps nothing else; the library keeps no pointer. That is all it asks.

/// `nachricht_check`: checks a bundle and counts what it holds.
#[inline]
pub fn check(bytes: &[u8], strict: bool) -> Answer {
    // SAFETY: one slice, only read.
    unsafe { c::nachricht_check(bytes.as_ptr(), bytes.len(), strict) }
}

/// `nachricht_read`: reads a bundle into a table of rows.
#[inline]
pub fn read(bytes: &[u8], strict: bool, rows: &mut [impl RowLayout]) -> Answer {
    // SAFETY: two slices, only `rows` written to, and with rows; they are laid out as in C.
    unsafe {
        c::nachricht_read(
            bytes.as_ptr(),
            bytes.len(),
            strict,
            rows.as_mut_ptr().cast(),
            rows.len(),
        )
    }
}

/// `nachricht_write`: writes the canonical encoding of rows, whose content stands in the text, into a buffer.
#[inline]
pub fn write(rows: &[impl RowLayout], text: &[u8], out: &mut [u8]) -> Answer {
    // SAFETY: three slices, only `out` written to; rows are laid out as in C, and their padding is not looked at.
    unsafe {
        c::nachricht_write(
            rows.as_ptr().cast(),
            rows.len(),
            text.as_ptr(),
            text.len(),
            out.as_mut_ptr(),
            out.len(),
        )
    }
}

/// `nachricht_canonicalize`: writes the canonical encoding of a bundle into a buffer.
#[inline]
pub fn canonicalize(bytes: &[u8], out: &mut [u8]) -> Answer {
    // SAFETY: two slices, only `out` written to.
    unsafe { c::nachricht_canonicalize(bytes.as_ptr(), bytes.len(), out.as_mut_ptr(), out.len()) }
}

/// `nachricht_join`: joins two bundles into a buffer.
#[inline]
pub fn join(first: &[u8], second: &[u8], out: &mut [u8]) -> Answer {
    // SAFETY: three slices, only `out` written to; the bundles may be the same.
    unsafe {
        c::nachricht_join(
            first.as_ptr(),
            first.len(),
            second.as_ptr(),
            second.len(),
            out.as_mut_ptr(),
            out.len(),
        )
    }
}

/// `nachricht_open`: opens the envelope that the bytes begin with; the count is the bundle's length.
#[inline]
pub fn open(envelope: &[u8]) -> Answer {
    // SAFETY: one slice, only read.
    unsafe { c::nachricht_open(envelope.as_ptr(), envelope.len()) }
}

/// `nachricht_close`: puts a bundle, unread, into an envelope in a buffer.
#[inline]
pub fn close(bundle: &[u8], out: &mut [u8]) -> Answer {
    // SAFETY: two slices, only `out` written to.
    unsafe { c::nachricht_close(bundle.as_ptr(), bundle.len(), out.as_mut_ptr(), out.len()) }
}
