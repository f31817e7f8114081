//! What is measured: the library, and the two anchors.

use crate::anchors::{counted, hand, joined, tuned, written};
use nachricht_sys::{Answer, Row};

/// The calls of an implementation, as the C interface has them.
#[derive(Clone, Copy)]
pub struct Codec {
    pub name: &'static str,
    pub check: fn(&[u8], bool) -> Answer,
    pub read: fn(&[u8], bool, &mut [Row]) -> Answer,
    pub write: fn(&[Row], &[u8], &mut [u8]) -> Answer,
    pub canonicalize: fn(&[u8], &mut [u8]) -> Answer,
    pub join: fn(&[u8], &[u8], &mut [u8]) -> Answer,
}

pub const LIBRARY: Codec = Codec {
    name: "library",
    check: nachricht_sys::check,
    read: |bytes, strict, rows| nachricht_sys::read(bytes, strict, rows),
    write: |rows, text, out| nachricht_sys::write(rows, text, out),
    canonicalize: nachricht_sys::canonicalize,
    join: nachricht_sys::join,
};

/// The calls of the module of an anchor.
macro_rules! anchor {
    ($module:ident) => {
        Codec {
            name: stringify!($module),
            check: |bytes, strict| counted($module::check(bytes, strict), bytes),
            read: |bytes, strict, rows| counted($module::read(bytes, strict, rows), bytes),
            write: |rows, text, out| written($module::write(rows, text, out), rows, text),
            canonicalize: |bytes, out| joined($module::canonicalize(bytes, out), bytes, &[]),
            join: |first, second, out| joined($module::join(first, second, out), first, second),
        }
    };
}

/// What the library is held against.
pub const ANCHORS: [Codec; 2] = [anchor!(hand), anchor!(tuned)];
