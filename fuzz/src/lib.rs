//! The reference behind C functions: each answers what the library's function of the same arguments has to.
//!
//! All pointers are the harness's, each good for the length beside it.

mod input;
mod random;

pub use input::generated;

use comparison::expected::{self, Expected};
use comparison::row;
use nachricht_sys::{Answer, Row};
use reference::Mode;

/// The elements at a pointer.
unsafe fn part<'a, T>(start: *const T, length: usize) -> &'a [T] {
    std::slice::from_raw_parts(start, length)
}

fn mode(strict: bool) -> Mode {
    if strict {
        Mode::Strict
    } else {
        Mode::Lenient
    }
}

/// Hands on what the reference has written to a buffer of its own.
unsafe fn written<E>(
    out: *mut u8,
    capacity: usize,
    call: impl FnOnce(&mut [u8]) -> Result<usize, E>,
) -> Answer
where
    Result<usize, E>: Expected,
{
    let (answer, bytes) = expected::written(capacity, call);
    out.copy_from_nonoverlapping(bytes.as_ptr(), bytes.len());
    answer
}

#[no_mangle]
unsafe extern "C" fn expected_check(bytes: *const u8, length: usize, strict: bool) -> Answer {
    reference::check(part(bytes, length), mode(strict)).answer()
}

#[no_mangle]
unsafe extern "C" fn expected_read(
    bytes: *const u8,
    length: usize,
    strict: bool,
    rows: *mut Row,
    capacity: usize,
) -> Answer {
    let (answer, filled) = expected::read(part(bytes, length), mode(strict), capacity);
    rows.copy_from_nonoverlapping(filled.as_ptr(), filled.len());
    answer
}

#[no_mangle]
unsafe extern "C" fn expected_write(
    rows: *const Row,
    count: usize,
    text: *const u8,
    length: usize,
    out: *mut u8,
    capacity: usize,
) -> Answer {
    let rows = part(rows, count).iter().copied();
    let rows = rows.map(row::to_reference).collect::<Vec<_>>();
    let text = part(text, length);
    written(out, capacity, |out| reference::write(&rows, text, out))
}

#[no_mangle]
unsafe extern "C" fn expected_canonicalize(
    bytes: *const u8,
    length: usize,
    out: *mut u8,
    capacity: usize,
) -> Answer {
    let bundle = part(bytes, length);
    written(out, capacity, |out| reference::canonicalize(bundle, out))
}

#[no_mangle]
unsafe extern "C" fn expected_join(
    first: *const u8,
    first_length: usize,
    second: *const u8,
    second_length: usize,
    out: *mut u8,
    capacity: usize,
) -> Answer {
    let (first, second) = (part(first, first_length), part(second, second_length));
    written(out, capacity, |out| reference::join(first, second, out))
}

#[no_mangle]
unsafe extern "C" fn expected_open(envelope: *const u8, length: usize) -> Answer {
    let opened = reference::open(part(envelope, length));
    opened.map(<[u8]>::len).answer()
}

#[no_mangle]
unsafe extern "C" fn expected_close(
    bundle: *const u8,
    length: usize,
    out: *mut u8,
    capacity: usize,
) -> Answer {
    let bundle = part(bundle, length);
    written(out, capacity, |out| reference::close(bundle, out))
}
