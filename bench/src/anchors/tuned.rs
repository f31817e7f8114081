//! The anchor "tuned": each call goes over its input once and makes the result in memory of its own, little of it for
//! short input; it is copied where all was good. A canonical bundle is its own canonical encoding.

use super::joining::{self, judge_checks, judge_length};
use super::output::{Output, Spill};
use super::reading::{self, Dropped, Rows};
use super::utf8::Windows;
use super::writing::{self, judge_sizes};
use super::{Counts, Failure};
use crate::format::kind;
use nachricht::limits::{MAX_BYTES, MAX_ROWS};
use nachricht_sys::Row;

/// Memory for any result.
const LARGE: usize = MAX_BYTES + Spill::SPARE;

/// Memory for results that are short.
const SMALL: usize = 1_024;

/// So few rows may be looked through for how long their result can get.
const FEW_ROWS: usize = 64;

/// Bytes of a bundle whose rows go into little memory: it has no more rows than bytes.
const FEW_BYTES: usize = 128;

pub fn check(bytes: &[u8], strict: bool) -> Result<Counts, Failure> {
    read_to(bytes, strict, MAX_ROWS, Dropped)
}

pub fn read(bytes: &[u8], strict: bool, rows: &mut [Row]) -> Result<Counts, Failure> {
    if bytes.len() <= FEW_BYTES {
        read_by::<FEW_BYTES>(bytes, strict, rows)
    } else {
        read_by::<MAX_ROWS>(bytes, strict, rows)
    }
}

pub fn write(rows: &[Row], text: &[u8], out: &mut [u8]) -> Result<usize, Failure> {
    judge_sizes(rows, text)?;
    if is_short(rows) {
        write_by::<SMALL>(rows, text, out)
    } else {
        write_by::<LARGE>(rows, text, out)
    }
}

pub fn join(first: &[u8], second: &[u8], out: &mut [u8]) -> Result<usize, Failure> {
    judge_checks(|bytes| check(bytes, false), first, second)?;
    // An item of one byte gets two at most.
    if 2 * (first.len() + second.len()) <= SMALL - Spill::SPARE {
        join_by::<SMALL>(first, second, out)
    } else {
        join_by::<LARGE>(first, second, out)
    }
}

pub fn canonicalize(bytes: &[u8], out: &mut [u8]) -> Result<usize, Failure> {
    if check(bytes, true).is_ok() {
        return copy_of(bytes, bytes.len(), out);
    }
    join(bytes, &[], out).map_err(|failure| failure.on(0))
}

#[inline(always)]
fn read_to(bytes: &[u8], strict: bool, capacity: usize, out: impl Rows) -> Result<Counts, Failure> {
    if strict {
        reading::read::<true, Windows>(bytes, capacity, out)
    } else {
        reading::read::<false, Windows>(bytes, capacity, out)
    }
}

/// A row without padding: its number, its start and, from bit 32 on, its kind.
type Packed = [u64; 2];

const NO_ROW: Packed = [0; 2];

impl Rows for &mut [Packed] {
    #[inline(always)]
    fn row(&mut self, number: usize, row: Row) {
        if let Some(packed) = self.get_mut(number) {
            *packed = [row.number, row.start as u64 | u64::from(row.kind) << 32];
        }
    }
}

#[inline(always)]
fn read_by<const N: usize>(
    bytes: &[u8],
    strict: bool,
    rows: &mut [Row],
) -> Result<Counts, Failure> {
    let mut memory = [NO_ROW; N];
    let capacity = rows.len().min(MAX_ROWS);
    let counts = read_to(bytes, strict, capacity, &mut memory[..])?;
    for (row, &[number, start_and_kind]) in rows[..counts.rows].iter_mut().zip(&memory) {
        *row = Row {
            kind: (start_and_kind >> 32) as u8,
            number,
            start: start_and_kind as u32 as usize,
        };
    }
    Ok(counts)
}

/// Whether rows are seen to have a result that is short.
#[inline(always)]
fn is_short(rows: &[Row]) -> bool {
    if rows.len() > FEW_ROWS {
        return false;
    }
    let with_content = |row: &&Row| row.kind == kind::BYTES || row.kind >= kind::STRING;
    let headers = 9 * rows.len() as u64;
    let most = rows
        .iter()
        .filter(with_content)
        .fold(headers, |most, row| most.saturating_add(row.number));
    most <= (SMALL - Spill::SPARE) as u64
}

#[inline(always)]
fn write_by<const N: usize>(rows: &[Row], text: &[u8], out: &mut [u8]) -> Result<usize, Failure> {
    let mut memory = [0; N];
    let mut spill = Spill::new(&mut memory);
    writing::write::<Windows>(rows, text, &mut spill)?;
    let length = spill.length();
    copy_of(&memory, length, out)
}

#[inline(always)]
fn join_by<const N: usize>(first: &[u8], second: &[u8], out: &mut [u8]) -> Result<usize, Failure> {
    let mut memory = [0; N];
    let mut spill = Spill::new(&mut memory);
    joining::join(first, second, &mut spill)?;
    let length = spill.length();
    copy_of(&memory, length, out)
}

/// Copies a result of this length, unless it is too long.
#[inline(always)]
fn copy_of(memory: &[u8], length: usize, out: &mut [u8]) -> Result<usize, Failure> {
    judge_length(length, out.len())?;
    out[..length].copy_from_slice(&memory[..length]);
    Ok(length)
}
