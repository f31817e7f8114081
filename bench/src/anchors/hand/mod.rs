//! The anchor "hand": each call goes over its input to judge and measure it, and then a second time to write.

mod filling;
mod planning;

use super::joining::{self, judge_checks, judge_length};
use super::output::{Measure, Output, Writer};
use super::reading::{self, Dropped};
use super::utf8::Characters;
use super::writing::{self, judge_sizes};
use super::{Counts, Failure};
use filling::fill;
use nachricht::limits::MAX_ROWS;
use nachricht_sys::Row;
use planning::{put, Plan, NO_REFERENCES};

pub fn check(bytes: &[u8], strict: bool) -> Result<Counts, Failure> {
    judge(bytes, strict, MAX_ROWS)
}

pub fn read(bytes: &[u8], strict: bool, rows: &mut [Row]) -> Result<Counts, Failure> {
    let counts = judge(bytes, strict, rows.len().min(MAX_ROWS))?;
    fill(bytes, &mut rows[..counts.rows]);
    Ok(counts)
}

fn judge(bytes: &[u8], strict: bool, capacity: usize) -> Result<Counts, Failure> {
    if strict {
        reading::read::<true, Characters>(bytes, capacity, Dropped)
    } else {
        reading::read::<false, Characters>(bytes, capacity, Dropped)
    }
}

pub fn write(rows: &[Row], text: &[u8], out: &mut [u8]) -> Result<usize, Failure> {
    judge_sizes(rows, text)?;
    let mut references = NO_REFERENCES;
    let mut plan = Plan::new(&mut references);
    writing::write::<Characters>(rows, text, &mut plan)?;
    let length = plan.length();
    judge_length(length, out.len())?;
    put(rows, text, &references, Writer::new(&mut out[..length]));
    Ok(length)
}

pub fn join(first: &[u8], second: &[u8], out: &mut [u8]) -> Result<usize, Failure> {
    judge_checks(|bytes| check(bytes, false), first, second)?;
    let mut measure = Measure::default();
    joining::join(first, second, &mut measure)?;
    let length = measure.length();
    judge_length(length, out.len())?;
    joining::join(first, second, &mut Writer::new(&mut out[..length]))?;
    Ok(length)
}

pub fn canonicalize(bytes: &[u8], out: &mut [u8]) -> Result<usize, Failure> {
    join(bytes, &[], out).map_err(|failure| failure.on(0))
}
