//! How names are written: found out when rows are judged, and used when they are written.

use crate::anchors::output::{Measure, Output};
use crate::format::{code, code_of, kind};
use nachricht::limits::MAX_ROWS;
use nachricht_sys::Row;

/// For each row one more than the index that it refers to, or 0.
type References = [u16; MAX_ROWS];

pub const NO_REFERENCES: References = [0; MAX_ROWS];

/// Measures, and notes the references.
pub struct Plan<'a> {
    measure: Measure,
    references: &'a mut References,
}

impl<'a> Plan<'a> {
    #[inline(always)]
    pub fn new(references: &'a mut References) -> Plan<'a> {
        Plan {
            measure: Measure::default(),
            references,
        }
    }
}

impl Output for Plan<'_> {
    #[inline(always)]
    fn header(&mut self, code: u8, payload: u64) {
        self.measure.header(code, payload);
    }

    #[inline(always)]
    fn bytes(&mut self, bytes: &[u8]) {
        self.measure.bytes(bytes);
    }

    #[inline(always)]
    fn length(&self) -> usize {
        self.measure.length()
    }

    #[inline(always)]
    fn reference(&mut self, item: usize, index: usize) {
        self.references[item] = index as u16 + 1;
        self.measure.reference(item, index);
    }
}

/// Puts rows that were judged into the output.
#[inline(always)]
pub fn put(rows: &[Row], text: &[u8], references: &References, mut out: impl Output) {
    for (row, reference) in rows.iter().zip(references) {
        let number = row.number;
        match row.kind {
            kind::POSITIVE..=kind::CONTAINER => out.header(code_of(row.kind), number),
            _ if *reference != 0 => out.header(code::REFERENCE, u64::from(*reference) - 1),
            kind::BYTES | kind::STRING.. => {
                let content = &text[row.start..row.start + number as usize];
                out.content(code_of(row.kind), content);
            }
            _ => out.fixed(row.kind, number),
        }
    }
}
