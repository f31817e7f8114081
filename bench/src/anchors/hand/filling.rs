//! The second pass of reading: rows of a bundle that was judged.

use crate::anchors::header::Header;
use crate::anchors::row;
use crate::anchors::table::{Entries, Entry};
use crate::format::{code, kind, kind_of};
use nachricht_sys::Row;

/// Fills in all rows of the bundle.
pub fn fill(bytes: &[u8], rows: &mut [Row]) {
    let mut entries = Entries::NONE;
    let mut offset = 0;
    for filled in rows {
        let lead = bytes.get(offset);
        let Some(header) = lead.and_then(|lead| Header::at(bytes, offset, *lead)) else {
            return;
        };
        let Header {
            code, number, end, ..
        } = header;
        offset = end;
        *filled = match code {
            code::POSITIVE..=code::CONTAINER => row::plain(kind_of(code), header.row_number()),
            code::REFERENCE => entries.get(number as usize).row(),
            code::STRING => {
                offset += number as usize;
                row::with_content(kind::STRING, end, number)
            }
            code::SYMBOL | code::KEY => {
                offset += number as usize;
                entries.add(Entry::new(end, number as usize, code == code::KEY));
                row::with_content(kind_of(code), end, number)
            }
            _ => {
                offset += header.binary_length() as usize;
                row::binary(bytes, header)
            }
        };
    }
}
