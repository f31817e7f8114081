//! The functions of `nachricht.h`, declared.

use crate::{Answer, Row};

extern "C" {
    pub fn nachricht_check(bytes: *const u8, len: usize, strict: bool) -> Answer;
    pub fn nachricht_read(
        bytes: *const u8,
        len: usize,
        strict: bool,
        rows: *mut Row,
        rows_len: usize,
    ) -> Answer;
    pub fn nachricht_write(
        rows: *const Row,
        rows_len: usize,
        text: *const u8,
        text_len: usize,
        out: *mut u8,
        out_len: usize,
    ) -> Answer;
    pub fn nachricht_canonicalize(
        bytes: *const u8,
        len: usize,
        out: *mut u8,
        out_len: usize,
    ) -> Answer;
    pub fn nachricht_join(
        first: *const u8,
        first_len: usize,
        second: *const u8,
        second_len: usize,
        out: *mut u8,
        out_len: usize,
    ) -> Answer;
    pub fn nachricht_open(envelope: *const u8, len: usize) -> Answer;
    pub fn nachricht_close(bundle: *const u8, len: usize, out: *mut u8, out_len: usize) -> Answer;
}
