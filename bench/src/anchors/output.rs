//! Where items go, one after the other.

use super::header::{inline_lead, is_inline, long_lead, width};
use crate::format::{code, kind};

pub trait Output {
    /// The shortest header.
    fn header(&mut self, code: u8, payload: u64);

    fn bytes(&mut self, bytes: &[u8]);

    /// How many bytes there are so far.
    fn length(&self) -> usize;

    /// A name that refers to an entry; so many items come before it.
    #[inline(always)]
    fn reference(&mut self, _item: usize, index: usize) {
        self.header(code::REFERENCE, index as u64);
    }

    /// A value of a fixed size: its kind, which is its lead byte, and the bits of a float.
    #[inline(always)]
    fn fixed(&mut self, kind: u8, bits: u64) {
        self.bytes(&[kind]);
        match kind {
            kind::FLOAT32 => self.bytes(&(bits as u32).to_be_bytes()),
            kind::FLOAT64 => self.bytes(&bits.to_be_bytes()),
            _ => {}
        }
    }

    /// A header, and the content that it counts.
    #[inline(always)]
    fn content(&mut self, code: u8, content: &[u8]) {
        self.header(code, content.len() as u64);
        self.bytes(content);
    }
}

/// Only measures.
#[derive(Default)]
pub struct Measure {
    length: usize,
}

impl Output for Measure {
    #[inline(always)]
    fn header(&mut self, code: u8, payload: u64) {
        self.length += 1;
        if !is_inline(code, payload) {
            self.length += width(payload);
        }
    }

    #[inline(always)]
    fn bytes(&mut self, bytes: &[u8]) {
        self.length += bytes.len();
    }

    #[inline(always)]
    fn length(&self) -> usize {
        self.length
    }
}

/// Writes to a buffer that was found to have space.
pub struct Writer<'a> {
    buffer: &'a mut [u8],
    length: usize,
}

impl<'a> Writer<'a> {
    #[inline(always)]
    pub fn new(buffer: &'a mut [u8]) -> Writer<'a> {
        Writer { buffer, length: 0 }
    }
}

impl Output for Writer<'_> {
    #[inline(always)]
    fn header(&mut self, code: u8, payload: u64) {
        if is_inline(code, payload) {
            return self.bytes(&[inline_lead(code, payload)]);
        }
        let following = width(payload);
        self.bytes(&[long_lead(code, following)]);
        self.bytes(&payload.to_be_bytes()[8 - following..]);
    }

    #[inline(always)]
    fn bytes(&mut self, bytes: &[u8]) {
        let end = self.length + bytes.len();
        self.buffer[self.length..end].copy_from_slice(bytes);
        self.length = end;
    }

    #[inline(always)]
    fn length(&self) -> usize {
        self.length
    }
}

/// Writes to memory of its own, and goes on measuring where that has no more space. A header is written with all eight
/// bytes of its payload, and what comes next is written over those that are too many.
pub struct Spill<'a> {
    memory: &'a mut [u8],
    length: usize,
}

impl<'a> Spill<'a> {
    /// As many bytes more than the result does the memory have.
    pub const SPARE: usize = 16;

    #[inline(always)]
    pub fn new(memory: &'a mut [u8]) -> Spill<'a> {
        Spill { memory, length: 0 }
    }
}

impl Output for Spill<'_> {
    #[inline(always)]
    fn header(&mut self, code: u8, payload: u64) {
        if is_inline(code, payload) {
            if let Some(byte) = self.memory.get_mut(self.length) {
                *byte = inline_lead(code, payload);
            }
            self.length += 1;
            return;
        }
        let following = width(payload);
        let rest = self.memory.get_mut(self.length..);
        if let Some([lead, digits @ ..]) = rest.and_then(|rest| rest.first_chunk_mut::<9>()) {
            *lead = long_lead(code, following);
            *digits = (payload << (64 - 8 * following)).to_be_bytes();
        }
        self.length += 1 + following;
    }

    #[inline(always)]
    fn bytes(&mut self, bytes: &[u8]) {
        let end = self.length + bytes.len();
        if let Some(part) = self.memory.get_mut(self.length..end) {
            part.copy_from_slice(bytes);
        }
        self.length = end;
    }

    #[inline(always)]
    fn length(&self) -> usize {
        self.length
    }
}
