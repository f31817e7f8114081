//! The place among containers.

use nachricht::limits::MAX_DEPTH;

/// The containers that are open.
pub struct Containers<'a> {
    /// How many fields are left in the innermost. At the top there are always some.
    left: u64,
    /// How many are left around it, from the top on.
    around: &'a mut [u64; MAX_DEPTH],
    depth: usize,
}

impl<'a> Containers<'a> {
    /// None is open.
    #[inline(always)]
    pub fn new(around: &'a mut [u64; MAX_DEPTH]) -> Containers<'a> {
        Containers {
            left: u64::MAX,
            around,
            depth: 0,
        }
    }

    #[inline(always)]
    pub fn are_closed(&self) -> bool {
        self.depth == 0
    }

    #[inline(always)]
    pub fn are_full(&self) -> bool {
        self.depth >= MAX_DEPTH
    }

    /// Opens a container of so many fields, at least one.
    #[inline(always)]
    pub fn open(&mut self, fields: u64) {
        self.around[self.depth] = self.left;
        self.left = fields;
        self.depth += 1;
    }

    /// Ends a field, and each container of which it is the last.
    #[inline(always)]
    pub fn end_field(&mut self) {
        self.left -= 1;
        while self.left == 0 && self.depth > 0 {
            self.depth -= 1;
            self.left = self.around[self.depth] - 1;
        }
    }

    /// How many fields have ended at the top, where none is open.
    #[inline(always)]
    pub fn fields(&self) -> usize {
        (u64::MAX - self.left) as usize
    }
}
