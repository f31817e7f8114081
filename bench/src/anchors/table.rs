//! The symbol table: entries by index, and names by their bytes, with open addressing.

use super::row::with_content;
use crate::format::kind;
use nachricht::limits::MAX_ENTRIES;
use nachricht_sys::Row;

/// For at most half as many names.
const SLOTS: usize = 512;

/// A name: its kind and its bytes.
#[derive(Clone, Copy)]
pub struct Name<'a> {
    pub is_key: bool,
    pub content: &'a [u8],
}

impl Name<'_> {
    /// The slot at which the name is looked for first.
    #[inline(always)]
    fn slot(self) -> usize {
        const MULTIPLIER: u64 = 0x9E37_79B9_7F4A_7C15;
        let mut hash = (self.content.len() as u64) << 1 | u64::from(self.is_key);
        let mut rest = self.content;
        while let Some((word, after)) = rest.split_first_chunk() {
            hash = (hash ^ u64::from_le_bytes(*word))
                .wrapping_mul(MULTIPLIER)
                .rotate_left(29);
            rest = after;
        }
        let last = rest
            .iter()
            .fold(0, |word, byte| word << 8 | u64::from(*byte));
        let hash = (hash ^ last).wrapping_mul(MULTIPLIER);
        (hash >> (64 - SLOTS.ilog2())) as usize
    }
}

/// Where a name stands: start and length in 16 bits each, then a bit for a key and one for the second source.
#[derive(Clone, Copy, PartialEq, Eq, Default)]
pub struct Entry(u64);

impl Entry {
    #[inline(always)]
    pub fn new(start: usize, length: usize, is_key: bool) -> Entry {
        Entry(start as u64 | (length as u64) << 16 | u64::from(is_key) << 32)
    }

    /// The same entry, in the second source or not.
    #[inline(always)]
    pub fn in_second(self, second: bool) -> Entry {
        Entry(self.0 | u64::from(second) << 33)
    }

    #[inline(always)]
    pub fn is_key(self) -> bool {
        self.0 >> 32 & 1 != 0
    }

    /// The row of the name.
    #[inline(always)]
    pub fn row(self) -> Row {
        let kind = kind::SYMBOL + u8::from(self.is_key());
        with_content(kind, self.start(), self.0 >> 16 & 0xFFFF)
    }

    #[inline(always)]
    fn start(self) -> usize {
        (self.0 & 0xFFFF) as usize
    }

    #[inline(always)]
    fn length_and_kind(self) -> u64 {
        self.0 >> 16 & 0x1_FFFF
    }

    #[inline(always)]
    fn is_in_second(self) -> bool {
        self.0 >> 33 & 1 != 0
    }
}

/// Entries by index. Their count stands beside them, in memory: the loops over items have few registers left.
pub struct Entries {
    entries: [Entry; MAX_ENTRIES],
    count: usize,
}

impl Entries {
    pub const NONE: Entries = Entries {
        entries: [Entry(0); MAX_ENTRIES],
        count: 0,
    };

    #[inline(always)]
    pub fn count(&self) -> usize {
        self.count
    }

    #[inline(always)]
    pub fn are_full(&self) -> bool {
        self.count >= MAX_ENTRIES
    }

    /// The entry of an index, which is below the count.
    #[inline(always)]
    pub fn get(&self, index: usize) -> Entry {
        self.entries[index % MAX_ENTRIES]
    }

    /// Adds an entry. They are not full.
    #[inline(always)]
    pub fn add(&mut self, entry: Entry) {
        self.entries[self.count % MAX_ENTRIES] = entry;
        self.count += 1;
    }
}

/// One more than the index of an entry, 0 for none.
type Slots = [u16; SLOTS];

pub const NO_SLOTS: Slots = [0; SLOTS];

/// Entries with what finds them, of names in two sources, which may be the same.
pub struct Table<'a> {
    pub first: &'a [u8],
    pub second: &'a [u8],
    pub entries: &'a mut Entries,
    /// A variable of their own, so that they are not made where no name is looked up.
    pub slots: &'a mut Slots,
}

impl<'a> Table<'a> {
    /// The index of the entry with this name, or else the slot to note it at.
    #[inline(always)]
    pub fn find(&self, name: Name) -> Result<usize, usize> {
        let length = name.content.len();
        let length_and_kind = Entry::new(0, length, name.is_key).length_and_kind();
        let mut slot = name.slot();
        loop {
            let noted = usize::from(self.slots[slot]);
            if noted == 0 {
                return Err(slot);
            }
            let entry = self.entries.get(noted - 1);
            if entry.length_and_kind() == length_and_kind
                && self.content(entry, length) == Some(name.content)
            {
                return Ok(noted - 1);
            }
            slot = (slot + 1) % SLOTS;
        }
    }

    /// The bytes of an entry of this length.
    #[inline(always)]
    fn content(&self, entry: Entry, length: usize) -> Option<&'a [u8]> {
        let source = if entry.is_in_second() {
            self.second
        } else {
            self.first
        };
        source.get(entry.start()..)?.get(..length)
    }

    /// Adds an entry that its name will find. The entries are not full.
    #[inline(always)]
    pub fn note(&mut self, slot: usize, entry: Entry) {
        self.entries.add(entry);
        self.slots[slot] = self.entries.count() as u16;
    }
}
