//! The layout of the ledger, the second lent buffer: "a count, then 128 pairs of message number and
//! payload, in the order of publishing".
//!
//! No other module knows a position in it. Accessors take entries below [`ENTRIES`]; callers look at
//! refusals first.

use std::ops::{Deref, DerefMut, Range};

/// "A second lent buffer, the ledger, has 257 words."
pub const WORDS: usize = 257;
/// The entries that a ledger has room for.
pub const ENTRIES: u32 = 128;
/// The words of an entry.
pub const ENTRY_WORDS: usize = 2;

const COUNT_AT: usize = 0;
const ENTRIES_AT: usize = 1;

// The entries follow the count and fill the ledger.
const _: () = assert!(ENTRIES_AT + ENTRIES as usize * ENTRY_WORDS == WORDS);

/// What the ledger says of a published message.
#[derive(Clone, Copy, Debug, Default, PartialEq, Eq)]
pub struct Entry {
    /// Its number.
    pub message: u32,
    /// What it carried.
    pub payload: u32,
}

/// Whether a release has nothing to say against these words. It does "when the ledger's length is not
/// 257, its count is above 128, or a pair past the count is not 0". Entries before the count are free.
pub fn is_sound(words: &[u32]) -> bool {
    Ledger::new(words).is_some_and(|ledger| {
        ledger.count() <= ENTRIES && ledger.unused().iter().all(|&word| word == 0)
    })
}

/// The words of a ledger with these entries and no others. More than [`ENTRIES`] of them, as only a
/// faulty machine can publish, make more words than a ledger has.
pub fn words_of(entries: &[Entry]) -> Vec<u32> {
    let mut words = vec![entries.len() as u32];
    for entry in entries {
        words.extend([entry.message, entry.payload]);
    }
    words.resize(words.len().max(WORDS), 0);
    words
}

/// Typed access to the words of a lent ledger, read or also written.
#[derive(Clone, Copy, Debug)]
pub struct Ledger<W>(W);

impl<W: Deref<Target = [u32]>> Ledger<W> {
    /// A ledger over these words, if there are [`WORDS`] of them.
    pub fn new(words: W) -> Option<Self> {
        (words.len() == WORDS).then_some(Ledger(words))
    }

    /// How many messages were published.
    pub fn count(&self) -> u32 {
        self.0[COUNT_AT]
    }

    /// An entry, by the order of publishing from 0 on.
    pub fn entry(&self, entry: u32) -> Entry {
        let words = &self.0[entry_range(entry)];
        Entry {
            message: words[0],
            payload: words[1],
        }
    }

    /// The words of the entries past the count, which is in its range.
    fn unused(&self) -> &[u32] {
        &self.0[entry_range(self.count()).start..]
    }
}

impl<W: DerefMut<Target = [u32]>> Ledger<W> {
    /// Makes every word 0.
    pub fn clear(&mut self) {
        self.0.fill(0);
    }

    /// Sets how many messages were published.
    pub fn set_count(&mut self, count: u32) {
        self.0[COUNT_AT] = count;
    }

    /// Writes the two words of an entry.
    pub fn set_entry(&mut self, entry: u32, record: Entry) {
        self.0[entry_range(entry)].copy_from_slice(&[record.message, record.payload]);
    }

    /// "Publishing appends one pair." There must be room for it.
    pub fn append(&mut self, record: Entry) {
        let count = self.count();
        self.set_entry(count, record);
        self.set_count(count + 1);
    }
}

fn entry_range(entry: u32) -> Range<usize> {
    let start = ENTRIES_AT + entry as usize * ENTRY_WORDS;
    start..start + ENTRY_WORDS
}

#[cfg(test)]
mod tests {
    use super::*;

    const FIRST: Entry = Entry {
        message: 9,
        payload: 70,
    };
    const SECOND: Entry = Entry {
        message: 3,
        payload: 0,
    };

    #[test]
    fn entries_stand_in_the_order_of_publishing() {
        let mut words = vec![0; WORDS];
        let mut ledger = Ledger::new(&mut words[..]).expect("the right length");
        ledger.append(FIRST);
        ledger.append(SECOND);
        assert_eq!((ledger.entry(0), ledger.entry(1)), (FIRST, SECOND));
        assert_eq!(words[..6], [2, 9, 70, 3, 0, 0]);
        assert_eq!(words, words_of(&[FIRST, SECOND]));
        Ledger::new(&mut words[..])
            .expect("the right length")
            .clear();
        assert_eq!(words, words_of(&[]));
    }

    #[test]
    fn the_last_entry_fills_the_ledger() {
        let words = words_of(&[FIRST; ENTRIES as usize]);
        assert_eq!((words.len(), words[0], words[256]), (WORDS, 128, 70));
        assert!(is_sound(&words));
        let more = words_of(&[FIRST; ENTRIES as usize + 1]);
        assert!(more.len() > WORDS && !is_sound(&more));
    }
}
