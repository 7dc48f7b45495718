//! Random lent ledgers: sound ones, and ones that a release refuses.

use super::tables::of_another_length;
use super::Random;
use crate::ledger::{Entry, Ledger, ENTRIES, WORDS};

/// A sound ledger: entries with any words up to the count, and nothing past it.
pub fn sound_ledger(random: &mut Random) -> Vec<u32> {
    let count = match random.below(5) {
        0 => 0,
        1 => ENTRIES - 1,
        2 => ENTRIES,
        _ => random.within(0..=ENTRIES),
    };
    filled(random, count)
}

/// A sound ledger with room for a set of readings, for some of them, or for none.
pub fn nearly_full_ledger(random: &mut Random) -> Vec<u32> {
    let count = random.within(ENTRIES - 16..=ENTRIES);
    filled(random, count)
}

/// A ledger that isn't sound: of another length, with a count too high, or with a word past its count.
pub fn damaged_ledger(random: &mut Random) -> Vec<u32> {
    match random.below(3) {
        0 => wrong_length(random),
        1 => count_too_high(random),
        _ => word_past_the_count(random),
    }
}

/// Any entries, as many as the count says.
fn filled(random: &mut Random, count: u32) -> Vec<u32> {
    let mut words = vec![0; WORDS];
    change(&mut words, |ledger| {
        for _ in 0..count {
            ledger.append(any_entry(random));
        }
    });
    words
}

fn any_entry(random: &mut Random) -> Entry {
    Entry {
        message: random.word(),
        payload: random.word(),
    }
}

/// By one word or by many.
fn wrong_length(random: &mut Random) -> Vec<u32> {
    let words = sound_ledger(random);
    of_another_length(random, words)
}

/// By one or by any number. All entries may be in use, or none.
fn count_too_high(random: &mut Random) -> Vec<u32> {
    let mut words = sound_ledger(random);
    let count = match random.below(3) {
        0 => ENTRIES + 1,
        1 => u32::MAX,
        _ => random.within(ENTRIES + 1..=4 * ENTRIES),
    };
    change(&mut words, |ledger| ledger.set_count(count));
    words
}

/// In the entry that the next message would get, in the last one, or in any past the count.
fn word_past_the_count(random: &mut Random) -> Vec<u32> {
    let count = random.below(ENTRIES);
    let entry = match random.below(3) {
        0 => count,
        1 => ENTRIES - 1,
        _ => random.within(count..=ENTRIES - 1),
    };
    let word = random.word().max(1);
    let record = if random.chance(50) {
        Entry {
            message: word,
            payload: 0,
        }
    } else {
        Entry {
            message: 0,
            payload: word,
        }
    };
    let mut words = filled(random, count);
    change(&mut words, |ledger| ledger.set_entry(entry, record));
    words
}

fn change(words: &mut [u32], change: impl FnOnce(&mut Ledger<&mut [u32]>)) {
    if let Some(mut ledger) = Ledger::new(words) {
        change(&mut ledger);
    }
}

#[cfg(test)]
mod tests {
    use super::*;
    use crate::ledger::is_sound;
    use std::collections::BTreeSet;

    #[test]
    fn sound_ledgers_are_sound_and_reach_both_ends() {
        let mut random = Random::new(1);
        let counts: BTreeSet<u32> = (0..300)
            .map(|_| {
                let words = sound_ledger(&mut random);
                assert!(is_sound(&words));
                words[0]
            })
            .collect();
        assert!([0, 127, 128].iter().all(|count| counts.contains(count)));
        assert!(counts.len() > 50, "{counts:?}");
    }

    #[test]
    fn nearly_full_ledgers_are_sound() {
        let mut random = Random::new(3);
        let ledgers = (0..300).map(|_| nearly_full_ledger(&mut random));
        let counts: BTreeSet<u32> = ledgers
            .map(|words| {
                assert!(is_sound(&words));
                words[0]
            })
            .collect();
        assert!(counts.into_iter().eq(112..=128));
    }

    #[test]
    fn damaged_ledgers_are_not_sound() {
        let mut random = Random::new(2);
        assert!((0..1_000).all(|_| !is_sound(&damaged_ledger(&mut random))));
    }
}
