//! Dependency vectors: pairs, rows of knowledge, and the rules that join the two.
//!
//! Everything here is a pure function of values; where they stand in a table is the business of
//! [`crate::table`].

use crate::table::{CONTROLLERS, INCARNATIONS};
use std::array;

/// An interval of some owner, as a dependency vector names it. "The empty pair is 0, 0."
///
/// The derived order is lexicographic. No sound rule uses it.
#[derive(Clone, Copy, Debug, Default, PartialEq, Eq, PartialOrd, Ord)]
pub struct Pair {
    /// The incarnation of the interval.
    pub incarnation: u32,
    /// The number of the interval; 0 only in the empty pair.
    pub number: u32,
}

impl Pair {
    /// The pair that names no interval.
    pub const EMPTY: Pair = Pair::new(0, 0);

    /// The pair of an interval.
    pub const fn new(incarnation: u32, number: u32) -> Self {
        Pair {
            incarnation,
            number,
        }
    }

    /// Whether the pair names no interval.
    pub fn is_empty(self) -> bool {
        self.number == 0
    }
}

/// "A vector has eight pairs, one for each controller."
pub type Vector = [Pair; CONTROLLERS];

/// What one holder has on record of every owner's incarnations: its known words, or its end words.
#[derive(Clone, Copy, Debug, Default, PartialEq, Eq)]
pub struct Row([[u32; INCARNATIONS]; CONTROLLERS]);

impl Row {
    /// The row of these words: owner by owner, and incarnation by incarnation.
    pub fn from_words(words: &[u32]) -> Self {
        let mut row = Row::default();
        for (owned, words) in row.0.iter_mut().zip(words.chunks_exact(INCARNATIONS)) {
            owned.copy_from_slice(words);
        }
        row
    }

    /// The word for an owner's incarnation; 0, which is "none", for those that can't exist.
    pub fn word(&self, owner: usize, incarnation: u32) -> u32 {
        self.0
            .get(owner)
            .and_then(|words| words.get(incarnation as usize))
            .copied()
            .unwrap_or(0)
    }

    /// Puts down a word. An incarnation that can't exist has none and is passed over.
    pub fn set(&mut self, owner: usize, incarnation: u32, word: u32) {
        if let Some(old) = self
            .0
            .get_mut(owner)
            .and_then(|words| words.get_mut(incarnation as usize))
        {
            *old = word;
        }
    }

    /// Each owner's words, in the order of owners.
    pub fn owners(&self) -> &[[u32; INCARNATIONS]; CONTROLLERS] {
        &self.0
    }
}

/// "*Known stable*, to holder b: a pair (t,x) of owner a with x at most b's known word for a and t."
pub fn is_known_stable(pair: Pair, owner: usize, known: &Row) -> bool {
    pair.number <= known.word(owner, pair.incarnation)
}

/// "*Filtering* a vector for b empties such pairs."
pub fn filtered(vector: &Vector, known: &Row) -> Vector {
    array::from_fn(|owner| {
        if is_known_stable(vector[owner], owner, known) {
            Pair::EMPTY
        } else {
            vector[owner]
        }
    })
}

/// "*Condemned*, to b: a non-empty pair (t,x) of a where b's end word for a and t isn't 0 and x
/// exceeds it."
pub fn is_pair_condemned(pair: Pair, owner: usize, ends: &Row) -> bool {
    let end = ends.word(owner, pair.incarnation);
    !pair.is_empty() && end != 0 && pair.number > end
}

/// "A vector is condemned when one of its pairs is."
pub fn is_condemned(vector: &Vector, ends: &Row) -> bool {
    (0..CONTROLLERS).any(|owner| is_pair_condemned(vector[owner], owner, ends))
}

/// "The lowest-numbered controller whose pair condemns the vector."
pub fn condemned_by(vector: &Vector, ends: &Row) -> Option<usize> {
    (0..CONTROLLERS).find(|&owner| is_pair_condemned(vector[owner], owner, ends))
}

/// The vector of a delivery at `receiver`, from the two filtered ones, or none if it must wait.
///
/// "If an owner other than c has non-empty pairs of different incarnations in the two, it waits."
/// The receiver's own pair is left empty, for the new interval to be put there.
pub fn merged(receiver: usize, ours: &Vector, theirs: &Vector) -> Option<Vector> {
    let mut vector = Vector::default();
    for owner in (0..CONTROLLERS).filter(|&owner| owner != receiver) {
        vector[owner] = merged_pair(ours[owner], theirs[owner])?;
    }
    Some(vector)
}

/// "Each pair is the non-empty one or the one with the larger number."
fn merged_pair(ours: Pair, theirs: Pair) -> Option<Pair> {
    if ours.is_empty() {
        Some(theirs)
    } else if theirs.is_empty() {
        Some(ours)
    } else if ours.incarnation != theirs.incarnation {
        None
    } else {
        let number = ours.number.max(theirs.number);
        Some(Pair::new(ours.incarnation, number))
    }
}

/// "The mask has 2 to the power c for each non-empty pair."
pub fn mask(vector: &Vector) -> u32 {
    (0..CONTROLLERS)
        .filter(|&owner| !vector[owner].is_empty())
        .fold(0, |mask, owner| mask | 1 << owner)
}

#[cfg(test)]
mod tests {
    use super::*;

    fn row(owner: usize, incarnation: u32, word: u32) -> Row {
        let mut row = Row::default();
        row.set(owner, incarnation, word);
        row
    }

    #[test]
    fn an_impossible_incarnation_has_no_word() {
        let mut row = row(3, 15, 9);
        row.set(3, 16, 7);
        row.set(8, 0, 7);
        assert_eq!(row.word(3, 15), 9);
        assert_eq!(row.word(3, 16), 0);
        assert_eq!(row.word(3, u32::MAX), 0);
        assert_eq!(row.word(8, 0), 0);
        assert_eq!(row.owners().iter().flatten().sum::<u32>(), 9);
    }

    #[test]
    fn the_empty_pair_is_never_condemned() {
        assert!(!is_pair_condemned(Pair::EMPTY, 0, &row(0, 0, 1)));
    }

    #[test]
    fn an_end_of_another_owner_condemns_nothing() {
        let mut vector = Vector::default();
        vector[2] = Pair::new(0, 5);
        assert!(!is_condemned(&vector, &row(1, 0, 4)));
        assert!(is_condemned(&vector, &row(2, 0, 4)));
    }

    #[test]
    fn the_lowest_controller_condemns() {
        let mut vector = Vector::default();
        for owner in [1, 4, 6] {
            vector[owner] = Pair::new(2, 5);
        }
        let mut ends = row(6, 2, 4);
        assert_eq!(condemned_by(&vector, &ends), Some(6));
        ends.set(4, 2, 4);
        ends.set(1, 1, 4);
        assert_eq!(condemned_by(&vector, &ends), Some(4));
        assert_eq!(condemned_by(&vector, &Row::default()), None);
    }

    #[test]
    fn the_receivers_own_pairs_never_make_it_wait() {
        let mut ours = Vector::default();
        let mut theirs = Vector::default();
        ours[1] = Pair::new(2, 3);
        theirs[1] = Pair::new(0, 9);
        assert_eq!(merged(1, &ours, &theirs), Some(Vector::default()));
        assert_eq!(merged(0, &ours, &theirs), None);
    }

    #[test]
    fn merging_takes_the_non_empty_pair_or_the_larger_number() {
        let merge = |ours, theirs| {
            let (mut left, mut right) = (Vector::default(), Vector::default());
            left[2] = ours;
            right[2] = theirs;
            merged(0, &left, &right).map(|vector| vector[2])
        };
        let (low, high) = (Pair::new(1, 3), Pair::new(1, 9));
        assert_eq!(merge(low, high), Some(high));
        assert_eq!(merge(high, low), Some(high));
        assert_eq!(merge(low, Pair::EMPTY), Some(low));
        assert_eq!(merge(Pair::EMPTY, low), Some(low));
        assert_eq!(merge(Pair::EMPTY, Pair::EMPTY), Some(Pair::EMPTY));
    }

    #[test]
    fn the_mask_names_owners() {
        let mut vector = Vector::default();
        assert_eq!(mask(&vector), 0);
        vector[0] = Pair::new(0, 1);
        vector[7] = Pair::new(4, 2);
        assert_eq!(mask(&vector), 129);
    }
}
