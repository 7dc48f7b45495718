//! Sets of intervals, as bits by index.

/// An interval ever begun in a house, by the order of beginning.
pub type IntervalId = usize;

const BITS: usize = u64::BITS as usize;

/// A set of intervals. Two sets with the same members may differ in trailing zero words, so that
/// there is no equality here.
#[derive(Clone, Debug, Default)]
pub struct IntervalSet(Vec<u64>);

impl IntervalSet {
    /// Adds one interval.
    pub fn insert(&mut self, id: IntervalId) {
        let word = id / BITS;
        if word >= self.0.len() {
            self.0.resize(word + 1, 0);
        }
        self.0[word] |= 1 << (id % BITS);
    }

    /// Adds all intervals of another set.
    pub fn extend_from(&mut self, other: &IntervalSet) {
        if other.0.len() > self.0.len() {
            self.0.resize(other.0.len(), 0);
        }
        for (word, others) in self.0.iter_mut().zip(&other.0) {
            *word |= others;
        }
    }

    /// Whether the interval is in the set.
    pub fn contains(&self, id: IntervalId) -> bool {
        let word = self.0.get(id / BITS).copied().unwrap_or(0);
        word >> (id % BITS) & 1 == 1
    }

    /// Whether some interval is in both sets.
    pub fn intersects(&self, other: &IntervalSet) -> bool {
        self.0
            .iter()
            .zip(&other.0)
            .any(|(word, others)| word & others != 0)
    }

    /// The members, from the earliest on.
    pub fn iter(&self) -> impl Iterator<Item = IntervalId> + '_ {
        self.0.iter().enumerate().flat_map(|(index, &word)| {
            let mut left = word;
            std::iter::from_fn(move || {
                let bit = left.trailing_zeros() as usize;
                // Takes the lowest bit away; there is none to take at the end.
                left &= left.checked_sub(1)?;
                Some(index * BITS + bit)
            })
        })
    }
}

impl FromIterator<IntervalId> for IntervalSet {
    fn from_iter<I: IntoIterator<Item = IntervalId>>(ids: I) -> Self {
        let mut set = IntervalSet::default();
        for id in ids {
            set.insert(id);
        }
        set
    }
}

#[cfg(test)]
mod tests {
    use super::IntervalSet;

    #[test]
    fn members_come_back_in_order() {
        let set: IntervalSet = [200, 0, 63, 64, 0].into_iter().collect();
        assert_eq!(set.iter().collect::<Vec<_>>(), [0, 63, 64, 200]);
        assert!(set.contains(64));
        assert!(!set.contains(65));
        assert!(!set.contains(10_000));
    }

    #[test]
    fn sets_of_different_lengths_join_and_meet() {
        let mut low: IntervalSet = [3].into_iter().collect();
        let high: IntervalSet = [3, 300].into_iter().collect();
        let other: IntervalSet = [300].into_iter().collect();
        assert!(low.intersects(&high) && high.intersects(&low));
        assert!(!low.intersects(&other) && !other.intersects(&low));
        low.extend_from(&other);
        assert_eq!(low.iter().collect::<Vec<_>>(), [3, 300]);
    }
}
