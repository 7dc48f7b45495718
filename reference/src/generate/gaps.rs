//! Gaps to be set, and lent tables that have one.

use super::{in_form_table, noise, wrong_length, Random};
use crate::table::{Table, LAST_GAP};

/// A gap to be set: often a narrow one, by which much is forced, those at both ends, and some that are
/// refused.
pub fn gap(random: &mut Random) -> u32 {
    match random.below(16) {
        0 | 1 => 0,
        2 | 3 => 1,
        4 => LAST_GAP - 1,
        5 => LAST_GAP,
        6 => LAST_GAP + 1,
        7 => random.word(),
        8 => random.within(1..=LAST_GAP),
        _ => random.within(2..=6),
    }
}

/// A table in form with any gap. Its flags are at stable places and at others.
pub fn gapped_table(random: &mut Random) -> Vec<u32> {
    let gap = gap(random).min(LAST_GAP);
    with_gap(in_form_table(random), gap)
}

/// A table that is refused, also where a gap is set: its gap is too wide, most often by one, or it has
/// another length or other words.
pub fn damaged_gap(random: &mut Random) -> Vec<u32> {
    match random.below(6) {
        0 => noise(random),
        1 => wrong_length(random),
        2 => {
            let gap = random.within(LAST_GAP + 2..=u32::MAX);
            with_gap(in_form_table(random), gap)
        }
        _ => with_gap(in_form_table(random), LAST_GAP + 1),
    }
}

fn with_gap(mut words: Vec<u32>, gap: u32) -> Vec<u32> {
    if let Some(mut table) = Table::new(&mut words[..]) {
        table.set_gap(gap);
    }
    words
}

#[cfg(test)]
mod tests {
    use super::*;
    use crate::table::in_form;
    use std::collections::BTreeSet;

    #[test]
    fn all_edges_are_drawn() {
        let mut random = Random::new(1);
        let gaps: BTreeSet<u32> = (0..1_000).map(|_| gap(&mut random)).collect();
        let edges = [0, 1, 2, 3, 62, 63, 64, 65];
        assert!(edges.iter().all(|edge| gaps.contains(edge)), "{gaps:?}");
        assert!(gaps.iter().any(|&gap| gap > 65));
    }

    #[test]
    fn tables_with_a_gap_are_in_form_and_damaged_ones_are_not() {
        let mut random = Random::new(2);
        let gap_of = |words: &[u32]| Table::new(words).map(|table| table.gap());
        let mut gaps = BTreeSet::new();
        for _ in 0..300 {
            let words = gapped_table(&mut random);
            assert!(in_form(&words));
            gaps.extend(gap_of(&words));
            assert!(!in_form(&damaged_gap(&mut random)));
        }
        let edges = [0, 1, 2, 63, 64];
        assert!(edges.iter().all(|edge| gaps.contains(edge)), "{gaps:?}");
    }
}
