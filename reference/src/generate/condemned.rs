//! Lent tables on which several crashes condemn at once: of several controllers, in several incarnations, heard
//! and unheard.

use super::{gapped_table, Random};
use crate::table::{state, Table, DESK, INCARNATIONS};
use crate::vector::{Pair, Vector};

/// A table in form whose messages are mostly released and rest on much, as its live intervals do, and whose
/// controllers have crashed and heard a lot: an owner's own end for a crash, and what others have for it, needn't
/// agree.
pub fn condemned_table(random: &mut Random) -> Vec<u32> {
    let mut words = gapped_table(random);
    if let Some(mut table) = Table::new(&mut words[..]) {
        let n = table.n() as usize;
        for holder in 0..n {
            for owner in 0..n {
                crashes(random, &mut table, holder, owner);
            }
        }
        for message in 1..=table.sent() {
            let mut record = table.message(message);
            if record.receiver != DESK && random.chance(80) {
                record.state = state::RELEASED;
                record.vector = resting(random, n, record.vector);
                table.set_message(message, &record);
            }
        }
        for c in 0..n {
            for place in 1..table.controller(c).live as usize {
                let mut record = table.place(c, place);
                if random.chance(10) {
                    record.vector = resting(random, n, record.vector);
                    table.set_place(c, place, &record);
                }
            }
        }
    }
    words
}

/// How many incarnations the crashes are spread over, so that pairs meet them.
const ENDED: u32 = 4;

/// What a holder has heard of an owner's crashes.
fn crashes(random: &mut Random, table: &mut Table<&mut [u32]>, holder: usize, owner: usize) {
    for incarnation in 0..INCARNATIONS as u32 {
        let likely = if incarnation < ENDED { 45 } else { 3 };
        let end = if random.chance(likely) {
            random.within(1..=4)
        } else {
            0
        };
        table.set_end(holder, owner, incarnation, end);
    }
}

/// A vector with pairs of about half of the controllers more.
fn resting(random: &mut Random, n: usize, mut vector: Vector) -> Vector {
    for pair in &mut vector[..n] {
        if random.chance(45) {
            *pair = Pair::new(random.below(ENDED), random.within(1..=8));
        }
    }
    vector
}

#[cfg(test)]
mod tests {
    use super::*;
    use crate::table::in_form;

    #[test]
    fn condemned_tables_are_in_form() {
        let mut random = Random::new(3);
        for _ in 0..300 {
            assert!(in_form(&condemned_table(&mut random)));
        }
    }
}
