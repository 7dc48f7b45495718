//! Lent tables for the dispatcher: with any controller as the one last served, and with many released messages, of
//! which some wait, some would be dropped, and some are for controllers without a place left.

use super::{gapped_table, noise, wrong_length, Random};
use crate::table::{
    state, Controller, Message, Place, Table, DESK, LAST_MESSAGE, LAST_NUMBER, LAST_SERVED,
};
use crate::vector::{Pair, Vector};

/// A table in form with any word for the controller last served, be it one of the house or not. On most of them
/// much is released, for all controllers or for few; on the others messages are as on any lent table.
pub fn dispatch_table(random: &mut Random) -> Vec<u32> {
    let mut words = gapped_table(random);
    if let Some(mut table) = Table::new(&mut words[..]) {
        table.set_served(random.within(0..=LAST_SERVED));
        if random.chance(80) {
            let n = table.n();
            let maker = Maker {
                n,
                few: random.within(1..=n),
                released: [15, 60, 90][random.index(3)],
                waiting: [0, 40, 85, 100][random.index(4)],
                dropped: [0, 3, 30][random.index(3)],
            };
            let full = [0, 30, 100][random.index(3)];
            for c in 0..n as usize {
                if random.chance(full) {
                    fill_up(&mut table, c);
                }
                part(&mut table, c, maker.parted_from(c as u32));
            }
            maker.send(random, &mut table);
        }
    }
    words
}

/// A table that is refused: its controller last served is too high, most often by one, or it has another length or
/// other words.
pub fn damaged_served(random: &mut Random) -> Vec<u32> {
    let served = match random.below(6) {
        0 => return noise(random),
        1 => return wrong_length(random),
        2 => random.within(LAST_SERVED + 2..=u32::MAX),
        _ => LAST_SERVED + 1,
    };
    let mut words = dispatch_table(random);
    if let Some(mut table) = Table::new(&mut words[..]) {
        table.set_served(served);
    }
    words
}

/// Gives a controller as many live intervals as there may be.
fn fill_up(table: &mut Table<&mut [u32]>, c: usize) {
    let live = table.controller(c).live;
    for number in live + 1..=LAST_NUMBER {
        let record = Place {
            number,
            ..Place::default()
        };
        table.set_place(c, number as usize - 1, &record);
    }
    let counts = Controller {
        live: LAST_NUMBER,
        ..table.controller(c)
    };
    table.set_controller(c, counts);
}

/// The incarnations of another controller that a receiver rests on, that messages for it rest on which wait, and
/// whose end it has heard of.
const OURS: u32 = 1;
const THEIRS: u32 = 2;
const ENDED: u32 = 3;

/// Has the newest interval of a controller rest on an incarnation of another alone, so that messages from work of
/// a later one wait.
fn part(table: &mut Table<&mut [u32]>, c: usize, from: usize) {
    let mut newest = table.newest(c);
    newest.vector = Vector::default();
    for incarnation in [OURS, THEIRS, ENDED] {
        table.set_known(c, from, incarnation, 0);
        table.set_end(c, from, incarnation, 0);
    }
    table.set_end(c, from, ENDED, 5);
    newest.vector[from] = Pair::new(OURS, 9);
    table.set_place(c, newest.number as usize - 1, &newest);
}

/// What the messages of such a table are like.
struct Maker {
    n: u32,
    /// How many of the controllers most of them are for.
    few: u32,
    /// How many of a hundred are released.
    released: u32,
    /// How many of a hundred of those wait, and how many of the others would be dropped.
    waiting: u32,
    dropped: u32,
}

impl Maker {
    /// Another controller, if there is one.
    fn parted_from(&self, c: u32) -> usize {
        ((c + 1) % self.n) as usize
    }

    /// Causes name messages, so there are as many as before, or more.
    fn send(&self, random: &mut Random, table: &mut Table<&mut [u32]>) {
        let sent = random.within(table.sent().max(1)..=LAST_MESSAGE);
        table.set_sent(sent);
        for message in 1..=sent {
            table.set_message(message, &self.message(random));
        }
    }

    fn message(&self, random: &mut Random) -> Message {
        let receiver = if random.chance(85) {
            self.n - 1 - random.below(self.few)
        } else {
            random.below(self.n)
        };
        let mut record = Message {
            state: state::RELEASED,
            sender: random.below(self.n),
            receiver,
            number: 1,
            payload: random.word(),
            vector: self.vector(random, receiver),
            ..Message::default()
        };
        if !random.chance(self.released) {
            record.state = random.within(state::HELD..=state::DROPPED);
        } else if random.chance(4) {
            (record.receiver, record.state) = (DESK, state::PUBLISHED);
        }
        record
    }

    /// One that waits, would be dropped, or rests on the same as the receiver or on nothing.
    fn vector(&self, random: &mut Random, receiver: u32) -> Vector {
        let mut vector = Vector::default();
        let pair = if random.chance(self.waiting) {
            Pair::new(THEIRS, 9)
        } else if random.chance(self.dropped) {
            Pair::new(ENDED, 9)
        } else if random.chance(50) {
            Pair::new(OURS, random.within(1..=LAST_NUMBER))
        } else {
            Pair::EMPTY
        };
        vector[self.parted_from(receiver)] = pair;
        vector
    }
}

#[cfg(test)]
mod tests {
    use super::*;
    use crate::table::in_form;
    use std::collections::BTreeSet;

    #[test]
    fn every_word_is_drawn_at_every_size() {
        let mut random = Random::new(1);
        let mut drawn = BTreeSet::new();
        for _ in 0..2_000 {
            let words = dispatch_table(&mut random);
            assert!(in_form(&words));
            drawn.extend(Table::new(&words[..]).map(|table| (table.n(), table.served())));
            assert!(!in_form(&damaged_served(&mut random)));
        }
        assert_eq!(drawn.len(), 8 * 8);
    }
}
