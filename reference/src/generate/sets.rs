//! Sets to be released, and lent tables with many messages for them.

use super::{gapped_table, Random};
use crate::machine::Messages;
use crate::table::{state, Controller, Message, Table, DESK, LAST_MESSAGE};
use crate::vector::{Pair, Vector};

/// The most messages of a set.
const MOST: usize = 16;

/// A list of messages to be released as a set, on a table of any content: mostly of held messages of one
/// sender, in any order. Some lists are spoilt, and some of these twice, so that several refusals apply.
pub fn set(random: &mut Random, words: &[u32]) -> Messages {
    let mut picker = Picker::of(random, words);
    picker.pick();
    while picker.random.chance(25) {
        picker.spoil();
    }
    picker.set.truncate(Messages::MOST);
    Messages::of(&picker.set)
}

/// One who looks at the messages of a table and makes a list of some.
struct Picker<'a> {
    random: &'a mut Random,
    sent: u32,
    /// The held messages, each with its sender.
    held: Vec<(u32, u32)>,
    /// The messages for the desk.
    readings: Vec<u32>,
    others: Vec<u32>,
    sender: u32,
    set: Vec<u32>,
}

impl<'a> Picker<'a> {
    fn of(random: &'a mut Random, words: &[u32]) -> Self {
        let mut picker = Picker {
            random,
            sent: 0,
            held: Vec::new(),
            readings: Vec::new(),
            others: Vec::new(),
            sender: 0,
            set: Vec::new(),
        };
        if let Some(table) = Table::new(words) {
            picker.sent = table.sent().min(LAST_MESSAGE);
            for message in 1..=picker.sent {
                let record = table.message(message);
                if record.state == state::HELD {
                    picker.held.push((message, record.sender));
                } else {
                    picker.others.push(message);
                }
                if record.receiver == DESK {
                    picker.readings.push(message);
                }
            }
        }
        picker
    }

    /// Held messages of the sender, or of all others, in any order.
    fn held_of(&mut self, the_sender: bool) -> Vec<u32> {
        let held = self.held.iter();
        let held = held.filter(|(_, sender)| (*sender == self.sender) == the_sender);
        let mut held: Vec<u32> = held.map(|&(message, _)| message).collect();
        for last in (1..held.len()).rev() {
            held.swap(last, self.random.index(last + 1));
        }
        held
    }

    /// Takes held messages of one sender, often all of them or as many as a set may have, and sometimes no readings:
    /// with one the degree isn't asked.
    fn pick(&mut self) {
        let Some((_, sender)) = self.random.pick(&self.held) else {
            return;
        };
        self.sender = sender;
        self.set = self.held_of(true);
        let for_desk = |message: &u32| self.readings.contains(message);
        if !self.set.iter().all(for_desk) && self.random.chance(30) {
            self.set.retain(|message| !for_desk(message));
        }
        let most = self.set.len().min(MOST) as u32;
        let count = match self.random.below(6) {
            0 => 1,
            1 | 2 => most,
            3 => self.random.within(1..=most),
            _ => self.random.within(1..=most.min(4)),
        };
        self.set.truncate(count as usize);
    }

    /// Names a message twice, one that isn't there, one of another sender or one that isn't held; or too many
    /// messages, or none.
    fn spoil(&mut self) {
        let other = match self.random.below(9) {
            0 => return self.set.clear(),
            1 => self.random.pick(&self.set),
            2 | 3 => Some(self.absent()),
            4 | 5 => self.held_of(false).pop(),
            6 => self.random.pick(&self.others),
            _ => return self.lengthen(),
        };
        if let Some(other) = other {
            let position = self.random.index(self.set.len() + 1);
            self.set.insert(position, other);
        }
    }

    /// A number that no message has, or any.
    fn absent(&mut self) -> u32 {
        match self.random.below(4) {
            0 => 0,
            1 => u32::MAX,
            2 => self.random.word(),
            _ => self.sent + 1,
        }
    }

    /// Goes on to more than a set may have, as far as there are such: with held messages of the sender, then
    /// with those of others.
    fn lengthen(&mut self) {
        let too_many = match self.random.below(3) {
            0 => Messages::MOST,
            _ => MOST + 1,
        };
        let mut more = self.held_of(true);
        more.extend(self.held_of(false));
        more.retain(|message| !self.set.contains(message));
        more.truncate(too_many.saturating_sub(self.set.len()));
        self.set.extend(more);
    }
}

/// A table in form in which a controller has many messages held, sent from work of few others or of none, so
/// that their masks differ and are seldom large. Some are for the desk. No list of steps leads there.
pub fn set_table(random: &mut Random) -> Vec<u32> {
    let mut words = gapped_table(random);
    if let Some(mut table) = Table::new(&mut words[..]) {
        // Causes name messages, so there are as many as before, or more.
        let sent = random.within(table.sent().max(1)..=LAST_MESSAGE);
        let maker = Maker {
            n: table.n(),
            sender: random.below(table.n()),
            for_desk: [0, 5, 40][random.index(3)],
            pairs: [0, 5, 15, 30][random.index(4)],
        };
        table.set_sent(sent);
        for message in 1..=sent {
            table.set_message(message, &maker.message(random));
        }
        let counts = Controller {
            degree: random.within(0..=maker.n.min(3)),
            ..table.controller(maker.sender as usize)
        };
        table.set_controller(maker.sender as usize, counts);
    }
    words
}

/// What the messages of such a table are like.
struct Maker {
    n: u32,
    /// Who sent most of them.
    sender: u32,
    /// How many of a hundred are for the desk.
    for_desk: u32,
    /// How many of a hundred pairs are not empty.
    pairs: u32,
}

impl Maker {
    fn message(&self, random: &mut Random) -> Message {
        let states = [state::HELD, state::DROPPED];
        Message {
            state: states[usize::from(random.chance(8))],
            sender: if random.chance(90) {
                self.sender
            } else {
                random.below(self.n)
            },
            receiver: if random.chance(self.for_desk) {
                DESK
            } else {
                random.below(self.n)
            },
            incarnation: random.below(3),
            number: random.within(1..=6),
            payload: random.word(),
            vector: self.vector(random),
        }
    }

    /// Low incarnations and numbers, of which some are known to be stable.
    fn vector(&self, random: &mut Random) -> Vector {
        let mut vector = Vector::default();
        for pair in vector.iter_mut().take(self.n as usize) {
            if random.chance(self.pairs) {
                *pair = Pair::new(random.below(3), random.within(1..=8));
            }
        }
        vector
    }
}

#[cfg(test)]
mod tests {
    use super::*;
    use crate::table::in_form;
    use std::collections::BTreeSet;

    #[test]
    fn lists_of_all_lengths_are_drawn_on_tables_in_form() {
        let mut random = Random::new(1);
        let (mut lengths, mut doubled, mut absent) = (BTreeSet::new(), 0, 0);
        for _ in 0..2_000 {
            let words = set_table(&mut random);
            assert!(in_form(&words));
            let set = set(&mut random, &words);
            lengths.insert(set.len());
            let named: BTreeSet<u32> = set.iter().copied().collect();
            doubled += u32::from(named.len() < set.len());
            absent += u32::from(named.contains(&0) || named.last() > Some(&words[1]));
        }
        assert!(lengths.into_iter().eq(0..=Messages::MOST));
        assert!(doubled > 50 && absent > 100, "{doubled} {absent}");
    }

    #[test]
    fn there_are_lists_on_words_that_are_no_table() {
        let mut random = Random::new(2);
        for length in [0, 1, 15_151, 15_153] {
            let words = vec![u32::MAX; length];
            assert!((0..100).all(|_| set(&mut random, &words).len() <= Messages::MOST));
        }
        let noise = vec![u32::MAX; 15_152];
        assert!((0..100).any(|_| !set(&mut random, &noise).is_empty()));
    }
}
