//! Random lent tables: in form, though no list of steps leads to them; damaged; of another length;
//! and mere noise.

use super::Random;
use crate::table::{
    state, Controller, Message, Place, Table, CONTROLLERS, DESK, INCARNATIONS, LAST_INCARNATION,
    LAST_MESSAGE, LAST_NUMBER, WORDS,
};
use crate::vector::{Pair, Vector};

/// Words of the right number, and nothing else.
pub fn noise(random: &mut Random) -> Vec<u32> {
    (0..WORDS).map(|_| random.word()).collect()
}

/// A table in form with one word changed, and where. It may be in form still.
pub fn damaged(random: &mut Random) -> (Vec<u32>, usize) {
    let words = in_form_table(random);
    with_damage(random, words)
}

/// The same of a given table in form.
pub fn with_damage(random: &mut Random, mut words: Vec<u32>) -> (Vec<u32>, usize) {
    if random.chance(30) {
        return damaged_message(random, words);
    }
    // Half of the damage goes to the head, the counts and the first knowledge, where it matters most.
    let reach = if random.chance(50) { 100 } else { WORDS };
    let position = random.index(reach);
    words[position] = match random.below(4) {
        0 => random.word(),
        1 => random.within(0..=LAST_MESSAGE + 1),
        2 => words[position].wrapping_add(1),
        _ => 0,
    };
    (words, position)
}

/// The table with another state or another receiver of one message: which states are in form hangs on
/// the receiver, and a receiver past the last controller is only the desk.
fn damaged_message(random: &mut Random, mut words: Vec<u32>) -> (Vec<u32>, usize) {
    let before = words.clone();
    if let Some(mut table) = Table::new(&mut words[..]).filter(|table| table.sent() > 0) {
        let message = random.within(1..=table.sent());
        let mut record = table.message(message);
        match random.below(4) {
            0 => record.state = state::PUBLISHED,
            1 => record.state = random.within(0..=state::PUBLISHED + 1),
            _ => record.receiver = random.within(table.n()..=DESK + 1),
        }
        table.set_message(message, &record);
    }
    let changed = words.iter().zip(&before).position(|(new, old)| new != old);
    (words, changed.unwrap_or(0))
}

/// A table whose length isn't the right one, by one word or by many.
pub fn wrong_length(random: &mut Random) -> Vec<u32> {
    let words = in_form_table(random);
    of_another_length(random, words)
}

/// The same words, but for their length.
pub(super) fn of_another_length(random: &mut Random, mut words: Vec<u32>) -> Vec<u32> {
    let right = words.len();
    match random.below(4) {
        0 => words.truncate(right - 1),
        1 => words.push(0),
        2 => words.clear(),
        _ => words.truncate(random.index(right)),
    }
    words
}

/// A table in form: each word is drawn from its range without regard to the others.
pub fn in_form_table(random: &mut Random) -> Vec<u32> {
    let mut words = vec![0; WORDS];
    if let Some(table) = Table::new(&mut words[..]) {
        let n = random.within(1..=CONTROLLERS as u32);
        let sent = ranged(random, 0, LAST_MESSAGE);
        let incarnations = [0; CONTROLLERS].map(|_| ranged(random, 0, LAST_INCARNATION));
        let filler = Filler {
            random,
            n,
            sent,
            incarnations,
        };
        filler.fill(table);
    }
    words
}

/// A number of a range that is often small, so that words meet, and often at the upper end.
fn ranged(random: &mut Random, low: u32, high: u32) -> u32 {
    match random.below(8) {
        0 => high,
        1 => random.within(high.saturating_sub(2).max(low)..=high),
        2 => random.within(low..=high),
        _ => random.within(low..=high.min(low + 5)),
    }
}

const FOR_CONTROLLERS: [u32; 5] = [
    state::HELD,
    state::RELEASED,
    state::DELIVERED,
    state::LOST,
    state::DROPPED,
];
const FOR_THE_DESK: [u32; 3] = [state::HELD, state::DROPPED, state::PUBLISHED];

struct Filler<'a> {
    random: &'a mut Random,
    n: u32,
    sent: u32,
    /// That of each controller.
    incarnations: [u32; CONTROLLERS],
}

impl Filler<'_> {
    fn fill(mut self, mut table: Table<&mut [u32]>) {
        table.set_n(self.n);
        table.set_sent(self.sent);
        for c in 0..self.n as usize {
            let counts = self.counts(self.incarnations[c]);
            table.set_controller(c, counts);
            self.fill_rows(&mut table, c);
            for place in 0..counts.live {
                let record = self.place(c, place);
                table.set_place(c, place as usize, &record);
            }
        }
        for message in 1..=self.sent {
            let record = self.message();
            table.set_message(message, &record);
        }
    }

    fn counts(&mut self, incarnation: u32) -> Controller {
        let live = ranged(self.random, 1, LAST_NUMBER);
        let stable = if self.random.chance(30) {
            live
        } else {
            self.random.within(1..=live)
        };
        Controller {
            degree: self.random.within(0..=self.n),
            incarnation,
            live,
            stable,
        }
    }

    fn fill_rows(&mut self, table: &mut Table<&mut [u32]>, holder: usize) {
        for owner in 0..self.n as usize {
            for incarnation in 0..INCARNATIONS as u32 {
                if self.random.chance(40) {
                    let word = ranged(self.random, 0, LAST_NUMBER);
                    table.set_known(holder, owner, incarnation, word);
                }
                if self.random.chance(15) {
                    let word = ranged(self.random, 0, LAST_NUMBER);
                    table.set_end(holder, owner, incarnation, word);
                }
            }
        }
    }

    /// Mostly the incarnation that its controller is in, as in a house, but not always.
    fn incarnation(&mut self, c: usize) -> u32 {
        if self.random.chance(70) {
            self.incarnations[c]
        } else {
            ranged(self.random, 0, LAST_INCARNATION)
        }
    }

    fn place(&mut self, c: usize, place: u32) -> Place {
        let flagged = place == 0 || self.random.chance(20);
        Place {
            incarnation: self.incarnation(c),
            number: place + 1,
            cause: self.random.within(0..=self.sent),
            flag: u32::from(flagged),
            vector: self.vector(),
        }
    }

    /// One of five is for the desk. Its state is one of three then.
    fn message(&mut self) -> Message {
        let (receiver, states) = if self.random.chance(20) {
            (DESK, &FOR_THE_DESK[..])
        } else {
            (self.random.below(self.n), &FOR_CONTROLLERS[..])
        };
        Message {
            state: self.random.pick(states).unwrap_or(state::HELD),
            sender: self.random.below(self.n),
            receiver,
            incarnation: ranged(self.random, 0, LAST_INCARNATION),
            number: ranged(self.random, 1, LAST_NUMBER),
            payload: self.random.word(),
            vector: self.vector(),
        }
    }

    /// Mostly empty pairs: a vector with many has little chance of being neither condemned nor in
    /// conflict with another. The others mostly name work that a crash could still lose.
    fn vector(&mut self) -> Vector {
        let mut vector = Vector::default();
        for (owner, pair) in vector.iter_mut().enumerate().take(self.n as usize) {
            if self.random.chance(25) {
                let incarnation = self.incarnation(owner);
                *pair = Pair::new(incarnation, ranged(self.random, 1, LAST_NUMBER));
            }
        }
        vector
    }
}
