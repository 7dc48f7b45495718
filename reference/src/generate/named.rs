//! Steps with numbers that name what is there, on lent tables of any content.

use super::Random;
use crate::machine::Command;
use crate::table::{state, Table, CONTROLLERS, DESK, INCARNATIONS, LAST_MESSAGE, LAST_NUMBER};

/// A step of each letter, as far as these words have the length of a table. The opening comes last: it
/// leaves nothing of what was lent.
pub fn named(random: &mut Random, words: &[u32]) -> Vec<Command> {
    let table = Table::new(words);
    let steps = table.map(|table| Namer { random, table }.steps());
    steps.into_iter().flatten().collect()
}

/// One who looks at a table of any content and names what is there, as far as there is something.
struct Namer<'a> {
    random: &'a mut Random,
    table: Table<&'a [u32]>,
}

impl Namer<'_> {
    fn n(&self) -> u32 {
        self.table.n().clamp(1, CONTROLLERS as u32)
    }

    fn controller(&mut self) -> u32 {
        let n = self.n();
        self.random.below(n)
    }

    /// Mostly a message in this state, or else any: the step is refused for its state then.
    fn message(&mut self, state: u32) -> u32 {
        let sent = self.table.sent().min(LAST_MESSAGE);
        let in_state: Vec<u32> = (1..=sent)
            .filter(|&message| self.table.message(message).state == state)
            .collect();
        let chosen = self.random.pick(&in_state);
        let chosen = chosen.filter(|_| self.random.chance(80));
        chosen.unwrap_or_else(|| self.random.within(0..=sent))
    }

    /// How many intervals to log: often all that aren't stable.
    fn count(&mut self, controller: u32) -> u32 {
        let counts = self.table.controller(controller as usize);
        let volatile = counts.live.wrapping_sub(counts.stable).min(LAST_NUMBER);
        if self.random.chance(50) {
            volatile
        } else {
            self.random.within(0..=volatile + 1)
        }
    }

    /// An incarnation that a crash has ended, or else any.
    fn ended(&mut self, crashed: u32) -> u32 {
        let own = self.table.ends(crashed as usize);
        let ended: Vec<u32> = (0..INCARNATIONS as u32)
            .filter(|&incarnation| own.word(crashed as usize, incarnation) != 0)
            .collect();
        let chosen = self.random.pick(&ended);
        chosen.unwrap_or_else(|| self.random.within(0..=INCARNATIONS as u32))
    }

    fn steps(&mut self) -> [Command; 10] {
        let (controller, other) = (self.controller(), self.controller());
        [
            Command::SetDegree {
                controller,
                degree: other,
            },
            Command::Send {
                sender: controller,
                receiver: if self.random.chance(20) { DESK } else { other },
                payload: self.random.word(),
            },
            Command::Release {
                message: self.message(state::HELD),
            },
            Command::Deliver {
                message: self.message(state::RELEASED),
            },
            Command::Log {
                controller,
                count: self.count(controller),
            },
            Command::Checkpoint { controller },
            Command::Tell {
                owner: controller,
                holder: other,
            },
            Command::Crash { controller },
            Command::Hear {
                hearer: controller,
                crashed: other,
                incarnation: self.ended(other),
            },
            Command::Open {
                n: self.n(),
                degree: other,
            },
        ]
    }
}
