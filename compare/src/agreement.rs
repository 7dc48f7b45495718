//! The same steps on both machines, and the first thing in which they differ.

use crate::proved;
use reference::generate::Walk;
use reference::machine::{step_with, Answer, Command, Fault};

/// What is lent for a step: the words of a table and those of a ledger.
#[derive(Clone, Debug, PartialEq, Eq)]
pub struct Lent {
    /// Those of the table.
    pub table: Vec<u32>,
    /// Those of the ledger.
    pub ledger: Vec<u32>,
}

impl Lent {
    /// As a list in the doing has left them so far.
    pub fn by(walk: &Walk) -> Self {
        Lent {
            table: walk.table().to_vec(),
            ledger: walk.ledger().to_vec(),
        }
    }

    /// Does one step with the proved machine.
    pub fn step(&mut self, command: Command) -> Answer {
        proved::step(&mut self.table, &mut self.ledger, command)
    }

    /// Does a list of steps with the proved machine, in as few calls as it can be done in.
    pub fn run(&mut self, commands: &[Command]) -> Vec<Answer> {
        proved::run(&mut self.table, &mut self.ledger, commands)
    }
}

/// One of the two that are lent.
#[derive(Clone, Copy, Debug, PartialEq, Eq)]
pub enum Buffer {
    /// The table.
    Table,
    /// The ledger.
    Ledger,
}

/// What differs after a step.
#[derive(Clone, Copy, Debug, PartialEq, Eq)]
pub enum Difference {
    /// The answers.
    Answer {
        /// That of the proved machine.
        proved: Answer,
        /// That of the other.
        other: Answer,
    },
    /// The answers agree, and the tables or the ledgers don't.
    Word {
        /// In which of them; the tables are looked at first.
        buffer: Buffer,
        /// The first position where they differ.
        position: usize,
        /// The word that the proved machine left.
        proved: u32,
        /// The word that the other left.
        other: u32,
    },
}

/// Where two machines part in a list of steps.
#[derive(Clone, Copy, Debug, PartialEq, Eq)]
pub struct Parting {
    /// How many steps they agreed on.
    pub agreed: usize,
    /// The step after which they differ.
    pub command: Command,
    /// In what.
    pub difference: Difference,
}

/// Walks a list of the reference, or of a faulty machine, and does each of its steps with the proved
/// machine too, on a table and a ledger of its own. `look` is shown every step with the proved machine's
/// answer, and what that left.
pub fn beside(
    mut walk: Walk,
    mut look: impl FnMut(Command, Answer, &Lent),
) -> Result<(), Box<Parting>> {
    let mut lent = Lent::by(&walk);
    let mut agreed = 0;
    while let Some((command, other)) = walk.next() {
        let answer = lent.step(command);
        look(command, answer, &lent);
        let others = (other, walk.table(), walk.ledger());
        agree(answer, &lent, others).map_err(|difference| {
            Box::new(Parting {
                agreed,
                command,
                difference,
            })
        })?;
        agreed += 1;
    }
    Ok(())
}

/// Does one step with both machines, each on its own copy of what is lent, and returns the answer and
/// what it left.
pub fn on_lent(lent: &Lent, command: Command) -> Result<(Answer, Lent), Difference> {
    on_lent_with(Fault::None, lent, command)
}

/// The same with a faulty machine beside the proved one.
pub fn on_lent_with(
    fault: Fault,
    lent: &Lent,
    command: Command,
) -> Result<(Answer, Lent), Difference> {
    let (mut proved, mut other) = (lent.clone(), lent.clone());
    let answer = proved.step(command);
    let others = step_with(fault, &mut other.table, &mut other.ledger, command);
    agree(answer, &proved, (others, &other.table, &other.ledger))?;
    Ok((answer, proved))
}

/// Holds an answer and all the words of a table and a ledger against another's.
fn agree(answer: Answer, lent: &Lent, other: (Answer, &[u32], &[u32])) -> Result<(), Difference> {
    if answer != other.0 {
        return Err(Difference::Answer {
            proved: answer,
            other: other.0,
        });
    }
    same(Buffer::Table, &lent.table, other.1)?;
    same(Buffer::Ledger, &lent.ledger, other.2)
}

fn same(buffer: Buffer, proved: &[u32], other: &[u32]) -> Result<(), Difference> {
    if proved == other {
        return Ok(());
    }
    let mut words = proved.iter().zip(other);
    let position = words.position(|(proved, other)| proved != other);
    let position = position.expect("words of one length that differ have one that does");
    Err(Difference::Word {
        buffer,
        position,
        proved: proved[position],
        other: other[position],
    })
}
