//! Random lists in the doing, with both machines, held to the theorems on messages at each release and each delivery:
//! [`asked`] has what these suppose, and [`claims`] what they claim of an answer. [`weave`] does what they suppose
//! among other steps; [`trial`] is what is tried then, and [`met`] counts the cases.

mod asked;
mod claims;
mod met;
mod trial;
mod weave;

pub use met::Met;
pub use trial::{named, Trial};
pub use weave::{weave, Aim};

use asked::Asked;
use compare::agreement::{on_lent, Difference, Lent};
use reference::generate::{Profile, Walk};
use reference::history::{Crash, History, IntervalId, Message, Misreading, Unreadable};
use reference::ledger::{self, Entry, ENTRIES};
use reference::machine::{step_with, Answer, Command, Fault};
use reference::refusal::{self, Refusal};
use reference::table::DESK;
use std::collections::BTreeMap;
use std::ops::Range;

/// Where a house breaks what is claimed of it.
#[derive(Clone, Debug, PartialEq, Eq)]
pub enum Broken {
    /// A step has an answer that it must not have.
    Answer(Command, Answer),
    /// The machines part at a step.
    Parting(Box<(Command, Difference)>),
    /// They have the same answers, and leave other words.
    Words,
    /// The ledger has an entry that may not be cited.
    Entry(Entry),
}

pub fn refused(number: Refusal) -> Answer {
    Answer::Refused { number }
}

/// What the answers so far say of a message.
#[derive(Clone, Debug, Default)]
struct Told {
    /// The masks of its releases, in their order. The last of them let it out, or it is held.
    masks: Vec<u32>,
    let_out: bool,
    /// Whether a delivery took it, to begin an interval or to drop it. It may be offered again after that.
    taken: bool,
}

impl Told {
    fn latest_mask(&self) -> Option<u32> {
        self.masks.last().copied()
    }
}

/// A house after some steps.
#[derive(Clone)]
pub struct House {
    walk: Walk,
    fault: Fault,
    /// What the proved machine was lent for the same steps. None where the other has a fault.
    proved: Option<Lent>,
    history: History,
    asked: Asked,
    told: BTreeMap<u32, Told>,
}

/// Steps.
impl House {
    /// The house that a list opens by its first step.
    pub fn open(seed: u64, profile: &'static Profile, fault: Fault) -> Result<Self, Broken> {
        let mut walk = Walk::with_fault(seed, profile, fault);
        let proved = (fault == Fault::None).then(|| Lent::by(&walk));
        let (command, answer) = walk.next().expect("a list begins with an opening");
        let history = opened(command, answer).map_err(|_| Broken::Answer(command, answer))?;
        let mut house = House {
            walk,
            fault,
            proved,
            history,
            asked: Asked::default(),
            told: BTreeMap::new(),
        };
        house.take(command, answer)?;
        Ok(house)
    }

    /// Goes on with the list, if it has a step left.
    pub fn go_on(&mut self) -> Result<Option<(Command, Answer)>, Broken> {
        let Some((command, answer)) = self.walk.next() else {
            return Ok(None);
        };
        self.take(command, answer)?;
        Ok(Some((command, answer)))
    }

    /// Does a step that the list doesn't ask for.
    pub fn step(&mut self, command: Command) -> Result<Answer, Broken> {
        let answer = self.walk.step(command);
        self.take(command, answer)?;
        Ok(answer)
    }

    /// Does a step. Beside a full ledger, which no list leads to, it is refused with 18 if it publishes, and has the
    /// same answer if not.
    pub fn step_beside_any_ledger(&mut self, command: Command) -> Result<Answer, Broken> {
        let beside_full = self.beside_full(command)?;
        let published = self.history.published().len();
        let answer = self.step(command)?;
        let expected = if self.history.published().len() > published {
            refused(refusal::LEDGER_USED_UP)
        } else {
            answer
        };
        let as_expected = beside_full == expected;
        let broken = Broken::Answer(command, beside_full);
        as_expected.then_some(answer).ok_or(broken)
    }

    fn beside_full(&self, command: Command) -> Result<Answer, Broken> {
        let mut lent = Lent {
            table: self.walk.table().to_vec(),
            ledger: ledger::words_of(&[Entry::default(); ENTRIES as usize]),
        };
        if self.proved.is_some() {
            let answer = on_lent(&lent, command).map(|(answer, _)| answer);
            return answer.map_err(|difference| Broken::Parting(Box::new((command, difference))));
        }
        let Lent { table, ledger } = &mut lent;
        Ok(step_with(self.fault, table, ledger, command))
    }

    /// Takes a step that was done by the list's machine. The other does it, too; its answer is held to the theorems by
    /// what was said before it, and then read.
    fn take(&mut self, command: Command, other: Answer) -> Result<(), Broken> {
        if let Some(lent) = &mut self.proved {
            let proved = lent.step(command);
            if proved != other {
                let difference = Difference::Answer { proved, other };
                return Err(Broken::Parting(Box::new((command, difference))));
            }
        }
        let read = self.allows(command, other) && self.read(command, other).is_ok();
        read.then_some(()).ok_or(Broken::Answer(command, other))
    }

    fn read(&mut self, command: Command, answer: Answer) -> Result<(), Unreadable> {
        if let (Command::Open { .. }, Answer::Done) = (command, answer) {
            self.history = opened(command, answer)?;
            self.asked = Asked::default();
            self.told.clear();
        } else {
            self.history.feed(command, answer)?;
        }
        self.asked.feed(command, answer, &self.history);
        match (command, answer) {
            (
                Command::ReleaseSet { messages },
                Answer::SetHeld { mask } | Answer::SetReleased { mask },
            ) => {
                let let_out = matches!(answer, Answer::SetReleased { .. });
                messages
                    .iter()
                    .for_each(|&m| self.hear_of_set(m, mask, let_out));
            }
            _ => self.hear_of_message(answer),
        }
        Ok(())
    }

    fn hear_of_message(&mut self, answer: Answer) {
        match answer {
            Answer::Held { message, mask } => {
                self.told.entry(message).or_default().masks.push(mask);
            }
            Answer::Released { message, mask } => {
                let told = self.told.entry(message).or_default();
                told.masks.push(mask);
                told.let_out = true;
            }
            Answer::Delivered { message, .. } | Answer::Dropped { message, .. } => {
                self.told.entry(message).or_default().taken = true;
            }
            _ => {}
        }
    }

    /// The union of a set names those whom a message of it names, and may name others, too; but none of them that an
    /// earlier release of the message didn't name, as masks only shrink.
    fn hear_of_set(&mut self, message: u32, union: u32, let_out: bool) {
        let told = self.told.entry(message).or_default();
        let named = told.latest_mask().map_or(union, |latest| latest & union);
        told.masks.push(named);
        told.let_out |= let_out;
    }
}

fn opened(command: Command, answer: Answer) -> Result<History, Unreadable> {
    match (command, answer) {
        (Command::Open { n, degree }, Answer::Done) => History::open(n, degree, Misreading::None),
        _ => Err(Unreadable),
    }
}

/// What the steps and their answers say.
impl House {
    pub fn history(&self) -> &History {
        &self.history
    }

    /// Whether both machines have left the same words.
    pub fn is_alike(&self) -> bool {
        self.proved.as_ref().is_none_or(|proved| {
            proved.table == self.walk.table() && proved.ledger == self.walk.ledger()
        })
    }

    pub fn controllers(&self) -> Range<u32> {
        0..self.history.controllers().len() as u32
    }

    fn degree(&self, controller: u32) -> u32 {
        self.history.controllers()[controller as usize].degree
    }

    fn is_for_desk(&self, message: u32) -> bool {
        let sent = self.history.messages().get(&message);
        sent.is_some_and(|sent| sent.receiver == DESK)
    }

    fn is_let_out(&self, message: u32) -> bool {
        self.told.get(&message).is_some_and(|told| told.let_out)
    }

    /// A mask that names every controller.
    fn everyone(&self) -> u32 {
        self.controllers().fold(0, |mask, c| mask | 1 << c)
    }

    fn sender(&self, sent: &Message) -> u32 {
        self.history.intervals()[sent.sending_interval].owner as u32
    }

    /// Whether an interval is on its owner's chain.
    fn is_live(&self, id: IntervalId) -> bool {
        let owner = self.history.intervals()[id].owner;
        self.history.controllers()[owner].chain.contains(&id)
    }

    /// The crashes since the opening that a controller hasn't heard. Who crashed has heard its own.
    fn unheard(&self, hearer: u32) -> impl Iterator<Item = Crash> + '_ {
        let controllers = self.history.controllers();
        let heard = &controllers[hearer as usize].heard;
        let crashes = controllers.iter().enumerate().flat_map(|(c, controller)| {
            let heard = controller.heard.iter();
            heard.filter(move |crash| crash.controller == c)
        });
        crashes.filter(|crash| !heard.contains(crash)).copied()
    }
}
