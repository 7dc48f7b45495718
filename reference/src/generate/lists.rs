//! Random lists of steps: sensible ones, chosen by looking at the table, and senseless ones.

use super::choose::{opening, Chooser};
use super::{gap, noise, set, sound_ledger, Profile, Random};
use crate::ledger;
use crate::machine::{step_with, Answer, Command, Fault};
use crate::table::{in_form, Table, CONTROLLERS, LAST_GAP, WORDS};
use std::ops::RangeInclusive;

/// A random list in the doing: each item is the next step and its answer, and the table and the ledger
/// stand as the last one left them. Other steps may be done in between, and after the last.
#[derive(Clone)]
pub struct Walk {
    random: Random,
    profile: &'static Profile,
    fault: Fault,
    table: Vec<u32>,
    ledger: Vec<u32>,
    first: bool,
    /// Whether the last step was an opening that was done.
    opened: bool,
    left: u32,
}

impl Walk {
    /// A list of the sound machine.
    pub fn new(seed: u64, profile: &'static Profile) -> Self {
        Walk::with_fault(seed, profile, Fault::None)
    }

    /// A list of a faulty machine. The table and the ledger before its first opening are zero or noise.
    pub fn with_fault(seed: u64, profile: &'static Profile, fault: Fault) -> Self {
        let mut random = Random::new(seed);
        let left = random.within(profile.steps.clone());
        let (table, ledger) = if random.chance(50) {
            (noise(&mut random), left_ledger(&mut random))
        } else {
            (vec![0; WORDS], vec![0; ledger::WORDS])
        };
        Walk {
            random,
            profile,
            fault,
            table,
            ledger,
            first: true,
            opened: false,
            left,
        }
    }

    /// The table as it stands.
    pub fn table(&self) -> &[u32] {
        &self.table
    }

    /// The ledger as it stands.
    pub fn ledger(&self) -> &[u32] {
        &self.ledger
    }

    /// A step that the list could go on with.
    pub fn choose(&mut self) -> Command {
        if std::mem::take(&mut self.first) {
            return opening(&mut self.random, self.profile);
        }
        if let Some(gap) = self.gap() {
            return Command::SetGap { gap };
        }
        if self.profile.sets > 0 && self.random.chance(self.profile.sets) {
            let messages = set(&mut self.random, &self.table);
            return Command::ReleaseSet { messages };
        }
        if self.profile.dispatches > 0 && self.random.chance(self.profile.dispatches) {
            return Command::Dispatch;
        }
        if self.random.chance(self.profile.senseless) {
            return senseless(&mut self.random);
        }
        self.sensible()
            .unwrap_or_else(|| senseless(&mut self.random))
    }

    /// Does a step, be it chosen by the list or not.
    pub fn step(&mut self, command: Command) -> Answer {
        let answer = step_with(self.fault, &mut self.table, &mut self.ledger, command);
        self.opened = matches!((command, answer), (Command::Open { .. }, Answer::Done));
        answer
    }

    /// The gap, where it is to be set now.
    fn gap(&mut self) -> Option<u32> {
        let gaps = self.profile.gaps.as_ref()?;
        let narrowest = u32::from(gaps.first.is_some());
        match &gaps.first {
            Some(first) if self.opened => Some(self.first_gap(first.clone())),
            _ if self.random.chance(gaps.percent) => Some(gap(&mut self.random).max(narrowest)),
            _ => None,
        }
    }

    /// Often one of the widest, where these are allowed: it takes a long chain to see them forced.
    fn first_gap(&mut self, range: RangeInclusive<u32>) -> u32 {
        let widest = *range.end() == LAST_GAP;
        if widest && self.random.chance(30) {
            self.random.within(LAST_GAP - 2..=LAST_GAP)
        } else {
            self.random.within(range)
        }
    }

    /// A sensible step, if the table is in form, as the sound machine leaves it after an opening.
    fn sensible(&mut self) -> Option<Command> {
        let trusted = self.fault == Fault::None || in_form(&self.table);
        let table = Table::new(&self.table[..]).filter(|_| trusted)?;
        let mut chooser = Chooser {
            random: &mut self.random,
            profile: self.profile,
            table,
        };
        // A kind may have nothing to do just now; a send always has.
        loop {
            let kind = chooser.random.weighted(&self.profile.weights)?;
            if let Some(command) = chooser.step(kind) {
                return Some(command);
            }
        }
    }
}

impl Iterator for Walk {
    type Item = (Command, Answer);

    fn next(&mut self) -> Option<Self::Item> {
        self.left = self.left.checked_sub(1)?;
        let command = self.choose();
        Some((command, self.step(command)))
    }
}

/// What may stand in a ledger before an opening: entries of an earlier house, or mere noise.
fn left_ledger(random: &mut Random) -> Vec<u32> {
    if random.chance(50) {
        sound_ledger(random)
    } else {
        (0..ledger::WORDS).map(|_| random.word()).collect()
    }
}

/// A lettered step with any numbers: small ones, those at the edges of ranges, and wild ones.
pub fn senseless(random: &mut Random) -> Command {
    const EDGES: [u32; 10] = [7, 8, 9, 15, 16, 63, 64, 65, 128, 129];
    let mut number = || match random.below(8) {
        0 => random.word(),
        1 => random.pick(&EDGES).unwrap_or(u32::MAX),
        2 => u32::MAX,
        _ => random.below(CONTROLLERS as u32 / 2),
    };
    let (x, y, z) = (number(), number(), number());
    match random.below(10) {
        0 => Command::Open { n: x, degree: y },
        1 => Command::SetDegree {
            controller: x,
            degree: y,
        },
        2 => Command::Send {
            sender: x,
            receiver: y,
            payload: z,
        },
        3 => Command::Release { message: x },
        4 => Command::Deliver { message: x },
        5 => Command::Log {
            controller: x,
            count: y,
        },
        6 => Command::Checkpoint { controller: x },
        7 => Command::Tell {
            owner: x,
            holder: y,
        },
        8 => Command::Crash { controller: x },
        _ => Command::Hear {
            hearer: x,
            crashed: y,
            incarnation: z,
        },
    }
}
