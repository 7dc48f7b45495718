//! Steps chosen by looking at the table, so that a random list leads somewhere.

use super::profile::Kind;
use super::{Profile, Random};
use crate::machine::Command;
use crate::table::{state, Table, DESK, INCARNATIONS};

/// An opening of a house of this profile.
pub(super) fn opening(random: &mut Random, profile: &Profile) -> Command {
    let n = random.within(profile.controllers.clone());
    let degree = degree(random, n);
    Command::Open { n, degree }
}

/// Often the highest degree, under which most work is left to hang on other work.
fn degree(random: &mut Random, n: u32) -> u32 {
    if random.chance(40) {
        n
    } else {
        random.within(0..=n)
    }
}

/// One who looks at a table in form and chooses a step.
pub(super) struct Chooser<'a> {
    pub(super) random: &'a mut Random,
    pub(super) profile: &'a Profile,
    pub(super) table: Table<&'a [u32]>,
}

impl Chooser<'_> {
    /// A step of this kind that mostly isn't refused, as far as a look at the table can tell. A send is
    /// always found.
    pub(super) fn step(&mut self, kind: Kind) -> Option<Command> {
        let controller = self.controller();
        match kind {
            Kind::Open => Some(opening(self.random, self.profile)),
            Kind::SetDegree => Some(Command::SetDegree {
                controller,
                degree: degree(self.random, self.table.n()),
            }),
            Kind::Send => Some(self.send(controller)),
            Kind::Release => {
                let message = self.message(state::HELD)?;
                Some(Command::Release { message })
            }
            Kind::Deliver => {
                let message = self.message(state::RELEASED)?;
                Some(Command::Deliver { message })
            }
            Kind::Log => self.log(controller),
            Kind::Checkpoint => Some(Command::Checkpoint { controller }),
            Kind::Tell => Some(Command::Tell {
                owner: controller,
                holder: self.other(controller),
            }),
            Kind::Crash => Some(Command::Crash {
                controller: self.rested_on().unwrap_or(controller),
            }),
            Kind::Hear => self.hearing(),
        }
    }

    /// Often one with something to lose.
    fn controller(&mut self) -> u32 {
        let all = 0..self.table.n();
        let busy: Vec<u32> = all.filter(|&c| self.volatile(c) > 0).collect();
        match self.random.pick(&busy) {
            Some(controller) if self.random.chance(60) => controller,
            _ => self.random.below(self.table.n()),
        }
    }

    /// How many live intervals of a controller aren't stable.
    fn volatile(&self, controller: u32) -> u32 {
        let counts = self.table.controller(controller as usize);
        counts.live - counts.stable
    }

    /// Another controller, if there is one.
    fn other(&mut self, controller: u32) -> u32 {
        let n = self.table.n();
        let distance = self.random.below(n - 1) + 1;
        (controller + distance) % n
    }

    fn send(&mut self, sender: u32) -> Command {
        Command::Send {
            sender,
            receiver: self.receiver(sender),
            payload: self.random.word(),
        }
    }

    fn receiver(&mut self, sender: u32) -> u32 {
        let last = self.table.n() - 1;
        if self.random.chance(self.profile.to_desk) {
            DESK
        } else if sender != last && self.random.chance(self.profile.to_last) {
            last
        } else {
            self.other(sender)
        }
    }

    /// Often the newest message in the state: fresh work is what crashes and rollbacks reach. Seldom any
    /// message: that a step is refused for a state tells of that state, too.
    fn message(&mut self, state: u32) -> Option<u32> {
        if self.random.chance(3) {
            return Some(self.random.below(self.table.sent()) + 1);
        }
        let in_state: Vec<u32> = (1..=self.table.sent())
            .filter(|&message| self.table.message(message).state == state)
            .collect();
        if self.random.chance(60) {
            in_state.last().copied()
        } else {
            self.random.pick(&in_state)
        }
    }

    fn log(&mut self, controller: u32) -> Option<Command> {
        let volatile = self.volatile(controller);
        (volatile > 0).then(|| Command::Log {
            controller,
            count: self.random.within(1..=volatile),
        })
    }

    /// Often a controller whose crash makes orphans.
    fn rested_on(&mut self) -> Option<u32> {
        let n = self.table.n();
        let makes_orphans = |&owner: &u32| {
            let counts = self.table.controller(owner as usize);
            let mut others = (0..n).filter(|&other| other != owner);
            others.any(|other| self.rests_on(other, owner, counts.incarnation, counts.stable))
        };
        let rested_on: Vec<u32> = (0..n).filter(makes_orphans).collect();
        let chosen = self.random.pick(&rested_on);
        chosen.filter(|_| self.random.chance(60))
    }

    /// Whether the newest interval of a controller depends on the owner's incarnation with a number
    /// above the given.
    fn rests_on(&self, controller: u32, owner: u32, incarnation: u32, above: u32) -> bool {
        let pair = self.table.newest(controller as usize).vector[owner as usize];
        pair.incarnation == incarnation && pair.number > above
    }

    /// A hearing that is still to be done, in half of the cases rather one that must undo.
    fn hearing(&mut self) -> Option<Command> {
        let must_undo = |&(hearer, crashed, incarnation): &(u32, u32, u32)| {
            let kept = self.end(crashed, crashed, incarnation);
            self.rests_on(hearer, crashed, incarnation, kept)
        };
        let unheard = self.unheard().into_iter();
        let (undoing, idle): (Vec<_>, Vec<_>) = unheard.partition(must_undo);
        let (first, second) = if self.random.chance(50) {
            (undoing, idle)
        } else {
            (idle, undoing)
        };
        let chosen = self.random.pick(&first);
        let (hearer, crashed, incarnation) = chosen.or_else(|| self.random.pick(&second))?;
        Some(Command::Hear {
            hearer,
            crashed,
            incarnation,
        })
    }

    /// Every hearing that is still to be done: who, of whose crash, in which incarnation.
    fn unheard(&self) -> Vec<(u32, u32, u32)> {
        let n = self.table.n();
        let mut hearings = Vec::new();
        for crashed in 0..n {
            for incarnation in 0..INCARNATIONS as u32 {
                if self.end(crashed, crashed, incarnation) != 0 {
                    let hearers =
                        (0..n).filter(|&hearer| self.end(hearer, crashed, incarnation) == 0);
                    hearings.extend(hearers.map(|hearer| (hearer, crashed, incarnation)));
                }
            }
        }
        hearings
    }

    fn end(&self, holder: u32, owner: u32, incarnation: u32) -> u32 {
        let ends = self.table.ends(holder as usize);
        ends.word(owner as usize, incarnation)
    }
}
