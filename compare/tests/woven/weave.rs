//! What the theorems suppose, done in a house in any order and among other steps: controllers are asked, and
//! crashes are heard.

use super::{refused, Broken, House};
use reference::generate::Random;
use reference::history::{Crash, IntervalId};
use reference::machine::{Answer, Command, Messages};
use reference::refusal;
use reference::table::CONTROLLERS;
use std::collections::BTreeSet;

/// What is asked for, of whom and for whom.
#[derive(Clone, Copy, Debug)]
pub struct Aim {
    /// Who is to be told, and to hear every crash.
    pub holder: u32,
    /// Who is to be asked.
    pub mask: u32,
    /// Since when it counts: since this interval began.
    pub since: IntervalId,
    /// The messages that it is done for, if it is for some: no other step releases or delivers one of them.
    pub messages: Messages,
    /// Whether as many as the release of these messages may name can be left out.
    pub all_but_k: bool,
}

impl Aim {
    /// For all messages so far of a controller and to it: everyone is asked.
    pub fn everyone(house: &House, holder: u32) -> Self {
        Aim {
            holder,
            mask: house.everyone(),
            since: house.history.intervals().len() - 1,
            messages: Messages::of(&[]),
            all_but_k: false,
        }
    }

    /// Those who are to be asked.
    pub fn asked(self) -> impl Iterator<Item = u32> {
        controllers_of(self.mask)
    }
}

fn controllers_of(mask: u32) -> impl Iterator<Item = u32> {
    (0..CONTROLLERS as u32).filter(move |c| mask >> c & 1 == 1)
}

/// Does what is aimed at, with so many other steps of a hundred among it, and returns how many these were.
pub fn weave(house: &mut House, aim: Aim, others: u32, random: &mut Random) -> Result<u64, Broken> {
    let mut weave = Weave {
        house,
        aim,
        random,
        unheard_for_ever: BTreeSet::new(),
    };
    let mut between = 0;
    while let Some(need) = weave.any_need() {
        if weave.random.chance(others) {
            weave.do_another()?;
            between += 1;
        } else {
            weave.meet(need)?;
        }
    }
    Ok(between)
}

/// What is not yet done.
#[derive(Clone, Copy)]
enum Need {
    Ask(u32),
    Hear(Crash),
}

struct Weave<'a> {
    house: &'a mut House,
    aim: Aim,
    random: &'a mut Random,
    /// The crashes that the holder can't hear.
    unheard_for_ever: BTreeSet<Crash>,
}

impl Weave<'_> {
    fn any_need(&mut self) -> Option<Need> {
        let unheard = self.house.unheard(self.aim.holder);
        let unheard = unheard.filter(|crash| !self.unheard_for_ever.contains(crash));
        let needs: Vec<Need> = self
            .to_ask()
            .map(Need::Ask)
            .chain(unheard.map(Need::Hear))
            .collect();
        self.random.pick(&needs)
    }

    /// Those who are still to be asked.
    fn to_ask(&self) -> impl Iterator<Item = u32> {
        let Aim {
            holder,
            mask,
            since,
            ..
        } = self.aim;
        let left = self.house.asked.left(since, holder, mask);
        let enough = left.count_ones() <= self.spared();
        let to_ask = if enough { 0 } else { left };
        controllers_of(to_ask)
    }

    /// How many of them need not be asked, by the degree of now.
    fn spared(&self) -> u32 {
        let held = self.house.held_set(&self.aim.messages).ok();
        let held = held.filter(|_| self.aim.all_but_k);
        held.map_or(0, |standing| standing.most)
    }

    fn meet(&mut self, need: Need) -> Result<(), Broken> {
        match need {
            Need::Ask(controller) => self.ask(controller),
            Need::Hear(crash) => self.hear(crash),
        }
    }

    /// One of the two steps that ask a controller: a checkpoint, or a crash where it isn't refused; and then it tells.
    fn ask(&mut self, controller: u32) -> Result<(), Broken> {
        let Aim { since, holder, .. } = self.aim;
        if self.house.asked.secured(since, controller).is_some() {
            return self.get_done(Command::Tell {
                owner: controller,
                holder,
            });
        }
        if self.random.chance(25) {
            let answer = self.house.step(Command::Crash { controller })?;
            if !matches!(answer, Answer::Refused { .. }) {
                return Ok(());
            }
        }
        self.get_done(Command::Checkpoint { controller })
    }

    /// What is asked for can always be done (theorem_A_2_done).
    fn get_done(&mut self, command: Command) -> Result<(), Broken> {
        let answer = self.house.step(command)?;
        let done = answer == Answer::Done;
        done.then_some(()).ok_or(Broken::Answer(command, answer))
    }

    /// So can a hearing, unless it must undo in the last incarnation (theorem_A_2_hearing).
    fn hear(&mut self, crash: Crash) -> Result<(), Broken> {
        let command = Command::Hear {
            hearer: self.aim.holder,
            crashed: crash.controller as u32,
            incarnation: crash.incarnation,
        };
        match self.house.step(command)? {
            Answer::Heard { .. } | Answer::Rolled { .. } => {}
            answer if answer == refused(refusal::INCARNATIONS_USED_UP) => {
                self.unheard_for_ever.insert(crash);
            }
            answer => return Err(Broken::Answer(command, answer)),
        }
        Ok(())
    }

    /// A step that the list could go on with, but for openings and for what would decide about the messages.
    fn do_another(&mut self) -> Result<(), Broken> {
        let command = loop {
            let command = self.house.walk.choose();
            if !self.would_decide(command) {
                break command;
            }
        };
        self.house.step(command).map(drop)
    }

    fn would_decide(&self, command: Command) -> bool {
        match command {
            Command::Open { .. } => true,
            Command::Release { message } | Command::Deliver { message } => {
                self.aim.messages.contains(&message)
            }
            Command::ReleaseSet { messages } => {
                messages.iter().any(|m| self.aim.messages.contains(m))
            }
            Command::Dispatch => !self.aim.messages.is_empty(),
            _ => false,
        }
    }
}
