//! The history of a house. "The history is fed each step, in order, with its numbers and its answer,
//! and takes nothing from the table."
//!
//! There are no vectors here. What an interval rests on is kept as the plain set of intervals.

mod fits;
mod misreading;
mod set;

pub use misreading::Misreading;
pub use set::{IntervalId, IntervalSet};

use crate::ledger::{self, Entry};
use crate::machine::{Answer, Command};
use crate::table::{CONTROLLERS, DESK};
use std::collections::{BTreeMap, BTreeSet};

/// A crash, by the incarnation that it ended; none is ended twice.
#[derive(Clone, Copy, Debug, PartialEq, Eq, PartialOrd, Ord)]
pub struct Crash {
    /// Who crashed.
    pub controller: usize,
    /// The ended incarnation.
    pub incarnation: u32,
}

/// An interval ever begun.
#[derive(Clone, Debug)]
pub struct Interval {
    /// Whose interval it is.
    pub owner: usize,
    /// Its incarnation.
    pub incarnation: u32,
    /// Its number.
    pub number: u32,
    /// "An interval *rests on* itself, on what the live interval just before it rests on when it
    /// began, and, if a delivery began it, on what the sending interval rests on."
    pub rests_on: IntervalSet,
    /// "*Stable* means once written to stable storage."
    pub stable: bool,
    /// Whether a checkpoint was taken in it.
    pub flagged: bool,
    /// The crash it was lost in, if any.
    pub lost_in: Option<Crash>,
}

/// What the history keeps of a controller.
#[derive(Clone, Debug)]
pub struct Controller {
    /// The degree of optimism, K.
    pub degree: u32,
    /// The incarnation that it is in.
    pub incarnation: u32,
    /// Its live intervals, the oldest first. Never empty: the first one is stable from the start.
    pub chain: Vec<IntervalId>,
    /// "A controller has *heard* its own accepted crashes and those of its accepted hearings."
    pub heard: BTreeSet<Crash>,
}

/// What the history keeps of a message.
#[derive(Clone, Copy, Debug, PartialEq, Eq)]
pub struct Message {
    /// The controller that it is for, or the desk.
    pub receiver: u32,
    /// The interval that it was sent from.
    pub sending_interval: IntervalId,
    /// What it carries, for the ledger.
    pub payload: u32,
}

/// An answer that the history has no sentence for: of another kind than the step gives, or about
/// something that isn't there. Only a faulty machine gives one.
#[derive(Clone, Copy, Debug, PartialEq, Eq)]
pub struct Unreadable;

/// All that happened in a house since its opening.
#[derive(Clone, Debug)]
pub struct History {
    misreading: Misreading,
    gap: u32,
    served: u32,
    controllers: Vec<Controller>,
    messages: BTreeMap<u32, Message>,
    intervals: Vec<Interval>,
    published: Vec<u32>,
}

/// Reading.
impl History {
    /// The gap Q.
    pub fn gap(&self) -> u32 {
        self.gap
    }

    /// The controller that the dispatcher served last.
    pub fn served(&self) -> u32 {
        self.served
    }

    /// The controllers, in order.
    pub fn controllers(&self) -> &[Controller] {
        &self.controllers
    }

    /// Every interval ever begun, in order.
    pub fn intervals(&self) -> &[Interval] {
        &self.intervals
    }

    /// The messages sent, by number.
    pub fn messages(&self) -> &BTreeMap<u32, Message> {
        &self.messages
    }

    /// The messages let out to the desk, in the order of their releases.
    pub fn published(&self) -> &[u32] {
        &self.published
    }

    /// The words of the ledger by these releases: "pairs of message number and payload, in the order of
    /// publishing".
    pub fn ledger(&self) -> Vec<u32> {
        let entries = self.published.iter().map(|&message| Entry {
            message,
            payload: self.messages[&message].payload,
        });
        ledger::words_of(&entries.collect::<Vec<_>>())
    }

    /// The highest number at most the given one of a controller's live intervals that are flagged.
    pub fn latest_flagged(&self, controller: usize, most: u32) -> Option<u32> {
        let chain = self.controllers[controller].chain.iter().rev();
        let live = chain.map(|&id| &self.intervals[id]);
        let mut flagged = live.filter(|interval| interval.flagged && interval.number <= most);
        flagged.next().map(|interval| interval.number)
    }

    /// The crashes that a controller has heard and in which intervals were lost that this one rests on.
    pub fn losses_heard(&self, controller: usize, id: IntervalId) -> BTreeSet<Crash> {
        let rests_on = self.intervals[id].rests_on.iter();
        let crashes = rests_on.filter_map(|id| self.intervals[id].lost_in);
        let heard = |crash: &Crash| {
            let controller = self.controllers.get(controller);
            controller.is_some_and(|controller| controller.heard.contains(crash))
        };
        crashes.filter(heard).collect()
    }

    /// Those of the given intervals that rest on one lost in a crash that the controller has heard:
    /// its orphans, as far as it can know.
    pub fn orphans(&self, controller: usize, among: &[IntervalId]) -> Vec<IntervalId> {
        let heard = &self.controllers[controller].heard;
        let lost: IntervalSet = (0..self.intervals.len())
            .filter(|&id| {
                let lost_in = self.intervals[id].lost_in;
                lost_in.is_some_and(|crash| heard.contains(&crash))
            })
            .collect();
        among
            .iter()
            .copied()
            .filter(|&id| self.intervals[id].rests_on.intersects(&lost))
            .collect()
    }
}

/// Feeding.
impl History {
    /// "O: each chain is (0,1), stable, resting on itself; all degrees are k." It is flagged, the gap is off,
    /// and the controller last served is the last. What is misread from here on is nothing but in tests.
    pub fn open(n: u32, degree: u32, misreading: Misreading) -> Result<Self, Unreadable> {
        let n = usize::try_from(n).map_err(|_| Unreadable)?;
        if !(1..=CONTROLLERS).contains(&n) {
            return Err(Unreadable);
        }
        let mut history = History {
            misreading,
            gap: 0,
            served: n as u32 - 1,
            controllers: Vec::new(),
            messages: BTreeMap::new(),
            intervals: Vec::new(),
            published: Vec::new(),
        };
        for owner in 0..n {
            history.controllers.push(Controller {
                degree,
                incarnation: 0,
                chain: Vec::new(),
                heard: BTreeSet::new(),
            });
            history.join(owner, 1, true, IntervalSet::default());
            history.flag_newest(owner);
        }
        Ok(history)
    }

    /// "The history is fed each step, in order, with its numbers and its answer." An opening that was
    /// done is the beginning of another history, and unreadable here.
    pub fn feed(&mut self, command: Command, answer: Answer) -> Result<(), Unreadable> {
        if !fits::fits(command, answer) {
            return Err(Unreadable);
        }
        match (command, answer) {
            // "T, `held`, `waits`, `dropped` and refused steps change nothing."
            (_, Answer::Refused { .. }) => Ok(()),
            (Command::SetDegree { controller, degree }, _) => self.set_degree(controller, degree),
            (
                Command::Send {
                    sender,
                    receiver,
                    payload,
                },
                Answer::Sent { message },
            ) => self.send(sender, receiver, payload, message),
            (Command::Release { message }, Answer::Released { .. }) => self.release(message),
            (Command::ReleaseSet { messages }, Answer::SetReleased { .. }) => {
                messages.iter().try_for_each(|&m| self.release(m))
            }
            (Command::Deliver { message }, Answer::Delivered { .. }) => self.deliver(message),
            (Command::Dispatch, answer) => self.dispatch(answer),
            (Command::Log { controller, count }, _) => self.log(controller, count as usize),
            (Command::Checkpoint { controller }, _) => self.checkpoint(controller),
            (Command::Crash { controller }, _) => self.crash(controller),
            (
                Command::Hear {
                    hearer,
                    crashed,
                    incarnation,
                },
                answer,
            ) => self.hear(hearer, crashed, incarnation, answer),
            (Command::SetGap { gap }, _) => {
                self.gap = gap;
                Ok(())
            }
            _ => Ok(()),
        }
    }

    fn controller(&self, controller: u32) -> Result<usize, Unreadable> {
        let c = usize::try_from(controller).map_err(|_| Unreadable)?;
        (c < self.controllers.len()).then_some(c).ok_or(Unreadable)
    }

    fn message(&self, message: u32) -> Result<Message, Unreadable> {
        self.messages.get(&message).copied().ok_or(Unreadable)
    }

    fn newest(&self, controller: usize) -> Result<IntervalId, Unreadable> {
        let chain = &self.controllers[controller].chain;
        chain.last().copied().ok_or(Unreadable)
    }

    /// "K: c's degree is k."
    fn set_degree(&mut self, controller: u32, degree: u32) -> Result<(), Unreadable> {
        let c = self.controller(controller)?;
        self.controllers[c].degree = degree;
        Ok(())
    }

    /// "S: message m for r was sent from the newest live interval of s."
    fn send(
        &mut self,
        sender: u32,
        receiver: u32,
        payload: u32,
        message: u32,
    ) -> Result<(), Unreadable> {
        if receiver != DESK {
            self.controller(receiver)?;
        }
        let sent = Message {
            receiver,
            sending_interval: self.newest(self.controller(sender)?)?,
            payload,
        };
        self.messages.insert(message, sent);
        Ok(())
    }

    /// "`released`: m is let out", by itself or in a set, in the order given. One for the desk is published so.
    fn release(&mut self, message: u32) -> Result<(), Unreadable> {
        if self.message(message)?.receiver == DESK {
            self.published.push(message);
        }
        Ok(())
    }

    /// "`delivered`: the receiver's next interval, not stable, joins its chain." The desk has none.
    fn deliver(&mut self, message: u32) -> Result<(), Unreadable> {
        let sent = self.message(message)?;
        let receiver = self.controller(sent.receiver)?;
        let before = &self.intervals[self.newest(receiver)?];
        let number = before.number + 1;
        let mut rests_on = before.rests_on.clone();
        rests_on.extend_from(&self.intervals[sent.sending_interval].rests_on);
        self.join(receiver, number, false, rests_on);
        self.keep_to_the_gap(receiver)
    }

    /// A delivery that the dispatcher chose is one like any other. "It keeps the controller last served."
    fn dispatch(&mut self, answer: Answer) -> Result<(), Unreadable> {
        if let Answer::Delivered { message, .. } | Answer::Dropped { message, .. } = answer {
            self.served = self.message(message)?.receiver;
        }
        match answer {
            Answer::Delivered { message, .. } => self.deliver(message),
            _ => Ok(()),
        }
    }

    /// "L: the q oldest live ones of c not yet stable become stable."
    fn log(&mut self, controller: u32, count: usize) -> Result<(), Unreadable> {
        let c = self.controller(controller)?;
        self.make_stable(c, count);
        Ok(())
    }

    fn make_stable(&mut self, c: usize, count: usize) {
        for id in self.volatile(c).into_iter().take(count) {
            self.intervals[id].stable = true;
        }
    }

    /// "C: all of them do." The newest is flagged.
    fn checkpoint(&mut self, controller: u32) -> Result<(), Unreadable> {
        let c = self.controller(controller)?;
        self.make_stable(c, usize::MAX);
        self.flag_newest(c);
        Ok(())
    }

    fn flag_newest(&mut self, c: usize) {
        if let Some(&newest) = self.controllers[c].chain.last() {
            self.intervals[newest].flagged = true;
        }
    }

    /// "When a new interval of any cause would stand Q or more numbers above the latest flagged one on
    /// its chain, it is checkpointed as it begins, which logs all before it. .. Forced checkpoints, with
    /// all that they log, count as stable for all rules, the history's too."
    fn keep_to_the_gap(&mut self, c: usize) -> Result<(), Unreadable> {
        let newest = self.intervals[self.newest(c)?].number;
        let latest = self.latest_flagged(c, newest - 1).ok_or(Unreadable)?;
        if self.gap == 0 || newest - latest < self.gap {
            return Ok(());
        }
        if self.misreading.makes_forced_stable() {
            self.make_stable(c, usize::MAX);
        }
        if self.misreading.flags_forced() {
            self.flag_newest(c);
        }
        Ok(())
    }

    /// The live intervals of c that are not stable, the oldest first.
    fn volatile(&self, c: usize) -> Vec<IntervalId> {
        let chain = self.controllers[c].chain.iter().copied();
        chain.filter(|&id| !self.intervals[id].stable).collect()
    }

    /// "X: the live ones of c that are not stable are lost in this crash and leave the chain; c has
    /// heard it."
    fn crash(&mut self, controller: u32) -> Result<(), Unreadable> {
        let c = self.controller(controller)?;
        let crash = Crash {
            controller: c,
            incarnation: self.controllers[c].incarnation,
        };
        for id in self.volatile(c) {
            self.intervals[id].lost_in = Some(crash);
        }
        let intervals = &self.intervals;
        let controller = &mut self.controllers[c];
        controller.chain.retain(|&id| intervals[id].stable);
        controller.heard.insert(crash);
        self.start_anew(c)
    }

    /// "H: b has heard the crash that ended a's incarnation t. `rolled` also: b's live ones with
    /// numbers above k are undone and leave, the others become stable."
    fn hear(
        &mut self,
        hearer: u32,
        crashed: u32,
        incarnation: u32,
        answer: Answer,
    ) -> Result<(), Unreadable> {
        let hearer = self.controller(hearer)?;
        let crash = Crash {
            controller: self.controller(crashed)?,
            incarnation,
        };
        self.controllers[hearer].heard.insert(crash);
        let Answer::Rolled { kept, .. } = answer else {
            return Ok(());
        };
        let intervals = &self.intervals;
        let chain = &mut self.controllers[hearer].chain;
        chain.retain(|&id| intervals[id].number <= kept);
        self.make_stable(hearer, usize::MAX);
        self.start_anew(hearer)
    }

    /// "After X and `rolled` a stable interval joins: incarnation plus 1, number one above the highest
    /// left."
    fn start_anew(&mut self, c: usize) -> Result<(), Unreadable> {
        let left = &self.intervals[self.newest(c)?];
        let number = left.number + 1;
        let rests_on = left.rests_on.clone();
        self.controllers[c].incarnation += 1;
        self.join(c, number, true, rests_on);
        self.keep_to_the_gap(c)
    }

    /// Begins an interval in its owner's incarnation; `rests_on` lacks only the interval itself.
    fn join(&mut self, owner: usize, number: u32, stable: bool, mut rests_on: IntervalSet) {
        let id = self.intervals.len();
        rests_on.insert(id);
        let controller = &mut self.controllers[owner];
        controller.chain.push(id);
        self.intervals.push(Interval {
            owner,
            incarnation: controller.incarnation,
            number,
            rests_on,
            stable,
            flagged: false,
            lost_in: None,
        });
    }
}
