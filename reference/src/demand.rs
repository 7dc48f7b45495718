//! Demand 3, judged over a list of steps and their answers by the history of the house alone.
//!
//! "Every accepted hearing in the list undid exactly those live intervals of its controller that
//! rest .. on one lost in a crash which that controller has heard by then. No live interval rests on
//! one lost in a crash its controller has heard. And each message that a release in the list let out
//! under a degree K was let out with at most K controllers named; these own every interval that its
//! sending interval rests on, that wasn't stable at that release, and that is lost anywhere in the
//! list, before it or after." And "the sending interval of a published message is never lost or undone
//! in any later steps before an opening".
//!
//! A set that is let out is judged so by each of its messages, all with the mask of the set: "the limit of
//! K controllers now speaks of the set as it did of one message".
//!
//! A delivery by the dispatcher is judged as one by its number. That nobody is starved isn't judged here: who has a
//! message that could be delivered isn't told by steps and answers alone.
//!
//! The ledger is judged with it, where its words are shown: in a house just opened it has the messages
//! that the list's releases let out to the desk, in their order, with the payloads of their sends.
//!
//! And so is the ceiling on replay, by what the answers say of it, and the crash that `dropped` and `rolled`
//! name.

mod blame;
mod ceiling;

use crate::history::{Crash, History, IntervalId, Misreading, Unreadable};
use crate::ledger;
use crate::machine::{Answer, Command};
use ceiling::Ceiling;

/// Where demand 3 doesn't hold. Positions count the steps of the list from 0.
#[derive(Clone, Copy, Debug, PartialEq, Eq)]
pub enum Breach {
    /// A hearing left intervals live that rest on heard losses.
    NotUndone {
        /// The hearing.
        position: usize,
        /// How many intervals it left.
        intervals: usize,
    },
    /// A hearing undid intervals that rest on no heard loss.
    UndoneWithoutCause {
        /// The hearing.
        position: usize,
        /// How many intervals it undid so.
        intervals: usize,
    },
    /// At the end of a list an interval is live that rests on a heard loss.
    LiveOrphan {
        /// The first position after the list.
        position: usize,
        /// Whose interval it is.
        controller: usize,
    },
    /// A release named more controllers than its degree allows.
    TooManyNamed {
        /// The release.
        position: usize,
        /// How many it named.
        named: u32,
        /// The sender's degree.
        degree: u32,
    },
    /// A release didn't name the owner of an interval that it rested on, not stable then, and lost.
    OwnerNotNamed {
        /// The release.
        position: usize,
        /// The controller that should have been named.
        owner: usize,
    },
    /// A step lost or undid the sending interval of a message that had been published.
    PublishedRevoked {
        /// The crash or the hearing.
        position: usize,
        /// The message that can't be recalled.
        message: u32,
    },
    /// The ledger isn't the one that the steps say.
    LedgerDiffers {
        /// The first position after those steps.
        position: usize,
    },
    /// A crash or a rollback replayed more than the gaps set since the opening allow.
    AboveCeiling {
        /// The crash or the hearing.
        position: usize,
        /// How many intervals it replayed.
        replayed: u32,
        /// The ceiling.
        most: u32,
    },
    /// A dropped delivery or a rollback named another crash than the one that its reason was.
    WrongCrash {
        /// The delivery or the hearing.
        position: usize,
    },
    /// The history has no sentence for this answer. No claim of demand 3 but the ground of all.
    Unreadable {
        /// The step.
        position: usize,
    },
}

/// Checks a list of steps with their answers.
///
/// A done opening in it ends one list and begins another. Steps before the first one belong to no
/// list, and nothing is claimed of them.
pub fn check(list: &[(Command, Answer)]) -> Vec<Breach> {
    let mut judge = Judge::default();
    for &(command, answer) in list {
        judge.feed(command, answer);
    }
    judge.finish()
}

/// A judge who is told the steps one by one.
#[derive(Debug, Default)]
pub struct Judge {
    misreading: Misreading,
    position: usize,
    ceiling: Ceiling,
    history: Option<History>,
    releases: Vec<Release>,
    breaches: Vec<Breach>,
}

/// A message let out, kept until the end of the list tells what was lost.
#[derive(Debug)]
struct Release {
    position: usize,
    mask: u32,
    /// What the sending interval rests on that wasn't stable at the release.
    at_risk: Vec<IntervalId>,
}

impl Judge {
    /// A judge who misreads the steps.
    pub fn misreading(misreading: Misreading) -> Self {
        Judge {
            misreading,
            ..Judge::default()
        }
    }

    /// The history of the house since the latest opening, if there was one.
    pub fn history(&self) -> Option<&History> {
        self.history.as_ref()
    }

    /// The 257 words that the ledger has by the steps since the latest opening. Nothing is claimed
    /// before the first one; it is empty then.
    pub fn ledger(&self) -> Vec<u32> {
        let history = self.history.as_ref();
        history.map_or_else(|| ledger::words_of(&[]), History::ledger)
    }

    /// The most that the next crash or rollback may replay, if anything is claimed of it.
    pub fn ceiling(&self) -> Option<u32> {
        self.ceiling.most()
    }

    /// Looks at the ledger that the steps so far have left.
    pub fn see_ledger(&mut self, words: &[u32]) {
        if self.history.is_some() && self.ledger() != words {
            let position = self.position;
            self.breaches.push(Breach::LedgerDiffers { position });
        }
    }

    /// Takes the next step with its answer.
    pub fn feed(&mut self, command: Command, answer: Answer) {
        self.ceiling.feed(self.misreading, command, answer);
        self.judge_replay(answer);
        let read = match (command, answer) {
            (Command::Open { .. }, Answer::Refused { .. }) => Ok(()),
            (Command::Open { n, degree }, _) => self.open(n, degree, answer),
            _ => self.follow(command, answer),
        };
        if read.is_err() {
            let position = self.position;
            self.breaches.push(Breach::Unreadable { position });
        }
        self.position += 1;
    }

    /// Ends the list, and says what was wrong with it and with those before it.
    pub fn finish(mut self) -> Vec<Breach> {
        self.end_list();
        self.breaches
    }

    /// "The list starts from the table that a done opening left, whatever stood in it before."
    fn open(&mut self, n: u32, degree: u32, answer: Answer) -> Result<(), Unreadable> {
        if answer != Answer::Done {
            return Err(Unreadable);
        }
        self.end_list();
        self.history = Some(History::open(n, degree, self.misreading)?);
        self.ceiling = Ceiling::Opened;
        Ok(())
    }

    fn follow(&mut self, command: Command, answer: Answer) -> Result<(), Unreadable> {
        let Some(history) = &mut self.history else {
            return Ok(());
        };
        match (command, answer) {
            (
                Command::Hear {
                    hearer,
                    crashed,
                    incarnation,
                },
                Answer::Heard { .. } | Answer::Rolled { .. },
            ) => {
                let live = live_of(history, hearer)?;
                let crash = Crash {
                    controller: crashed as usize,
                    incarnation,
                };
                let heard_before = history.controllers()[hearer as usize]
                    .heard
                    .contains(&crash);
                history.feed(command, answer)?;
                self.judge_hearing(hearer as usize, &live);
                self.judge_published(hearer as usize, &live);
                if matches!(answer, Answer::Rolled { .. }) {
                    self.judge_rollback(command, answer, heard_before, &live);
                }
            }
            (Command::Deliver { .. } | Command::Dispatch, Answer::Dropped { .. }) => {
                history.feed(command, answer)?;
                if !blame::of_dropped(history, answer) {
                    let position = self.position;
                    self.breaches.push(Breach::WrongCrash { position });
                }
            }
            (Command::Crash { controller }, Answer::Crashed { .. }) => {
                let live = live_of(history, controller)?;
                history.feed(command, answer)?;
                self.judge_published(controller as usize, &live);
            }
            (Command::Release { .. }, Answer::Released { message, mask }) => {
                history.feed(command, answer)?;
                self.judge_release(message, mask);
            }
            (Command::ReleaseSet { messages }, Answer::SetReleased { mask }) => {
                history.feed(command, answer)?;
                messages.iter().for_each(|&m| self.judge_release(m, mask));
            }
            _ => history.feed(command, answer)?,
        }
        Ok(())
    }

    /// What a crash or a rollback says of its replay is held to the ceiling, if there is one.
    fn judge_replay(&mut self, answer: Answer) {
        let (Answer::Crashed { replayed, .. } | Answer::Rolled { replayed, .. }) = answer else {
            return;
        };
        if let Some(most) = self.ceiling.most().filter(|&most| replayed > most) {
            self.breaches.push(Breach::AboveCeiling {
                position: self.position,
                replayed,
                most,
            });
        }
    }

    /// "A hearing is judged by the intervals live just before it and the crashes its controller has
    /// heard just after it."
    fn judge_hearing(&mut self, hearer: usize, live_before: &[IntervalId]) {
        let Some(history) = &self.history else { return };
        let position = self.position;
        let live_after = &history.controllers()[hearer].chain;
        let orphans = history.orphans(hearer, live_before);
        let (left, undone): (Vec<_>, Vec<_>) =
            live_before.iter().partition(|id| live_after.contains(id));
        let intervals = left.iter().filter(|id| orphans.contains(id)).count();
        if intervals > 0 {
            self.breaches.push(Breach::NotUndone {
                position,
                intervals,
            });
        }
        let intervals = undone.iter().filter(|id| !orphans.contains(id)).count();
        if intervals > 0 {
            self.breaches.push(Breach::UndoneWithoutCause {
                position,
                intervals,
            });
        }
    }

    /// "For a rollback it is the crash just heard", by what it undid of these intervals.
    fn judge_rollback(
        &mut self,
        command: Command,
        answer: Answer,
        heard_before: bool,
        live_before: &[IntervalId],
    ) {
        let (Some(history), Command::Hear { hearer, .. }) = (&self.history, command) else {
            return;
        };
        let live_after = &history.controllers()[hearer as usize].chain;
        let undone = live_before.iter().filter(|id| !live_after.contains(id));
        let undone: Vec<IntervalId> = undone.copied().collect();
        if !blame::of_rollback(history, command, answer, heard_before, &undone) {
            let position = self.position;
            self.breaches.push(Breach::WrongCrash { position });
        }
    }

    /// "The sending interval of a published message is never lost or undone", by a step that took some of
    /// these intervals off their chain.
    fn judge_published(&mut self, controller: usize, live_before: &[IntervalId]) {
        let Some(history) = &self.history else { return };
        let position = self.position;
        let live_after = &history.controllers()[controller].chain;
        for &message in history.published() {
            let sending = history.messages()[&message].sending_interval;
            if live_before.contains(&sending) && !live_after.contains(&sending) {
                self.breaches
                    .push(Breach::PublishedRevoked { position, message });
            }
        }
    }

    /// "`released`: m is let out under its sender's degree of that moment; named are the controllers
    /// c whose 2 to the power c is in the mask."
    fn judge_release(&mut self, message: u32, mask: u32) {
        let Some(history) = &self.history else { return };
        let Some(sent) = history.messages().get(&message) else {
            return;
        };
        let intervals = history.intervals();
        let sending = &intervals[sent.sending_interval];
        let degree = history.controllers()[sending.owner].degree;
        let at_risk = sending.rests_on.iter();
        let at_risk = at_risk.filter(|&id| !intervals[id].stable).collect();
        let position = self.position;
        let named = mask.count_ones();
        if named > degree {
            self.breaches.push(Breach::TooManyNamed {
                position,
                named,
                degree,
            });
        }
        self.releases.push(Release {
            position,
            mask,
            at_risk,
        });
    }

    /// The claims that only the end of a list can settle.
    fn end_list(&mut self) {
        let releases = std::mem::take(&mut self.releases);
        self.ceiling = Ceiling::default();
        let Some(history) = self.history.take() else {
            return;
        };
        let position = self.position;
        for (c, controller) in history.controllers().iter().enumerate() {
            let orphans = history.orphans(c, &controller.chain);
            let breach = Breach::LiveOrphan {
                position,
                controller: c,
            };
            self.breaches.extend(orphans.iter().map(|_| breach));
        }
        for release in &releases {
            self.breaches.extend(release.owners_not_named(&history));
        }
    }
}

impl Release {
    fn owners_not_named(&self, history: &History) -> Vec<Breach> {
        let at_risk = self.at_risk.iter().map(|&id| &history.intervals()[id]);
        at_risk
            .filter(|interval| interval.lost_in.is_some())
            .filter(|interval| self.mask >> interval.owner & 1 == 0)
            .map(|interval| Breach::OwnerNotNamed {
                position: self.position,
                owner: interval.owner,
            })
            .collect()
    }
}

fn live_of(history: &History, controller: u32) -> Result<Vec<IntervalId>, Unreadable> {
    let controller = history.controllers().get(controller as usize);
    let chain = controller.map(|controller| controller.chain.clone());
    chain.ok_or(Unreadable)
}
