//! The table that a machine leaves whose fault concerns the gap.

use super::Fault;
use crate::machine::{Answer, Command};
use crate::table::{Controller, Place, Table};

/// Makes of the table that the sound step left the one that the faulty machine would leave.
pub(super) fn bend(
    fault: Fault,
    before: &[u32],
    after: &mut [u32],
    command: Command,
    answer: Answer,
) {
    let (Some(before), Some(mut after)) = (Table::new(before), Table::new(after)) else {
        return;
    };
    let not_cleared = fault == Fault::GapNotCleared && answer == Answer::Done;
    if not_cleared && matches!(command, Command::Open { .. }) {
        after.set_gap(before.gap());
    }
    let controller = match answer {
        Answer::Delivered { message, .. } => after.message(message).receiver,
        Answer::Crashed { controller, .. } | Answer::Rolled { controller, .. } => controller,
        _ => return,
    };
    let mut begun = Begun {
        before,
        after,
        c: controller as usize,
        answer,
    };
    begun.decide(fault);
    begun.log(fault);
}

/// An interval that has just begun, with the tables before and after its step.
struct Begun<'a> {
    before: Table<&'a [u32]>,
    after: Table<&'a mut [u32]>,
    c: usize,
    answer: Answer,
}

impl Begun<'_> {
    fn newest(&self) -> Place {
        self.after.newest(self.c)
    }

    fn by_delivery(&self) -> bool {
        matches!(self.answer, Answer::Delivered { .. })
    }

    /// How far the new interval stands above the latest flagged one among the first of so many places of
    /// a chain. One that stands below it is not above it at all.
    fn above(&self, chain: &Table<&[u32]>, places: u32) -> u32 {
        let flagged = (0..places)
            .map(|place| chain.place(self.c, place as usize))
            .filter(|record| record.flag == 1);
        let latest = flagged.map(|record| record.number).max();
        self.newest().number.saturating_sub(latest.unwrap_or(0))
    }

    /// Whether the faulty machine asks a checkpoint of it, where it decides by itself.
    fn forced(&self, fault: Fault) -> Option<bool> {
        let after = Table::new(self.after.words())?;
        let (gap, kept) = (after.gap(), self.newest().number - 1);
        let was = self.before.controller(self.c);
        let at_least = |above| gap != 0 && above >= gap;
        match (fault, self.answer) {
            (Fault::CrashStartNotCounted, Answer::Crashed { .. })
            | (Fault::RollbackStartNotCounted, Answer::Rolled { .. }) => Some(false),
            (Fault::MoreThanTheGap, _) => Some(gap != 0 && self.above(&after, kept) > gap),
            (Fault::ForcedWhenOff, _) => Some(self.above(&after, kept) >= gap),
            (Fault::StableFlagsOnly, Answer::Delivered { .. }) => {
                Some(at_least(self.above(&self.before, was.stable)))
            }
            (Fault::RemovedFlagsCounted, Answer::Crashed { .. } | Answer::Rolled { .. }) => {
                Some(at_least(self.above(&self.before, was.live)))
            }
            _ => None,
        }
    }

    /// Takes the checkpoint back, or takes it.
    fn decide(&mut self, fault: Fault) {
        let Some(forced) = self.forced(fault) else {
            return;
        };
        let newest = Place {
            flag: u32::from(forced),
            ..self.newest()
        };
        let place = newest.number as usize - 1;
        self.after.set_place(self.c, place, &newest);
        if self.by_delivery() && forced {
            self.set_logged(newest.number, newest.number);
        } else if self.by_delivery() {
            let (stable, known) = self.logged_before();
            self.set_logged(stable, known);
        }
    }

    /// Logs less for a delivery's checkpoint than all. A start has nothing to log.
    fn log(&mut self, fault: Fault) {
        if !self.by_delivery() || self.newest().flag == 0 {
            return;
        }
        let (stable, known) = self.logged_before();
        let number = self.newest().number;
        match fault {
            Fault::FlaggedWithoutLogging => self.set_logged(stable, known),
            Fault::ForcedNotKnown => self.set_logged(number, known),
            Fault::LoggedOnlyBefore if stable < number - 1 => {
                self.set_logged(number - 1, number - 1);
            }
            Fault::LoggedOnlyBefore => self.set_logged(stable, known),
            _ => {}
        }
    }

    /// The stable count and the own known word before a delivery, which leaves the incarnation.
    fn logged_before(&self) -> (u32, u32) {
        let Controller {
            incarnation,
            stable,
            ..
        } = self.before.controller(self.c);
        let known = self.before.known(self.c).word(self.c, incarnation);
        (stable, known)
    }

    fn set_logged(&mut self, stable: u32, known: u32) {
        let counts = Controller {
            stable,
            ..self.after.controller(self.c)
        };
        self.after.set_controller(self.c, counts);
        self.after
            .set_known(self.c, self.c, counts.incarnation, known);
    }
}
