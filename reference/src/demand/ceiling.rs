//! The ceiling on replay, read off the steps since an opening alone.

use crate::history::Misreading;
use crate::machine::{Answer, Command};

/// "In a house where the first step after opening set Q to at least 1 and it was never 0 again, replayed
/// is at most the largest Q set so far, less 1."
#[derive(Clone, Copy, Debug, Default, PartialEq, Eq)]
pub(super) enum Ceiling {
    /// No step has come since the opening.
    Opened,
    /// The first step set the gap, and nothing has turned it off; this is the largest so far.
    Largest(u32),
    /// Nothing is claimed: before the first opening, where the first step was another, and once the gap
    /// was 0.
    #[default]
    Unclaimed,
}

impl Ceiling {
    /// Goes on by a step since the opening; refused ones are steps, too.
    pub(super) fn feed(&mut self, misreading: Misreading, command: Command, answer: Answer) {
        let gap = match (command, answer) {
            (Command::SetGap { gap }, Answer::Done) => Some(gap),
            _ => None,
        };
        *self = match (*self, gap) {
            (_, Some(0)) | (Ceiling::Opened, None) => Ceiling::Unclaimed,
            (Ceiling::Opened, Some(gap)) => Ceiling::Largest(gap),
            (Ceiling::Largest(_), Some(gap)) if misreading == Misreading::CeilingOfTheNewestGap => {
                Ceiling::Largest(gap)
            }
            (Ceiling::Largest(largest), Some(gap)) => Ceiling::Largest(largest.max(gap)),
            (unchanged, _) => unchanged,
        };
    }

    /// The most that may be replayed now, if anything is claimed.
    pub(super) fn most(self) -> Option<u32> {
        match self {
            Ceiling::Largest(gap) => Some(gap - 1),
            Ceiling::Opened | Ceiling::Unclaimed => None,
        }
    }
}
