//! The ten steps that have a letter, and what the C interface is given for each.

use crate::raw::STEP_WORDS;

/// The receiver that is no controller: the desk, where readings leave the house. It is the same
/// however many controllers there are.
pub const DESK: u32 = 8;

/// A step to be done, with its numbers by name. Controllers count from 0, messages from 1.
#[derive(Clone, Copy, Debug, PartialEq, Eq, Hash)]
pub enum Step {
    /// Opens a house, whatever stood in the table and in the ledger, which is cleared.
    Open {
        /// How many controllers, 1 to 8.
        n: u32,
        /// The degree of each, 0 to `n`: how many controllers a release may name.
        degree: u32,
    },
    /// Sets the degree of a controller.
    SetDegree {
        /// Whose degree.
        controller: u32,
        /// The degree, 0 to the number of controllers.
        degree: u32,
    },
    /// Sends a payload. The message is held until it is released.
    Send {
        /// From whom.
        sender: u32,
        /// To whom: another controller, or the [`DESK`].
        receiver: u32,
        /// What: any word.
        payload: u32,
    },
    /// Releases a held message, if no more controllers could revoke it than its sender's degree. One to
    /// the [`DESK`] is released only if nobody could, whatever the degree. It is published then: it
    /// stands in the ledger and may be cited, since the interval that sent it is never lost or undone
    /// before the next opening.
    Release {
        /// Which message.
        message: u32,
    },
    /// Delivers a released message at its receiver, where it begins an interval. One to the [`DESK`] is
    /// never delivered.
    Deliver {
        /// Which message.
        message: u32,
    },
    /// Logs the oldest live intervals that are not stable yet.
    Log {
        /// Whose intervals.
        controller: u32,
        /// How many.
        count: u32,
    },
    /// Takes a checkpoint: all live intervals become stable, and a replay can begin here.
    Checkpoint {
        /// Who takes it.
        controller: u32,
    },
    /// Tells a controller which of another's intervals are stable.
    Tell {
        /// Whose intervals.
        owner: u32,
        /// Who is told.
        holder: u32,
    },
    /// Crashes a controller: its live intervals that are not stable are lost. The messages that began
    /// them are released again, and can be delivered once more; those that rest themselves on work lost
    /// in this crash, or in another that the controller has heard of, are dropped.
    Crash {
        /// Who crashes.
        controller: u32,
    },
    /// Lets a controller hear of a crash: it undoes what rests on lost intervals. What becomes of the
    /// messages is as at a crash.
    Hear {
        /// Who hears of it.
        hearer: u32,
        /// Who crashed.
        crashed: u32,
        /// The incarnation that this crash ended.
        incarnation: u32,
    },
}

impl Step {
    /// The step as the C interface takes it: its letter, and its numbers with zeros after them.
    #[inline]
    pub fn lettered(self) -> (u8, [u32; 4]) {
        match self {
            Step::Open { n, degree } => (b'O', [n, degree, 0, 0]),
            Step::SetDegree { controller, degree } => (b'K', [controller, degree, 0, 0]),
            Step::Send {
                sender,
                receiver,
                payload,
            } => (b'S', [sender, receiver, payload, 0]),
            Step::Release { message } => (b'R', [message, 0, 0, 0]),
            Step::Deliver { message } => (b'D', [message, 0, 0, 0]),
            Step::Log { controller, count } => (b'L', [controller, count, 0, 0]),
            Step::Checkpoint { controller } => (b'C', [controller, 0, 0, 0]),
            Step::Tell { owner, holder } => (b'T', [owner, holder, 0, 0]),
            Step::Crash { controller } => (b'X', [controller, 0, 0, 0]),
            Step::Hear {
                hearer,
                crashed,
                incarnation,
            } => (b'H', [hearer, crashed, incarnation, 0]),
        }
    }

    /// The words of the step in a list of the C interface.
    pub fn listed(self) -> [u32; STEP_WORDS] {
        let (letter, [a, b, c, d]) = self.lettered();
        [letter.into(), a, b, c, d]
    }
}
