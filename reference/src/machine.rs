//! The recovery machine: one step function over one lent table and one lent ledger.

mod fault;
mod messages;
mod rules;

pub use fault::Fault;
pub use messages::Messages;

use crate::refusal::Refusal;

/// A step to be done, with its numbers in the order of the program's lines.
#[derive(Clone, Copy, Debug, PartialEq, Eq)]
pub enum Command {
    /// `O n k`: open a house of n controllers, all with degree k.
    Open {
        /// How many controllers.
        n: u32,
        /// Their degree.
        degree: u32,
    },
    /// `K c k`: set a degree.
    SetDegree {
        /// Whose degree.
        controller: u32,
        /// The degree K.
        degree: u32,
    },
    /// `S s r p`: send a payload.
    Send {
        /// From whom.
        sender: u32,
        /// To whom; 8 is the desk.
        receiver: u32,
        /// What.
        payload: u32,
    },
    /// `R m`: release a held message.
    Release {
        /// The message number, from 1.
        message: u32,
    },
    /// `D m`: deliver a released message.
    Deliver {
        /// The message number, from 1.
        message: u32,
    },
    /// `L c q`: log the q oldest live intervals that are not stable.
    Log {
        /// Whose intervals.
        controller: u32,
        /// How many.
        count: u32,
    },
    /// `C c`: checkpoint.
    Checkpoint {
        /// Who takes it.
        controller: u32,
    },
    /// `T a b`: tell, that is, send a logging progress notification.
    Tell {
        /// Who tells of its own stable intervals.
        owner: u32,
        /// Who is told.
        holder: u32,
    },
    /// `X c`: crash.
    Crash {
        /// Who crashes.
        controller: u32,
    },
    /// `H b a t`: hear of a crash, that is, receive its failure announcement.
    Hear {
        /// Who hears of it.
        hearer: u32,
        /// Who crashed.
        crashed: u32,
        /// The incarnation which that crash ended.
        incarnation: u32,
    },
    /// Set the house-wide gap Q, 0 to turn it off. The program has no line for it.
    SetGap {
        /// How many numbers above its latest checkpoint a controller's new interval is checkpointed.
        gap: u32,
    },
    /// Release a set of held messages of one sender, all of them or none. The program has no line for it.
    ReleaseSet {
        /// Their numbers, in the order in which those for the desk are published.
        messages: Messages,
    },
    /// Let the dispatcher choose a delivery, so that nobody is starved. The program has no line for it.
    Dispatch,
}

/// The answer to a step.
#[derive(Clone, Copy, Debug, PartialEq, Eq)]
pub enum Answer {
    /// `done`, to O, K, L, C, T and a gap set.
    Done,
    /// `sent m`.
    Sent {
        /// The number given to the message.
        message: u32,
    },
    /// `released m mask`.
    Released {
        /// The message let out.
        message: u32,
        /// The controllers that could still revoke it, 2 to the power c for each.
        mask: u32,
    },
    /// `held m mask`.
    Held {
        /// The message kept back.
        message: u32,
        /// The controllers that could revoke it: too many.
        mask: u32,
    },
    /// `delivered m t x`.
    Delivered {
        /// The message delivered.
        message: u32,
        /// The incarnation of the new interval.
        incarnation: u32,
        /// The number of the new interval.
        number: u32,
    },
    /// `dropped m a t`.
    Dropped {
        /// The message whose vector is condemned.
        message: u32,
        /// Who crashed, so that it is: the lowest such controller.
        crashed: u32,
        /// The incarnation which that crash ended.
        incarnation: u32,
    },
    /// `waits m`.
    Waits {
        /// The message that can't be delivered yet.
        message: u32,
    },
    /// `crashed c t k lost replayed`.
    Crashed {
        /// Who crashed.
        controller: u32,
        /// The ended incarnation.
        incarnation: u32,
        /// The highest number kept.
        kept: u32,
        /// How many intervals were lost.
        lost: u32,
        /// How many kept intervals are replayed from the latest checkpoint on.
        replayed: u32,
    },
    /// `heard b`.
    Heard {
        /// Who heard, and had nothing to undo.
        controller: u32,
    },
    /// `rolled b k undone replayed a t`.
    Rolled {
        /// Who heard, and rolled back.
        controller: u32,
        /// The highest number kept.
        kept: u32,
        /// How many intervals were undone.
        undone: u32,
        /// How many kept intervals are replayed from the latest checkpoint on.
        replayed: u32,
        /// Who crashed, as it has just heard.
        crashed: u32,
        /// The incarnation which that crash ended.
        incarnation: u32,
    },
    /// `refused number`.
    Refused {
        /// One of [`refusal`](crate::refusal).
        number: Refusal,
    },
    /// To a set: all its messages are let out.
    SetReleased {
        /// The controllers that could still revoke one of them.
        mask: u32,
    },
    /// To a set: all its messages are kept back.
    SetHeld {
        /// The controllers that could revoke one of them: too many.
        mask: u32,
    },
    /// To the dispatcher: no controller has a message that would be delivered or dropped.
    Idle,
}

/// Does one step on a lent table and a lent ledger of any length and content, or refuses it and
/// changes no word of either.
pub fn step(table: &mut [u32], ledger: &mut [u32], command: Command) -> Answer {
    step_with(Fault::None, table, ledger, command)
}

/// The step of a machine with a planted fault; [`Fault::None`] is the sound one.
pub fn step_with(fault: Fault, table: &mut [u32], ledger: &mut [u32], command: Command) -> Answer {
    fault::around(fault, table, ledger, command, |table, ledger| {
        rules::perform(fault, table, ledger, command)
            .unwrap_or_else(|number| Answer::Refused { number })
    })
}
