//! The thirteen answers, and how they are read from what the C interface gives back.

use crate::raw::{returned, VALUE_WORDS};
use crate::Refusal;

/// The answer to a step that is not refused. [`SetReleased`](Answer::SetReleased) and [`SetHeld`](Answer::SetHeld) are
/// those to a set, [`Idle`](Answer::Idle) is the dispatcher's alone, and the others are to all else.
#[derive(Clone, Copy, Debug, PartialEq, Eq, Hash)]
pub enum Answer {
    /// To an opening, a degree set, a log, a checkpoint and a telling; a gap set has no other.
    Done,
    /// The message is held.
    Sent {
        /// The number given to the message.
        message: u32,
    },
    /// The message is let out.
    Released {
        /// Which message.
        message: u32,
        /// Who could still revoke it: at most as many as its sender's degree, and nobody if it went to
        /// the desk.
        mask: Mask,
    },
    /// The message is kept back, and no word has changed.
    Held {
        /// Which message.
        message: u32,
        /// Who could revoke it: more than its sender's degree, or anybody if it is for the desk.
        mask: Mask,
    },
    /// The message has begun an interval at its receiver.
    Delivered {
        /// Which message.
        message: u32,
        /// The incarnation of the new interval.
        incarnation: u32,
        /// The number of the new interval.
        number: u32,
    },
    /// The message rests on what was lost, and is never delivered.
    Dropped {
        /// Which message.
        message: u32,
        /// Who lost it in a crash that the receiver has heard of: the lowest of them, where there are several.
        crashed: u32,
        /// The incarnation which that crash ended.
        incarnation: u32,
    },
    /// The message can't be delivered yet: its receiver has more to hear or to be told first.
    Waits {
        /// Which message.
        message: u32,
    },
    /// The controller goes on in its next incarnation.
    Crashed {
        /// Who crashed.
        controller: u32,
        /// The incarnation that has ended.
        incarnation: u32,
        /// The highest interval number that is kept.
        kept: u32,
        /// How many intervals are lost.
        lost: u32,
        /// How many of those kept are replayed, from the latest checkpoint on.
        replayed: u32,
    },
    /// The hearer had nothing to undo.
    Heard {
        /// Who heard of the crash.
        hearer: u32,
    },
    /// The hearer has rolled back, and goes on in its next incarnation. What it keeps counts as stable.
    Rolled {
        /// Who heard of the crash.
        hearer: u32,
        /// The highest interval number that is kept.
        kept: u32,
        /// How many intervals are undone.
        undone: u32,
        /// How many of those kept are replayed, from the latest checkpoint on.
        replayed: u32,
        /// Whose crash it was, as the step named it.
        crashed: u32,
        /// The incarnation which that crash ended.
        incarnation: u32,
    },
    /// All messages of the set are let out.
    SetReleased {
        /// Who could still revoke one of them: at most as many as their sender's degree, and nobody if one
        /// went to the desk.
        mask: Mask,
    },
    /// All messages of the set are kept back, and no word has changed.
    SetHeld {
        /// Who could revoke one of them: more than their sender's degree, or anybody if one is for the desk.
        mask: Mask,
    },
    /// The dispatcher has nothing to deliver, and no word has changed: each released message waits, or its receiver
    /// has no place left.
    Idle,
}

/// The controllers that a release names.
#[derive(Clone, Copy, Debug, Default, PartialEq, Eq, Hash)]
pub struct Mask(u32);

impl Mask {
    /// The mask as a number: 2 to the power c for each controller c that it names.
    pub fn bits(self) -> u32 {
        self.0
    }

    /// The controllers that it names, rising.
    pub fn controllers(self) -> impl Iterator<Item = u32> {
        (0..u32::BITS).filter(move |controller| self.0 >> controller & 1 == 1)
    }
}

/// What came of a step, by the number that its call returned and the values that it wrote. None where
/// that is no answer: another number, or values that aren't zero after its own. Inlined, since an answer has
/// seven words and would be copied twice on its way into a list, which takes longer than to read it.
#[inline(always)]
pub(crate) fn read(number: u32, values: [u32; VALUE_WORDS]) -> Option<Result<Answer, Refusal>> {
    let answer = match (number, values) {
        (returned::DONE, [0, 0, 0, 0, 0, 0]) => Answer::Done,
        (returned::SENT, [message, 0, 0, 0, 0, 0]) => Answer::Sent { message },
        (returned::RELEASED, [message, mask, 0, 0, 0, 0]) => Answer::Released {
            message,
            mask: Mask(mask),
        },
        (returned::HELD, [message, mask, 0, 0, 0, 0]) => Answer::Held {
            message,
            mask: Mask(mask),
        },
        (returned::DELIVERED, [message, incarnation, number, 0, 0, 0]) => Answer::Delivered {
            message,
            incarnation,
            number,
        },
        (returned::DROPPED, [message, crashed, incarnation, 0, 0, 0]) => Answer::Dropped {
            message,
            crashed,
            incarnation,
        },
        (returned::WAITS, [message, 0, 0, 0, 0, 0]) => Answer::Waits { message },
        (returned::CRASHED, [controller, incarnation, kept, lost, replayed, 0]) => {
            Answer::Crashed {
                controller,
                incarnation,
                kept,
                lost,
                replayed,
            }
        }
        (returned::HEARD, [hearer, 0, 0, 0, 0, 0]) => Answer::Heard { hearer },
        (returned::ROLLED, [hearer, kept, undone, replayed, crashed, incarnation]) => {
            Answer::Rolled {
                hearer,
                kept,
                undone,
                replayed,
                crashed,
                incarnation,
            }
        }
        (returned::SET_RELEASED, [mask, 0, 0, 0, 0, 0]) => Answer::SetReleased { mask: Mask(mask) },
        (returned::SET_HELD, [mask, 0, 0, 0, 0, 0]) => Answer::SetHeld { mask: Mask(mask) },
        (returned::IDLE, [0, 0, 0, 0, 0, 0]) => Answer::Idle,
        (returned::REFUSED, [number, 0, 0, 0, 0, 0]) => {
            return Refusal::from_number(number).map(Err)
        }
        _ => return None,
    };
    Some(Ok(answer))
}

/// The same by the words of an answer to a list: the number, and the values.
#[inline(always)]
pub(crate) fn listed(words: &[u32]) -> Option<Result<Answer, Refusal>> {
    let (&number, values) = words.split_first()?;
    read(number, values.try_into().ok()?)
}
