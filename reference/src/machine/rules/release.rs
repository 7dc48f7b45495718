//! How messages are let out, one by one or as a set.

use super::{ensure, fault, Answer, Fault, House, Outcome};
use crate::ledger::{Entry, ENTRIES};
use crate::refusal::{self, Refusal};
use crate::table::{state, Message, DESK};
use crate::vector::{filtered, mask};
use std::collections::BTreeSet;
use std::ops::RangeInclusive;

/// "1 to 16 held messages of one sender released as a set."
pub(in crate::machine) const SET_SIZES: RangeInclusive<usize> = 1..=16;

/// Whether a list names no message twice.
pub(in crate::machine) fn are_distinct(messages: &[u32]) -> bool {
    messages.iter().collect::<BTreeSet<_>>().len() == messages.len()
}

/// A held message as its release looks at it: "filter the message's vector for its sender; the mask has 2 to
/// the power c for each non-empty pair".
pub(in crate::machine) struct Leaving {
    pub(in crate::machine) message: u32,
    /// The message with its filtered vector.
    pub(in crate::machine) record: Message,
    pub(in crate::machine) mask: u32,
}

impl Leaving {
    pub(in crate::machine) fn is_for_desk(&self) -> bool {
        self.record.receiver == DESK
    }
}

/// The two steps.
impl House<'_> {
    /// "If the number of ones in the mask is at most K of the sender, the filtered vector is stored and the
    /// state is released. Otherwise it stays held and no word changes."
    pub(super) fn release(&mut self, message: u32) -> Outcome {
        let record = self.message(message)?;
        ensure(record.state == state::HELD, refusal::STATE)?;
        let stored = self.fault == Fault::StoredPairsCounted;
        let leaving = self.leaving(message, record, stored);
        let (mask, readings) = (leaving.mask, u32::from(leaving.is_for_desk()));
        if self.fault == Fault::FullBeforeHeld {
            self.room_to_publish(readings)?;
        }
        let by_degree = self.fault == Fault::PublishedByTheDegree;
        if mask.count_ones() > self.most_named(&leaving.record, readings > 0 && !by_degree) {
            return Ok(Answer::Held { message, mask });
        }
        self.let_out(&leaving)?;
        Ok(Answer::Released { message, mask })
    }

    /// "The mask is the union of their masks. If its ones are at most K, all are released, each with its own
    /// filtered vector; otherwise all stay held and no word changes. .. If one of them is for the desk, the
    /// union must be 0; desk messages enter the ledger in the order given."
    pub(super) fn release_set(&mut self, messages: &[u32]) -> Outcome {
        let otherwise = fault::look_at_set(self.fault, self.table.words(), messages);
        otherwise.unwrap_or_else(|| self.look_at_set(messages))?;
        let stored = self.fault == Fault::StoredPairsJoined;
        let set = messages.iter().map(|&m| (m, self.table.message(m)));
        let set = set.map(|(message, record)| self.leaving(message, record, stored));
        let set: Vec<Leaving> = set.collect();
        let mask = fault::union(self.fault, &set).unwrap_or_else(|| union(&set));
        let readings = set.iter().filter(|leaving| leaving.is_for_desk()).count() as u32;
        if self.fault == Fault::SetFullBeforeHeld {
            self.room_to_publish(readings)?;
        }
        if !self.goes(&set, mask, readings > 0) {
            return Ok(Answer::SetHeld { mask });
        }
        self.room_to_publish(fault::readings_counted(self.fault, readings))?;
        set.iter().try_for_each(|leaving| self.let_out(leaving))?;
        Ok(Answer::SetReleased { mask })
    }
}

fn union(set: &[Leaving]) -> u32 {
    set.iter().fold(0, |union, leaving| union | leaving.mask)
}

/// What they are made of.
impl House<'_> {
    /// The refusals of a set but the host's and that of a full ledger: a message that isn't there, whatever
    /// the length of the list; "a list of another length, or a message named twice"; one that isn't held; and
    /// "when the messages have more than one sender".
    fn look_at_set(&self, messages: &[u32]) -> Result<(), Refusal> {
        let records = messages.iter().map(|&m| self.message(m));
        let records = records.collect::<Result<Vec<Message>, Refusal>>()?;
        let is_set = SET_SIZES.contains(&messages.len()) && are_distinct(messages);
        ensure(is_set, refusal::SAME_CONTROLLER)?;
        let all_held = records.iter().all(|record| record.state == state::HELD);
        ensure(all_held, refusal::STATE)?;
        let sender = records[0].sender;
        let one_sender = records.iter().all(|record| record.sender == sender);
        ensure(one_sender, refusal::SENDERS)
    }

    /// A message that is held. By a fault its stored pairs are counted, not the filtered ones.
    fn leaving(&self, message: u32, record: Message, stored: bool) -> Leaving {
        let vector = filtered(&record.vector, &self.table.known(record.sender as usize));
        Leaving {
            message,
            record: Message { vector, ..record },
            mask: mask(if stored { &record.vector } else { &vector }),
        }
    }

    /// Whether a set is let out that would name the controllers of this mask. All are of one sender, so that
    /// one degree decides.
    fn goes(&self, set: &[Leaving], mask: u32, with_readings: bool) -> bool {
        set.iter().all(|leaving| {
            let (mask, nobody) = match self.fault {
                Fault::EachMaskByItself => (leaving.mask, leaving.is_for_desk()),
                Fault::SetByTheDegree => (mask, false),
                _ => (mask, with_readings),
            };
            mask.count_ones() <= self.most_named(&leaving.record, nobody)
        })
    }

    /// How many controllers a release may name: "at most K of the sender". But "a message to the desk is
    /// released only with mask 0, at any K", and a set that has one, too.
    fn most_named(&self, record: &Message, nobody: bool) -> u32 {
        if nobody {
            0
        } else {
            self.table.controller(record.sender as usize).degree
        }
    }

    /// "18 when publishing would carry the count past 128." What publishes nothing needs no room.
    fn room_to_publish(&mut self, readings: u32) -> Result<(), Refusal> {
        if readings == 0 {
            return Ok(());
        }
        let count = self.ledger()?.count();
        ensure(count + readings <= ENTRIES, refusal::LEDGER_USED_UP)
    }

    /// Stores the filtered vector and the new state. One for the desk is published instead of released:
    /// "publishing appends one pair", if there is room for it.
    fn let_out(&mut self, leaving: &Leaving) -> Result<(), Refusal> {
        let Leaving {
            message, record, ..
        } = *leaving;
        let state = if leaving.is_for_desk() {
            self.room_to_publish(1)?;
            let payload = record.payload;
            self.ledger()?.append(Entry { message, payload });
            state::PUBLISHED
        } else {
            state::RELEASED
        };
        self.table
            .set_message(message, &Message { state, ..record });
        Ok(())
    }
}
