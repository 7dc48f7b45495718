//! How messages are delivered, by their numbers or by the dispatcher.

use super::{ensure, fault, Answer, House, Outcome};
use crate::refusal;
use crate::table::{state, Message, LAST_NUMBER};
use crate::vector::{filtered, Row, Vector};

/// What would come of the delivery of a released message.
pub(in crate::machine) enum Prospect {
    /// It is dropped, condemned by the pair of this owner.
    Drops(usize),
    /// It waits.
    Waits,
    /// It is refused with 12.
    NoPlace,
    /// It begins an interval with this vector, but for the receiver's own pair.
    Begins(Vector),
}

impl Prospect {
    /// "Which would be delivered or dropped."
    fn is_taken(&self) -> bool {
        matches!(self, Prospect::Drops(_) | Prospect::Begins(_))
    }
}

/// What a delivery looks at of its receiver.
struct Receiver {
    c: usize,
    ends: Row,
    known: Row,
    /// Its newest vector, filtered for it.
    ours: Vector,
    has_place: bool,
}

/// The two steps.
impl House<'_> {
    /// "Deliver at its receiver c." Where it is dropped, "it is the lowest-numbered controller whose pair
    /// condemns the vector, with that pair's incarnation" that is named. Else it waits, or "a new interval
    /// begins with cause m and flag 0; .. c's own pair is the new interval. State: delivered." No message for
    /// the desk is ever released, so that its delivery is refused.
    pub(super) fn deliver(&mut self, message: u32) -> Outcome {
        let record = self.message(message)?;
        ensure(record.state == state::RELEASED, refusal::STATE)?;
        let c = record.receiver as usize;
        match self.prospect(&self.receiver_of(c), message, &record) {
            Prospect::Drops(owner) => Ok(self.drop_condemned(message, &record, owner)),
            Prospect::Waits => Ok(Answer::Waits { message }),
            Prospect::NoPlace => Err(refusal::PLACES_USED_UP),
            Prospect::Begins(vector) => {
                let interval = self.begin_next(c, message, vector);
                self.keep_to_the_gap(c);
                self.table.set_state(message, state::DELIVERED);
                Ok(Answer::Delivered {
                    message,
                    incarnation: interval.incarnation,
                    number: interval.number,
                })
            }
        }
    }

    /// "Each call .. performs that delivery. If no controller has one, it says idle and changes no word." And
    /// "it keeps the controller last served", also where the message is dropped.
    pub(super) fn dispatch(&mut self) -> Outcome {
        let Some((c, message)) = self.next_served() else {
            return Ok(Answer::Idle);
        };
        let answer = self.deliver(message)?;
        self.table.set_served(c);
        Ok(answer)
    }
}

/// What they are made of.
impl House<'_> {
    fn receiver_of(&self, c: usize) -> Receiver {
        let known = self.table.known(c);
        Receiver {
            c,
            ends: self.table.ends(c),
            known,
            ours: filtered(&self.table.newest(c).vector, &known),
            has_place: self.table.controller(c).live < LAST_NUMBER,
        }
    }

    /// "Condemned to c: dropped. Else filter both c's newest vector and the message's for c; if an owner other
    /// than c has non-empty pairs of different incarnations in the two, it waits"; and "12 delivery with 64
    /// live, unless it drops or waits".
    fn prospect(&self, receiver: &Receiver, message: u32, record: &Message) -> Prospect {
        if let Some(owner) = self.condemned_by(&record.vector, &receiver.ends) {
            return Prospect::Drops(owner);
        }
        let theirs = filtered(&record.vector, &receiver.known);
        match self.merged(message, receiver.c, &receiver.ours, &theirs) {
            None => Prospect::Waits,
            Some(_) if !receiver.has_place => Prospect::NoPlace,
            Some(vector) => Prospect::Begins(vector),
        }
    }

    fn drop_condemned(&mut self, message: u32, record: &Message, owner: usize) -> Answer {
        let otherwise = fault::blamed(self.fault, self.table.words(), record);
        let (owner, incarnation) = otherwise.unwrap_or((owner, record.vector[owner].incarnation));
        self.table.set_state(message, state::DROPPED);
        Answer::Dropped {
            message,
            crashed: owner as u32,
            incarnation,
        }
    }

    /// "Each call goes round from the controller that is word 12 plus 1, less n as often as needed, and takes
    /// the first that has a released message for it which would be delivered or dropped."
    fn next_served(&self) -> Option<(u32, u32)> {
        let prospect = |message| {
            let record = self.table.message(message);
            self.prospect(
                &self.receiver_of(record.receiver as usize),
                message,
                &record,
            )
        };
        let otherwise = fault::next_served(self.fault, self.table.words(), prospect);
        otherwise.unwrap_or_else(|| {
            let (n, served) = (self.table.n(), self.table.served());
            let mut round = (1..=n).map(|turn| (served + turn) % n);
            round.find_map(|c| Some((c, self.lowest_taken(c)?)))
        })
    }

    /// "Of these it takes the lowest number."
    fn lowest_taken(&self, c: u32) -> Option<u32> {
        let mut released = self.table.released_for(c).peekable();
        released.peek()?;
        let receiver = self.receiver_of(c as usize);
        released.find(|&message| {
            let record = self.table.message(message);
            self.prospect(&receiver, message, &record).is_taken()
        })
    }
}
