//! What the theorems claim of an answer, by the history and by who was asked. Their names stand in
//! `paper/proofs/Theorems.antt`, their words in `Progress`, `Asked` and `Citable` of `history/specs`.

use super::{refused, House, Told};
use goulvizad::SET_MOST;
use reference::history::{IntervalId, Message};
use reference::ledger::{Entry, Ledger};
use reference::machine::{Answer, Command};
use reference::refusal::{self, Refusal};
use reference::table::{DESK, LAST_NUMBER};
use std::collections::BTreeSet;

/// How a message stands with its holder: with its sender while it is held, with its receiver once it is let out. Or how
/// the messages of a set do, all together.
#[derive(Clone, Copy, Debug)]
pub struct Standing {
    /// Those whom its latest release named, or everyone if there was none.
    pub named: u32,
    /// Those of them who were not asked for the holder since the sending interval began.
    left: u32,
    /// Whether the holder has heard every crash.
    heard: bool,
    /// Whether no lost work is in the way that the holder may not have heard of.
    sure: bool,
    /// The owners of what the sending interval rests on and isn't stable.
    at_risk: u32,
    /// Those who may still stand in its way: not who was asked, nor who has nothing under it that the holder lacks word
    /// of. Less is known where lost work may not have been heard of.
    in_the_way: u32,
    /// How many its release may name.
    pub most: u32,
}

impl Standing {
    /// What was done for it, in words.
    pub fn done(&self) -> &'static str {
        match self.left.count_ones() {
            _ if !self.heard => "not all heard",
            0 => "all asked",
            left if left <= self.most => "all but K asked",
            _ => "more left",
        }
    }

    /// Nothing and nobody stands in its way.
    fn is_cleared(&self) -> bool {
        self.sure && self.in_the_way == 0
    }

    /// Whether its release may show this mask: it names whoever could revoke the message (theorem_A_3), and nobody else
    /// but who stands in its way (theorem_A_2_masks, _cause).
    fn may_name(&self, mask: u32) -> bool {
        self.at_risk & !mask == 0 && mask & !self.in_the_way == 0
    }

    /// Two messages of a set: its union names whom each of them names, and it may name no more than each may.
    fn joined(self, other: Standing) -> Standing {
        Standing {
            named: self.named | other.named,
            left: self.left | other.left,
            heard: self.heard && other.heard,
            sure: self.sure && other.sure,
            at_risk: self.at_risk | other.at_risk,
            in_the_way: self.in_the_way | other.in_the_way,
            most: self.most.min(other.most),
        }
    }
}

/// Releases and deliveries.
impl House {
    /// Whether the theorems allow this answer to a step, by what was said before it.
    pub(super) fn allows(&self, command: Command, answer: Answer) -> bool {
        match command {
            Command::Release { message } => self.allows_release(message, answer),
            Command::Deliver { message } => self.allows_delivery(message, answer),
            Command::ReleaseSet { messages } => self.allows_set(&messages, answer),
            Command::Dispatch => self.allows_dispatch(answer),
            _ => true,
        }
    }

    /// A message is let out just where it names no more than it may (theorem_A_2_mask, _all_but_K, _useful); and its
    /// release is refused just where there is nothing to hold (theorem_A_2).
    fn allows_release(&self, message: u32, answer: Answer) -> bool {
        match (self.held(message), answer) {
            (Ok((standing, _)), Answer::Released { mask, .. }) => {
                standing.may_name(mask) && mask.count_ones() <= standing.most
            }
            (Ok((standing, _)), Answer::Held { mask, .. }) => {
                standing.may_name(mask) && mask.count_ones() > standing.most
            }
            (Ok(_), _) => false,
            (Err(number), _) => answer == refused(number),
        }
    }

    /// The same of a set by its union, all its messages together.
    fn allows_set(&self, messages: &[u32], answer: Answer) -> bool {
        match (self.held_set(messages), answer) {
            (Ok(set), Answer::SetReleased { mask }) => {
                set.may_name(mask) && mask.count_ones() <= set.most
            }
            (Ok(set), Answer::SetHeld { mask }) => {
                set.may_name(mask) && mask.count_ones() > set.most
            }
            (Ok(_), _) => false,
            (Err(number), _) => answer == refused(number),
        }
    }

    /// A delivery drops exactly what rests on work lost in a crash that the receiver has heard (theorem_A_1_messages).
    /// What is left waits only for those who were not asked, or for crashes to be heard (theorem_A_2_delivery,
    /// _useful_delivery).
    fn allows_delivery(&self, message: u32, answer: Answer) -> bool {
        let (standing, sent) = match self.released(message) {
            Ok(released) => released,
            Err(number) => return answer == refused(number),
        };
        let (receiver, sending) = (sent.receiver as usize, sent.sending_interval);
        let condemned = !self.history.orphans(receiver, &[sending]).is_empty();
        match answer {
            Answer::Refused { number } if number == refusal::STATE => self.told[&message].taken,
            Answer::Dropped { .. } => condemned,
            Answer::Waits { .. } => !condemned && !standing.is_cleared(),
            _ => !condemned && answer == self.beginning(message, receiver),
        }
    }

    /// A delivery that the dispatcher chooses is one like any other. It is idle only where none of the messages that
    /// were let out and not yet taken must be dropped or can begin an interval.
    fn allows_dispatch(&self, answer: Answer) -> bool {
        match answer {
            Answer::Delivered { message, .. } | Answer::Dropped { message, .. } => {
                self.allows_delivery(message, answer)
            }
            Answer::Idle => self.told.keys().all(|&message| self.may_be_left(message)),
            _ => false,
        }
    }

    fn may_be_left(&self, message: u32) -> bool {
        let Ok((standing, sent)) = self.released(message) else {
            return true;
        };
        let (receiver, sending) = (sent.receiver as usize, sent.sending_interval);
        let condemned = !self.history.orphans(receiver, &[sending]).is_empty();
        let full = self.beginning(message, receiver) == refused(refusal::PLACES_USED_UP);
        self.told[&message].taken || !condemned && (full || !standing.is_cleared())
    }

    /// The answer to a delivery that begins the receiver's next interval, if it has a place for one.
    fn beginning(&self, message: u32, receiver: usize) -> Answer {
        let receiver = &self.history.controllers()[receiver];
        let newest = receiver.chain.last();
        let newest = newest.map_or(0, |&id| self.history.intervals()[id].number);
        if newest == LAST_NUMBER {
            return refused(refusal::PLACES_USED_UP);
        }
        Answer::Delivered {
            message,
            incarnation: receiver.incarnation,
            number: newest + 1,
        }
    }

    /// How a message stands with its sender, if it is held, and else why its release is refused.
    pub(super) fn held(&self, message: u32) -> Result<(Standing, &Message), Refusal> {
        let sent = self.sent(message)?;
        let held = !self.is_let_out(message) && self.is_live(sent.sending_interval);
        let standing = held.then(|| self.standing(message, sent, self.sender(sent)));
        Ok((standing.ok_or(refusal::STATE)?, sent))
    }

    /// How a message stands with its receiver, if it was let out to one, and else why its delivery is refused.
    pub(super) fn released(&self, message: u32) -> Result<(Standing, &Message), Refusal> {
        let sent = self.sent(message)?;
        let released = self.is_let_out(message) && sent.receiver != DESK;
        let standing = released.then(|| self.standing(message, sent, sent.receiver));
        Ok((standing.ok_or(refusal::STATE)?, sent))
    }

    /// How the messages of a set stand with their sender, if they are one, and else why it is refused.
    pub(super) fn held_set(&self, messages: &[u32]) -> Result<Standing, Refusal> {
        let sent = messages.iter().map(|&m| self.sent(m));
        let sent = sent.collect::<Result<Vec<&Message>, Refusal>>()?;
        let distinct: BTreeSet<&u32> = messages.iter().collect();
        if distinct.len() < messages.len() || messages.len() > SET_MOST {
            return Err(refusal::SAME_CONTROLLER);
        }
        let standings = messages.iter().map(|&m| Ok(self.held(m)?.0));
        let standings = standings.collect::<Result<Vec<Standing>, Refusal>>()?;
        let senders: BTreeSet<u32> = sent.into_iter().map(|sent| self.sender(sent)).collect();
        if senders.len() > 1 {
            return Err(refusal::SENDERS);
        }
        let together = standings.into_iter().reduce(Standing::joined);
        together.ok_or(refusal::SAME_CONTROLLER)
    }

    fn sent(&self, message: u32) -> Result<&Message, Refusal> {
        let sent = self.history.messages().get(&message);
        sent.ok_or(refusal::MESSAGE)
    }

    fn standing(&self, message: u32, sent: &Message, holder: u32) -> Standing {
        let since = sent.sending_interval;
        let latest = self.told.get(&message).and_then(Told::latest_mask);
        let named = latest.unwrap_or(self.everyone());
        let intervals = self.history.intervals();
        let rests_on = || intervals[since].rests_on.iter();
        let owners = |mask, id: IntervalId| mask | 1 << intervals[id].owner;
        let unlearned = rests_on().filter(|&id| !self.asked.has_word(holder, id, &self.history));
        let at_risk = rests_on().filter(|&id| !intervals[id].stable);
        let at_risk = at_risk.fold(0, owners);
        let heard = self.unheard(holder).next().is_none();
        let sure = heard || rests_on().all(|id| intervals[id].lost_in.is_none());
        let left = self.asked.left(since, holder, named);
        let in_the_way = if sure {
            left & unlearned.fold(0, owners)
        } else {
            left | at_risk
        };
        Standing {
            named,
            left,
            heard,
            sure,
            at_risk,
            in_the_way: named & in_the_way,
            most: if sent.receiver == DESK {
                0
            } else {
                self.degree(holder)
            },
        }
    }
}

/// The ledger.
impl House {
    /// How many entries the ledger has, if each of them may be cited, and else the first that may not.
    pub fn cited(&self) -> Result<u32, Entry> {
        let ledger = Ledger::new(self.walk.ledger()).expect("a ledger of its length");
        let mut entries = (0..ledger.count()).map(|j| ledger.entry(j));
        let wrong = entries.find(|&entry| !self.may_be_cited(entry));
        wrong.map_or(Ok(ledger.count()), Err)
    }

    /// "It was sent in the list, to the desk and with that payload, and a release in the list let it out with nobody
    /// named; the interval that sent it is live at the end, and lost in no crash."
    fn may_be_cited(&self, entry: Entry) -> bool {
        let latest = self.told.get(&entry.message).and_then(Told::latest_mask);
        self.sent(entry.message).is_ok_and(|sent| {
            (sent.receiver, sent.payload) == (DESK, entry.payload)
                && self.is_let_out(entry.message)
                && latest == Some(0)
                && self.is_live(sent.sending_interval)
                && self.history.intervals()[sent.sending_interval]
                    .lost_in
                    .is_none()
        })
    }
}
