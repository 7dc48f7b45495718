//! What became of sets of messages, read off the table and the ledger before the step, in words.
//!
//! Only tests use it, to ask that their lists and lent tables come across every case. A machine that holds
//! each mask against the degree shows it where each message could go by itself and the set can't; one that
//! looks for something in another order, where both refusals apply; one that counts readings wrongly, where
//! the ledger has room for some of them.

use crate::ledger::{Ledger, ENTRIES};
use crate::machine::{Answer, Command};
use crate::refusal::{self, Refusal};
use crate::table::{state, Message, Table, DESK};
use crate::vector::{filtered, mask};
use std::collections::BTreeSet;

/// What lists of steps come across. The masks of one sender's messages are nested there, and the ledger has
/// a pair for every message.
pub const IN_LISTS: [&str; 24] = [
    "set of 1: held",
    "set of 1: released",
    "set of 16: held",
    "set of 16: released",
    "set of 17: refused 6",
    "set of none: refused 6",
    "set of several: held",
    "set of several: released",
    "set: held above the degree",
    "set: held for a reading, within the degree",
    "set: held for a reading, within the degree, and each could go by itself",
    "set: published in another order than sent",
    "set: refused 15",
    "set: refused 4, and 15 applies",
    "set: refused 4, and 6 applies",
    "set: refused 4, and 7 applies",
    "set: refused 6, and 15 applies",
    "set: refused 6, and 7 applies",
    "set: refused 7, and 15 applies",
    "set: released, some for the desk",
    "set: released, at the degree",
    "set: released, below the degree",
    "set: released, with other vectors",
    "set: twice the same, refused 6",
];

/// What single steps on lent tables come across beside these.
pub const ON_LENT_TOO: [&str; 6] = [
    "set: held above the degree, and each could go by itself",
    "set: held for a reading, within the degree, the ledger without room",
    "set: published up to the last pair",
    "set: refused 18, no room for any",
    "set: refused 18, room for some",
    "set: released, at the degree by the union alone",
];

/// What a step and its answer show, with what was lent for it.
pub fn cases(table: &[u32], ledger: &[u32], command: Command, answer: Answer) -> Vec<String> {
    let (Command::ReleaseSet { messages }, Some(table)) = (command, Table::new(table)) else {
        return Vec::new();
    };
    let set = Set {
        table,
        count: Ledger::new(ledger).map_or(0, |ledger| ledger.count()),
        messages: &messages,
    };
    let cases = match answer {
        Answer::SetReleased { mask } => set.released(mask),
        Answer::SetHeld { mask } => set.held(mask),
        Answer::Refused { number } => set.refused(number),
        _ => Vec::new(),
    };
    cases.into_iter().map(|case| format!("set{case}")).collect()
}

/// A set on a table that is in form, unless it is refused.
struct Set<'a> {
    table: Table<&'a [u32]>,
    /// How many pairs the ledger has.
    count: u32,
    messages: &'a [u32],
}

impl Set<'_> {
    /// Those of its messages that are there.
    fn records(&self) -> impl Iterator<Item = Message> + '_ {
        let sent = 1..=self.table.sent();
        let there = self.messages.iter().filter(move |m| sent.contains(m));
        there.map(|&message| self.table.message(message))
    }

    fn readings(&self) -> u32 {
        let for_desk = self.records().filter(|record| record.receiver == DESK);
        for_desk.count() as u32
    }

    fn degree(&self) -> u32 {
        let sender = self.records().next().map(|record| record.sender);
        sender.map_or(0, |sender| self.table.controller(sender as usize).degree)
    }

    /// How many each of its messages names by itself, and whether it could go so.
    fn alone(&self) -> impl Iterator<Item = (u32, bool)> + '_ {
        self.records().map(|record| {
            let known = self.table.known(record.sender as usize);
            let named = mask(&filtered(&record.vector, &known)).count_ones();
            let most = if record.receiver == DESK {
                0
            } else {
                self.degree()
            };
            (named, named <= most)
        })
    }

    /// Whether no message is named twice.
    fn is_distinct(&self) -> bool {
        let named: BTreeSet<&u32> = self.messages.iter().collect();
        named.len() == self.messages.len()
    }

    /// Its length, in words that tell the edges apart.
    fn length(&self, end: &str) -> String {
        match self.messages.len() {
            0 => format!(" of none: {end}"),
            length @ (1 | 16 | 17) => format!(" of {length}: {end}"),
            _ => format!(" of several: {end}"),
        }
    }

    fn released(&self, mask: u32) -> Vec<String> {
        let (named, degree) = (mask.count_ones(), self.degree());
        let mut cases = vec![self.length("released")];
        let most_alone = self.alone().map(|(named, _)| named).max();
        cases.push(match named {
            _ if named < degree => ": released, below the degree".to_owned(),
            _ if most_alone < Some(named) => {
                ": released, at the degree by the union alone".to_owned()
            }
            _ => ": released, at the degree".to_owned(),
        });
        let vectors: Vec<_> = self.records().map(|record| record.vector).collect();
        if mask != 0 && vectors.iter().any(|vector| *vector != vectors[0]) {
            cases.push(": released, with other vectors".to_owned());
        }
        let readings = self.readings();
        if readings > 0 && (readings as usize) < self.messages.len() {
            cases.push(": released, some for the desk".to_owned());
        }
        if readings > 1 && !self.messages.is_sorted() {
            cases.push(": published in another order than sent".to_owned());
        }
        if readings > 1 && self.count + readings == ENTRIES {
            cases.push(": published up to the last pair".to_owned());
        }
        cases
    }

    fn held(&self, mask: u32) -> Vec<String> {
        let readings = self.readings();
        let above = mask.count_ones() > self.degree();
        let why = if above {
            "above the degree"
        } else {
            "for a reading, within the degree"
        };
        let each_alone = self.alone().all(|(_, goes)| goes);
        let each = if each_alone {
            ", and each could go by itself"
        } else {
            ""
        };
        let mut cases = vec![self.length("held"), format!(": held {why}{each}")];
        if !above && self.count + readings > ENTRIES {
            cases.push(format!(": held {why}, the ledger without room"));
        }
        cases
    }

    fn refused(&self, number: Refusal) -> Vec<String> {
        let case = match (number, self.messages.len()) {
            (refusal::SAME_CONTROLLER, 1..=16) => Some(": twice the same, refused 6".to_owned()),
            (refusal::SAME_CONTROLLER, 0) => Some(self.length("refused 6")),
            (refusal::SAME_CONTROLLER, 17) if self.is_distinct() => Some(self.length("refused 6")),
            (refusal::SENDERS, _) => Some(": refused 15".to_owned()),
            (refusal::LEDGER_USED_UP, _) if self.count == ENTRIES => {
                Some(": refused 18, no room for any".to_owned())
            }
            (refusal::LEDGER_USED_UP, _) => Some(": refused 18, room for some".to_owned()),
            _ => None,
        };
        let others = self.applying_after(number).into_iter();
        let others = others.map(|other| format!(": refused {number}, and {other} applies"));
        case.into_iter().chain(others).collect()
    }

    /// The others that apply, where a set is refused for its own sake: the table is in form then.
    fn applying_after(&self, number: Refusal) -> Vec<Refusal> {
        if ![refusal::MESSAGE, refusal::SAME_CONTROLLER, refusal::STATE].contains(&number) {
            return Vec::new();
        }
        let applying = self.applying().into_iter();
        applying
            .skip_while(|&first| first != number)
            .skip(1)
            .collect()
    }

    /// The refusals of a set that apply, in their order.
    fn applying(&self) -> Vec<Refusal> {
        let length = self.messages.len();
        let is_set = (1..=16).contains(&length) && self.is_distinct();
        let records: Vec<Message> = self.records().collect();
        let all_held = records.iter().all(|record| record.state == state::HELD);
        let senders: BTreeSet<u32> = records.iter().map(|record| record.sender).collect();
        let applying = [
            (refusal::MESSAGE, records.len() < length),
            (refusal::SAME_CONTROLLER, !is_set),
            (refusal::STATE, !all_held),
            (refusal::SENDERS, senders.len() > 1),
        ];
        let applying = applying.into_iter().filter(|(_, applies)| *applies);
        applying.map(|(number, _)| number).collect()
    }
}
