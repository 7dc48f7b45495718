//! Machines whose fault concerns a set of messages: what they say where the rule asks, and what they leave.

use super::Fault;
use crate::ledger::{Entry, Ledger, ENTRIES};
use crate::machine::rules::{are_distinct, Leaving, SET_SIZES};
use crate::machine::Answer;
use crate::refusal::{self, Refusal};
use crate::table::{state, Message, Table, DESK};
use crate::vector::{filtered, mask};

/// What a faulty machine says of a set before it looks at the masks, where it looks for something else or in
/// another order. The table is in form.
pub(in crate::machine) fn look_at_set(
    fault: Fault,
    words: &[u32],
    messages: &[u32],
) -> Option<Result<(), Refusal>> {
    let lengths = match fault {
        Fault::NoneTaken => 0..=*SET_SIZES.end(),
        Fault::SeventeenTaken => *SET_SIZES.start()..=SET_SIZES.end() + 1,
        Fault::DoubledTaken
        | Fault::SendersTaken
        | Fault::LengthBeforeMessages
        | Fault::SendersBeforeStates => SET_SIZES,
        _ => return None,
    };
    let table = Table::new(words)?;
    let there = messages.iter().filter(|m| (1..=table.sent()).contains(m));
    let records: Vec<Message> = there.map(|&m| table.message(m)).collect();
    let distinct = fault == Fault::DoubledTaken || are_distinct(messages);
    let is_set = lengths.contains(&messages.len()) && distinct;
    let all_held = records.iter().all(|record| record.state == state::HELD);
    let mut pairs = records.windows(2);
    let one_sender = pairs.all(|pair| pair[0].sender == pair[1].sender);
    let mut tests = [
        (refusal::MESSAGE, records.len() == messages.len()),
        (refusal::SAME_CONTROLLER, is_set),
        (refusal::STATE, all_held),
        (refusal::SENDERS, one_sender || fault == Fault::SendersTaken),
    ];
    match fault {
        Fault::LengthBeforeMessages => tests.swap(0, 1),
        Fault::SendersBeforeStates => tests.swap(2, 3),
        _ => {}
    }
    let refused = tests.into_iter().find(|(_, holds)| !holds);
    Some(refused.map_or(Ok(()), |(number, _)| Err(number)))
}

/// What a faulty machine takes for the union, where it joins nothing.
pub(in crate::machine) fn union(fault: Fault, set: &[Leaving]) -> Option<u32> {
    if fault != Fault::LargestMaskForTheUnion {
        return None;
    }
    let masks = set.iter().map(|leaving| leaving.mask);
    masks.max_by_key(|mask| mask.count_ones())
}

/// How many readings a machine looks for room for. One that sees too late that there is none for the next
/// refuses the set when it has let out some of it.
pub(in crate::machine) fn readings_counted(fault: Fault, readings: u32) -> u32 {
    match fault {
        Fault::RoomForTheFirst => readings.min(1),
        _ => readings,
    }
}

/// Makes of the table and the ledger that the sound step left those that the faulty machine would leave.
pub(super) fn bend(
    fault: Fault,
    before: (&[u32], &[u32]),
    after: (&mut [u32], &mut [u32]),
    messages: &[u32],
    answer: Answer,
) {
    let (Some(table_before), Some(table)) = (Table::new(before.0), Table::new(after.0)) else {
        return;
    };
    let (Some(ledger_before), Some(ledger)) = (Ledger::new(before.1), Ledger::new(after.1)) else {
        return;
    };
    let mut left = Left { table, ledger };
    match (fault, answer) {
        (Fault::FirstLetOut, Answer::SetReleased { .. }) => {
            left.hold_again(&table_before, ledger_before.count(), messages);
        }
        (Fault::ThoseWithinLetOut, Answer::SetHeld { .. }) => {
            messages.iter().for_each(|&message| left.let_out(message));
        }
        (Fault::OneVectorForAll, Answer::SetReleased { .. }) => left.exchange_vectors(messages),
        (Fault::PublishedInTableOrder, Answer::SetReleased { .. }) => {
            left.sort_entries(ledger_before.count());
        }
        _ => {}
    }
}

/// What a step has left.
struct Left<'a> {
    table: Table<&'a mut [u32]>,
    ledger: Ledger<&'a mut [u32]>,
}

impl Left<'_> {
    /// Holds all but the first message again, and takes their entries out of the ledger.
    fn hold_again(&mut self, before: &Table<&[u32]>, count: u32, messages: &[u32]) {
        for &message in &messages[1..] {
            self.table.set_message(message, &before.message(message));
        }
        let first = before.message(messages[0]).receiver == DESK;
        let kept = count + u32::from(first);
        for entry in kept..self.ledger.count() {
            self.ledger.set_entry(entry, Entry::default());
        }
        self.ledger.set_count(kept);
    }

    /// Lets a held message out, if it could go by itself and a reading finds room.
    fn let_out(&mut self, message: u32) {
        let record = self.table.message(message);
        let sender = record.sender as usize;
        let vector = filtered(&record.vector, &self.table.known(sender));
        let (most, state) = if record.receiver == DESK {
            (0, state::PUBLISHED)
        } else {
            (self.table.controller(sender).degree, state::RELEASED)
        };
        let room = record.receiver != DESK || self.ledger.count() < ENTRIES;
        if mask(&vector).count_ones() > most || !room {
            return;
        }
        let let_out = Message {
            state,
            vector,
            ..record
        };
        self.table.set_message(message, &let_out);
        if record.receiver == DESK {
            let payload = record.payload;
            self.ledger.append(Entry { message, payload });
        }
    }

    /// Gives all messages the vector of the first.
    fn exchange_vectors(&mut self, messages: &[u32]) {
        let vector = self.table.message(messages[0]).vector;
        for &message in messages {
            let record = Message {
                vector,
                ..self.table.message(message)
            };
            self.table.set_message(message, &record);
        }
    }

    /// Sorts the entries from one on by message number.
    fn sort_entries(&mut self, from: u32) {
        let entries = from..self.ledger.count();
        let mut sorted: Vec<Entry> = entries.map(|entry| self.ledger.entry(entry)).collect();
        sorted.sort_by_key(|entry| entry.message);
        for (entry, record) in (from..).zip(sorted) {
            self.ledger.set_entry(entry, record);
        }
    }
}
