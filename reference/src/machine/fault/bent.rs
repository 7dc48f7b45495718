//! The table and the ledger that a faulty machine leaves, made of those that the sound step left.

use super::asked::is_for_desk;
use super::Fault;
use crate::ledger::{self, Entry, Ledger};
use crate::machine::Answer;
use crate::table::{state, Controller, Message, Table, DESK};
use crate::vector::is_condemned;

/// Makes of the table that the sound step left the one that the faulty machine would leave.
pub(super) fn bend_table(fault: Fault, before: &[u32], after: &mut [u32], answer: Answer) {
    if fault == Fault::WritesNoWord {
        return after.copy_from_slice(before);
    }
    let (Some(before), Some(mut after)) = (Table::new(before), Table::new(after)) else {
        return;
    };
    match (fault, answer) {
        (Fault::HeldKept, Answer::Crashed { .. } | Answer::Rolled { .. }) => {
            keep_held(&before, &mut after);
        }
        (
            Fault::LostGiven | Fault::EndsBeforeCrash | Fault::CondemnedOffered,
            Answer::Crashed {
                controller, kept, ..
            },
        )
        | (
            Fault::CondemnedOffered,
            Answer::Rolled {
                controller, kept, ..
            },
        ) => bend_causes(fault, &before, &mut after, controller as usize, kept),
        (
            Fault::EndWordOnRollback | Fault::KeptNotLogged | Fault::KnownNotRaised,
            Answer::Rolled {
                controller, kept, ..
            },
        ) => bend_rollback(fault, &before, &mut after, controller as usize, kept),
        _ => {}
    }
}

/// Makes of the ledger that the sound step left the one that the faulty machine would leave.
pub(super) fn bend_ledger(
    fault: Fault,
    before: &[u32],
    after: &mut [u32],
    table: &[u32],
    answer: Answer,
) {
    match (fault, answer) {
        (Fault::WritesNoWord, _)
        | (Fault::LedgerNotCleared, Answer::Done)
        | (Fault::PublishedWithoutEntry, Answer::Released { .. } | Answer::SetReleased { .. }) => {
            after.copy_from_slice(before)
        }
        (Fault::LedgerWrittenOnHeld, Answer::Held { message, .. })
        | (Fault::EntryOutOfOrder, Answer::Released { message, .. })
            if is_for_desk(table, message) =>
        {
            bend_entry(fault, after, table, message);
        }
        _ => {}
    }
}

/// One entry too many, if there is room, or the newest one with its words exchanged.
fn bend_entry(fault: Fault, ledger: &mut [u32], table: &[u32], message: u32) {
    let (Some(mut ledger), Some(table)) = (Ledger::new(ledger), Table::new(table)) else {
        return;
    };
    let Message { payload, .. } = table.message(message);
    let count = ledger.count();
    if fault == Fault::EntryOutOfOrder {
        let exchanged = Entry {
            message: payload,
            payload: message,
        };
        ledger.set_entry(count - 1, exchanged);
    } else if count < ledger::ENTRIES {
        ledger.append(Entry { message, payload });
    }
}

/// A rollback of the hearer to `kept` that wrote one word too many or too few.
fn bend_rollback(
    fault: Fault,
    before: &Table<&[u32]>,
    after: &mut Table<&mut [u32]>,
    hearer: usize,
    kept: u32,
) {
    let Controller {
        incarnation,
        stable,
        ..
    } = before.controller(hearer);
    if fault == Fault::EndWordOnRollback {
        after.set_end(hearer, hearer, incarnation, kept);
    } else if stable < kept {
        let known = before.known(hearer).word(hearer, incarnation);
        after.set_known(hearer, hearer, incarnation, known);
        if fault == Fault::KeptNotLogged {
            let counts = after.controller(hearer);
            after.set_controller(hearer, Controller { stable, ..counts });
        }
    }
}

/// A crash or a rollback to `kept` that made something else of the causes of the intervals above it.
fn bend_causes(
    fault: Fault,
    before: &Table<&[u32]>,
    after: &mut Table<&mut [u32]>,
    controller: usize,
    kept: u32,
) {
    let ends = before.ends(controller);
    for place in kept..before.controller(controller).live {
        let cause = before.place(controller, place as usize).cause;
        if cause != 0 && before.message(cause).receiver != DESK {
            let state = match fault {
                Fault::LostGiven => state::LOST,
                Fault::EndsBeforeCrash if is_condemned(&before.message(cause).vector, &ends) => {
                    state::DROPPED
                }
                _ => state::RELEASED,
            };
            after.set_state(cause, state);
        }
    }
}

/// Holds again what the step dropped.
fn keep_held(before: &Table<&[u32]>, after: &mut Table<&mut [u32]>) {
    for message in 1..=before.sent() {
        if before.message(message).state == state::HELD {
            after.set_state(message, state::HELD);
        }
    }
}
