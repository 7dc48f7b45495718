//! What is done around the sound step by machines whose fault needs no rule.

use super::{bent, dispatch, gap, sets, Fault};
use crate::machine::{Answer, Command};
use crate::refusal;

/// The faults that need no rule: an answer given before the step, or an answer, a table or a ledger
/// bent after it. For all others the step is done on what was lent and answers for itself.
pub(in crate::machine) fn around(
    fault: Fault,
    table: &mut [u32],
    ledger: &mut [u32],
    command: Command,
    step: impl FnOnce(&mut [u32], &mut [u32]) -> Answer,
) -> Answer {
    if let Some(answer) = before_looking(fault, command) {
        return answer;
    }
    if !fault.bends_what_was_written() {
        return invented(fault, step(table, ledger));
    }
    let (table_before, ledger_before) = (table.to_vec(), ledger.to_vec());
    let answer = step(table, ledger);
    bent::bend_table(fault, &table_before, table, answer);
    gap::bend(fault, &table_before, table, command, answer);
    dispatch::bend(fault, &table_before, table, command, answer);
    bent::bend_ledger(fault, &ledger_before, ledger, table, answer);
    if let Command::ReleaseSet { messages } = command {
        let before = (&table_before[..], &ledger_before[..]);
        sets::bend(fault, before, (table, ledger), &messages, answer);
    }
    answer
}

fn before_looking(fault: Fault, command: Command) -> Option<Answer> {
    match (fault, command) {
        (Fault::RefusesAll, _) => Some(Answer::Refused {
            number: refusal::LENGTH,
        }),
        (Fault::DoneToAll, _) => Some(Answer::Done),
        (Fault::WaitsBeforeLooking, Command::Deliver { message }) => {
            Some(Answer::Waits { message })
        }
        (Fault::HeldBeforeLooking, Command::Release { message }) => {
            Some(Answer::Held { message, mask: 0 })
        }
        (Fault::HeldBeforeLooking, Command::ReleaseSet { .. }) => Some(Answer::SetHeld { mask: 0 }),
        (Fault::IdleBeforeLooking, Command::Dispatch) => Some(Answer::Idle),
        (Fault::HeardBeforeLooking, Command::Hear { hearer, .. }) => {
            Some(Answer::Heard { controller: hearer })
        }
        (Fault::NeverHears, Command::Hear { .. }) => Some(Answer::Refused {
            number: refusal::NO_SUCH_CRASH,
        }),
        _ => None,
    }
}

fn invented(fault: Fault, mut answer: Answer) -> Answer {
    match (fault, &mut answer) {
        (Fault::InventsLost, Answer::Crashed { lost: figure, .. })
        | (Fault::InventsUndone, Answer::Rolled { undone: figure, .. })
        | (
            Fault::InventsReplayed,
            Answer::Crashed {
                replayed: figure, ..
            }
            | Answer::Rolled {
                replayed: figure, ..
            },
        ) => *figure += 1,
        (
            Fault::HearerBlamed,
            Answer::Rolled {
                controller,
                crashed,
                ..
            },
        ) => *crashed = *controller,
        _ => {}
    }
    answer
}
