//! Whether `dropped` and `rolled` name the right crash, by the history alone: "Operators read `dropped` and
//! `rolled` and ask which controller to look at."

use crate::history::{Crash, History, IntervalId};
use crate::machine::{Answer, Command};

/// Whether the crash that a dropped delivery names is the one of the lowest controller that the receiver has
/// heard and in which work was lost that the message rests on; and whether it is the only one of that
/// controller. The history is that of just before the delivery.
pub(super) fn of_dropped(history: &History, answer: Answer) -> bool {
    let Answer::Dropped { message, .. } = answer else {
        return false;
    };
    let Some(sent) = history.messages().get(&message) else {
        return false;
    };
    let receiver = sent.receiver as usize;
    let crashes = history.losses_heard(receiver, sent.sending_interval);
    let lowest = crashes.first().map(|crash| crash.controller);
    let blamed = crashes
        .iter()
        .filter(|crash| Some(crash.controller) == lowest);
    blamed.copied().eq(named(answer))
}

/// Whether the crash that a rollback names is that of its hearing, was not heard before, and lost work that each
/// interval rests on which was undone; and whether one was. The history is that of just after the hearing.
pub(super) fn of_rollback(
    history: &History,
    command: Command,
    answer: Answer,
    heard_before: bool,
    undone: &[IntervalId],
) -> bool {
    let Command::Hear {
        hearer,
        crashed,
        incarnation,
    } = command
    else {
        return false;
    };
    let crash = Crash {
        controller: crashed as usize,
        incarnation,
    };
    let lost_by_it = |id: &IntervalId| {
        let crashes = history.losses_heard(hearer as usize, *id);
        crashes.contains(&crash)
    };
    named(answer) == Some(crash)
        && !heard_before
        && !undone.is_empty()
        && undone.iter().all(lost_by_it)
}

/// The crash that an answer names.
fn named(answer: Answer) -> Option<Crash> {
    match answer {
        Answer::Dropped {
            crashed,
            incarnation,
            ..
        }
        | Answer::Rolled {
            crashed,
            incarnation,
            ..
        } => Some(Crash {
            controller: crashed as usize,
            incarnation,
        }),
        _ => None,
    }
}
