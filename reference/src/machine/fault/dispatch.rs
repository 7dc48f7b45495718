//! Machines whose fault concerns the dispatcher: whom they serve, and what they leave.

use super::Fault;
use crate::machine::rules::Prospect;
use crate::machine::{Answer, Command};
use crate::table::Table;

/// Whom a faulty dispatcher serves, and with which message, where it looks for them in another way. It may find
/// nobody. The table is in form.
pub(in crate::machine) fn next_served(
    fault: Fault,
    words: &[u32],
    prospect: impl Fn(u32) -> Prospect,
) -> Option<Option<(u32, u32)>> {
    if !looks_otherwise(fault) {
        return None;
    }
    let table = Table::new(words)?;
    let n = table.n();
    let first = match fault {
        Fault::RoundFromTheServed => table.served(),
        Fault::RoundFromZero => 0,
        _ => table.served() + 1,
    };
    let round = (first..first + n).map(|c| match fault {
        Fault::LessNOnce if c >= n => c - n,
        _ => c % n,
    });
    let with_messages = round.filter(|&c| table.released_for(c).next().is_some());
    let mut served = with_messages.map(|c| {
        let released = table.released_for(c);
        let mut taken = released.filter(|&message| takes(fault, &prospect(message)));
        let message = match fault {
            Fault::HighestNumberTaken => taken.last(),
            _ => taken.next(),
        };
        message.map(|message| (c, message))
    });
    Some(match fault {
        Fault::WaitingEndsTheRound => served.next().flatten(),
        Fault::LowestOfAll => served.flatten().min_by_key(|&(_, message)| message),
        _ => served.flatten().next(),
    })
}

fn looks_otherwise(fault: Fault) -> bool {
    matches!(
        fault,
        Fault::RoundFromTheServed
            | Fault::RoundFromZero
            | Fault::LessNOnce
            | Fault::HighestNumberTaken
            | Fault::LowestOfAll
            | Fault::FullReceiverChosen
            | Fault::WaitingTaken
            | Fault::WaitingEndsTheRound
            | Fault::DroppedPassedOver
    )
}

/// Whether the dispatcher takes a message of which this would come.
fn takes(fault: Fault, prospect: &Prospect) -> bool {
    match prospect {
        Prospect::Drops(_) => fault != Fault::DroppedPassedOver,
        Prospect::Waits => fault == Fault::WaitingTaken,
        Prospect::NoPlace => fault == Fault::FullReceiverChosen,
        Prospect::Begins(_) => true,
    }
}

/// Makes of the table that the sound step left the one that the faulty machine would leave.
pub(super) fn bend(
    fault: Fault,
    before: &[u32],
    after: &mut [u32],
    command: Command,
    answer: Answer,
) {
    let (Some(before), Some(mut after)) = (Table::new(before), Table::new(after)) else {
        return;
    };
    match (fault, command, answer) {
        (Fault::IdleWrites, Command::Dispatch, Answer::Idle) => {
            after.set_served((before.served() + 1) % before.n());
        }
        (Fault::ServedNotWritten, Command::Dispatch, _)
        | (Fault::DroppedNotServed, Command::Dispatch, Answer::Dropped { .. }) => {
            after.set_served(before.served());
        }
        (
            Fault::DeliveryServes,
            Command::Deliver { .. },
            Answer::Delivered { message, .. } | Answer::Dropped { message, .. },
        ) => after.set_served(after.message(message).receiver),
        (Fault::ServedNotOpened, Command::Open { .. }, Answer::Done) => after.set_served(0),
        _ => {}
    }
}
