//! What a faulty machine says or does where a rule asks for its fault.

use super::Fault;
use crate::ledger;
use crate::machine::rules::can_open;
use crate::machine::Command;
use crate::table::{
    self, state, Message, Table, CONTROLLERS, DESK, INCARNATIONS, LAST_GAP, LAST_MESSAGE,
    LAST_SERVED,
};
use crate::vector::{is_pair_condemned, Pair, Row, Vector};
use std::array;

/// What a faulty machine says of the ledger before the step, where it looks at another time.
pub(in crate::machine) fn ledger_fits(
    fault: Fault,
    table: &[u32],
    words: &[u32],
    command: Command,
) -> Option<bool> {
    match (fault, command) {
        (Fault::FourteenOnlyForTheDesk, Command::Release { message }) => {
            (!is_for_desk(table, message)).then_some(true)
        }
        (Fault::SetLedgerOnlyForTheDesk, Command::ReleaseSet { messages }) => {
            let mut for_desk = messages.iter().map(|&message| is_for_desk(table, message));
            (!for_desk.any(|for_desk| for_desk)).then_some(true)
        }
        (Fault::DegreeBeforeLedger, Command::Open { n, degree }) => {
            (!can_open(n, degree)).then_some(true)
        }
        (Fault::LedgerLookedAtByAll, Command::Open { .. }) => None,
        (Fault::LedgerLookedAtByAll, _) => Some(ledger::is_sound(words)),
        _ => None,
    }
}

/// Whether this is a message sent, and for the desk. The table is in form.
pub(super) fn is_for_desk(words: &[u32], message: u32) -> bool {
    Table::new(words).is_some_and(|table| {
        let sent = (1..=table.sent()).contains(&message);
        sent && table.message(message).receiver == DESK
    })
}

/// Whether a faulty machine takes words for a table in form, where it may see that otherwise.
pub(in crate::machine) fn in_form(fault: Fault, words: &[u32]) -> Option<bool> {
    let table = Table::new(words)?;
    let (gap, served) = (table.gap(), table.served());
    match fault {
        Fault::PublishedElsewhereInForm => Some(in_form_with(words, publish_nothing_elsewhere)),
        Fault::GapOf65InForm if gap == LAST_GAP + 1 => {
            Some(in_form_with(words, |table| table.set_gap(LAST_GAP)))
        }
        Fault::GapOutOfForm if gap != 0 => Some(false),
        Fault::Served8InForm if served == LAST_SERVED + 1 => {
            Some(in_form_with(words, |table| table.set_served(LAST_SERVED)))
        }
        Fault::ServedBelowNInForm if served >= table.n() => Some(false),
        _ => None,
    }
}

/// Whether words that are changed so are in form.
fn in_form_with(words: &[u32], change: impl FnOnce(&mut Table<&mut [u32]>)) -> bool {
    let mut words = words.to_vec();
    if let Some(mut table) = Table::new(&mut words[..]) {
        change(&mut table);
    }
    table::in_form(&words)
}

/// Gives another state to what is published and not for the desk: with state published in form for all
/// receivers, a table is in form exactly when it is so after this.
fn publish_nothing_elsewhere(table: &mut Table<&mut [u32]>) {
    for message in 1..=table.sent().min(LAST_MESSAGE) {
        let record = table.message(message);
        if record.state == state::PUBLISHED && record.receiver != DESK {
            table.set_state(message, state::DROPPED);
        }
    }
}

/// The highest gap that a machine takes.
pub(in crate::machine) fn most_gap(fault: Fault) -> u32 {
    match fault {
        Fault::GapOf65Taken => LAST_GAP + 1,
        _ => LAST_GAP,
    }
}

/// The lowest owner of a pair taken for condemned by its number alone: any end of its owner will do.
pub(in crate::machine) fn condemned_by_number(vector: &Vector, ends: &Row) -> Option<usize> {
    (0..CONTROLLERS).find(|&owner| {
        (0..INCARNATIONS as u32)
            .map(|incarnation| ends.word(owner, incarnation))
            .any(|end| end != 0 && vector[owner].number > end)
    })
}

/// Whose crash a faulty machine names for a message that it drops, and the incarnation that it ended,
/// where it looks for them in another way.
pub(in crate::machine) fn blamed(
    fault: Fault,
    words: &[u32],
    record: &Message,
) -> Option<(usize, u32)> {
    let table = Table::new(words)?;
    let ends = table.ends(record.receiver as usize);
    let condemns = |&owner: &usize| is_pair_condemned(record.vector[owner], owner, &ends);
    let condemns_itself = |&owner: &usize| {
        let own = table.ends(owner);
        is_pair_condemned(record.vector[owner], owner, &own)
    };
    let owner = match fault {
        Fault::HighestBlamed => (0..CONTROLLERS).rev().find(condemns)?,
        Fault::NewestIncarnationBlamed | Fault::NewestCrashBlamed => {
            (0..CONTROLLERS).find(condemns)?
        }
        Fault::OwnEndsBlamed => (0..CONTROLLERS).find(condemns_itself)?,
        _ => return None,
    };
    let mut heard = (0..INCARNATIONS as u32).rev();
    let incarnation = match fault {
        Fault::NewestIncarnationBlamed => table.controller(owner).incarnation,
        Fault::NewestCrashBlamed => heard.find(|&ended| ends.word(owner, ended) != 0)?,
        _ => record.vector[owner].incarnation,
    };
    Some((owner, incarnation))
}

/// The lexicographically larger of each two pairs: a later incarnation hides an earlier one.
pub(in crate::machine) fn larger_of_each(ours: &Vector, theirs: &Vector) -> Vector {
    array::from_fn(|owner: usize| Pair::max(ours[owner], theirs[owner]))
}

/// What a faulty hearing says is replayed after `kept`, where it counts from the latest checkpoint of
/// other places than those below the condemned one.
pub(in crate::machine) fn replayed_by_hearing(
    fault: Fault,
    words: &[u32],
    hearer: usize,
    kept: u32,
) -> Option<u32> {
    let looked_at = match fault {
        Fault::FigureOfThePlaceItself => 0..kept + 1,
        Fault::FigureNotRaised => 0..1,
        Fault::FirstPlaceLeftOut => 1..kept,
        _ => return None,
    };
    let table = Table::new(words)?;
    let places = looked_at.map(|place| table.place(hearer, place as usize));
    let flagged = places.filter(|record| record.flag == 1);
    let latest = flagged.map(|record| record.number).max();
    // The checkpoint of the condemned place has a number above the kept one.
    Some(kept.saturating_sub(latest.unwrap_or(0)))
}
