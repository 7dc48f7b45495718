//! What became of the releases of readings for the desk, in words.

use crate::agreement::Lent;
use reference::ledger::ENTRIES;
use reference::machine::{Answer, Command};
use reference::refusal;
use reference::table::{Table, DESK};

/// What lists of steps come across. The ledger has a pair for every message, so none finds it full.
pub const IN_LISTS: [&str; 4] = [
    "desk: held above the degree",
    "desk: held within the degree",
    "desk: published",
    "desk: published as the last",
];

/// What single steps come across on lent tables with lent ledgers.
pub const ON_LENT: [&str; 7] = [
    "desk: held above the degree",
    "desk: held above the degree, the ledger full",
    "desk: held within the degree",
    "desk: held within the degree, the ledger full",
    "desk: published",
    "desk: published as the last",
    "desk: refused, the ledger full",
];

/// What a step and its answer show, with what was lent for it.
pub fn case(before: &Lent, command: Command, answer: Answer) -> Option<String> {
    let Command::Release { message } = command else {
        return None;
    };
    let table = Table::new(&before.table[..])?;
    let published = before.ledger.first().copied();
    let end = match answer {
        Answer::Released { .. } if published == Some(ENTRIES - 1) => {
            "published as the last".to_owned()
        }
        Answer::Released { .. } => "published".to_owned(),
        Answer::Held { mask, .. } => {
            let sender = table.message(message).sender as usize;
            let within = mask.count_ones() <= table.controller(sender).degree;
            held(within, published == Some(ENTRIES))
        }
        Answer::Refused { number } if number == refusal::LEDGER_USED_UP => {
            "refused, the ledger full".to_owned()
        }
        _ => return None,
    };
    let for_desk = table.message(message).receiver == DESK;
    for_desk.then(|| format!("desk: {end}"))
}

/// Within the degree, a message for a controller would have been let out.
fn held(within: bool, full: bool) -> String {
    let degree = if within { "within" } else { "above" };
    let ledger = if full { ", the ledger full" } else { "" };
    format!("held {degree} the degree{ledger}")
}
