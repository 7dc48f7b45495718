//! From which checkpoint a rollback replays, read off the table before it, in words.
//!
//! Only tests use it, to ask that their lists and lent tables come across every case. A machine that
//! takes another place for the latest checkpoint shows it in one of them: one that takes in the condemned
//! place where that is flagged and something is replayed; one that stays with place 0 where a later
//! checkpoint is kept; one that leaves place 0 out where none is. Where the checkpoint of place 0 is the
//! latest and nothing is replayed, place 1 is the condemned one, and a walk that begins above it goes on.

use crate::machine::Answer;
use crate::table::Table;

/// What lists of steps, and single steps on lent tables, come across.
pub const CASES: [&str; 8] = [
    "rollback to a later checkpoint, none replayed, the condemned place flagged",
    "rollback to a later checkpoint, none replayed, the condemned place not flagged",
    "rollback to a later checkpoint, some replayed, the condemned place flagged",
    "rollback to a later checkpoint, some replayed, the condemned place not flagged",
    "rollback to the checkpoint of place 0, none replayed, the condemned place flagged",
    "rollback to the checkpoint of place 0, none replayed, the condemned place not flagged",
    "rollback to the checkpoint of place 0, some replayed, the condemned place flagged",
    "rollback to the checkpoint of place 0, some replayed, the condemned place not flagged",
];

/// What an answer shows, with the words before its step. Only a rollback shows something.
pub fn case(before: &[u32], answer: Answer) -> Option<String> {
    let Answer::Rolled {
        controller, kept, ..
    } = answer
    else {
        return None;
    };
    let table = Table::new(before)?;
    let is_flagged = |&place: &u32| table.place(controller as usize, place as usize).flag == 1;
    let latest = (0..kept).rev().find(is_flagged)?;
    let checkpoint = match latest {
        0 => "the checkpoint of place 0",
        _ => "a later checkpoint",
    };
    // Place p has number p + 1, so the newest place kept has the number kept.
    let replayed = if latest + 1 < kept { "some" } else { "none" };
    let condemned = if is_flagged(&kept) { "" } else { "not " };
    Some(format!(
        "rollback to {checkpoint}, {replayed} replayed, the condemned place {condemned}flagged"
    ))
}
