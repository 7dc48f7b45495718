//! Which crash `dropped` and `rolled` name, read off the table before the step, in words.
//!
//! Only tests use it, to ask that their lists and lent tables come across every case. A machine that names
//! another crash shows it in one of them: one that takes the highest controller where several condemn; one that
//! takes a controller's newest crash where it was an older one; one that looks at the owners' own ends where a
//! lower controller has crashed and the receiver hasn't heard.

use crate::machine::Answer;
use crate::table::{Table, CONTROLLERS, INCARNATIONS};
use crate::vector::{is_pair_condemned, Row};

/// What lists of steps, and single steps on lent tables, come across.
pub const CASES: [&str; 7] = [
    "dropped by an older crash of its controller",
    "dropped by one controller",
    "dropped by the lowest of several controllers",
    "dropped by the newest crash of its controller",
    "dropped though a lower controller crashed, unheard",
    "rolled by an older crash of its controller",
    "rolled by the newest crash of its controller",
];

/// What an answer shows, with the words before its step. Only these two show something.
pub fn cases(before: &[u32], answer: Answer) -> Vec<String> {
    let Some(table) = Table::new(before) else {
        return Vec::new();
    };
    match answer {
        Answer::Dropped {
            message,
            crashed,
            incarnation,
        } => {
            let record = table.message(message);
            let ends = table.ends(record.receiver as usize);
            let by =
                |owner: usize, ends: &Row| is_pair_condemned(record.vector[owner], owner, ends);
            let condemning = (0..CONTROLLERS).filter(|&owner| by(owner, &ends)).count();
            let mut cases = vec![
                match condemning {
                    1 => "dropped by one controller".to_owned(),
                    _ => "dropped by the lowest of several controllers".to_owned(),
                },
                format!("dropped by {}", age(&ends, crashed, incarnation)),
            ];
            if (0..crashed as usize).any(|owner| by(owner, &table.ends(owner))) {
                cases.push("dropped though a lower controller crashed, unheard".to_owned());
            }
            cases
        }
        Answer::Rolled {
            crashed,
            incarnation,
            ..
        } => {
            let own = table.ends(crashed as usize);
            vec![format!("rolled by {}", age(&own, crashed, incarnation))]
        }
        _ => Vec::new(),
    }
}

/// Whether a crash is the newest of its controller that a row tells of.
fn age(ends: &Row, crashed: u32, incarnation: u32) -> &'static str {
    let mut later = incarnation + 1..INCARNATIONS as u32;
    if later.any(|ended| ends.word(crashed as usize, ended) != 0) {
        "an older crash of its controller"
    } else {
        "the newest crash of its controller"
    }
}
