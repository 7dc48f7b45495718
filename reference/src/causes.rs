//! What became of the causes of lost and undone intervals, read off the tables before and after a
//! step, in words.
//!
//! Only tests use it, to ask that their lists and lent tables come across every case.

use crate::machine::{Answer, Command};
use crate::refusal;
use crate::table::{state, Message, Table, DESK};
use crate::vector::is_condemned;
use std::collections::BTreeMap;

/// The states by name.
const STATES: [&str; 7] = [
    "unused",
    "held",
    "released",
    "delivered",
    "lost",
    "dropped",
    "published",
];

/// What lists of steps come across. A cause is delivered while its interval is live, and no end that
/// was heard by then condemns it: a crash drops what rests on the work just lost, and that alone. No
/// message for the desk is a cause.
pub const IN_LISTS: [&str; 21] = [
    "D of a delivered message refused",
    "D of a dropped message for the desk refused",
    "D of a dropped message refused",
    "D of a held message for the desk refused",
    "D of a held message refused",
    "D of a published message for the desk refused",
    "R of a delivered message refused",
    "R of a dropped message for the desk refused",
    "R of a dropped message refused",
    "R of a published message for the desk refused",
    "R of a released message refused",
    "crash: delivered becomes dropped",
    "crash: delivered becomes released",
    "offered again by a crash: delivered",
    "offered again by a crash: dropped",
    "offered again by a crash: waits",
    "offered again by a rollback: delivered",
    "offered again by a rollback: dropped",
    "offered again by a rollback: waits",
    "rollback: delivered becomes dropped",
    "rollback: delivered becomes released",
];

/// What single steps on lent tables come across: causes of any state, lost ones too, and some that an
/// end from before the step condemns. What is for the desk stays as it was, but for what is held and
/// was sent from there.
pub fn on_lent_tables() -> Vec<String> {
    let mut cases = Vec::new();
    for step in ["crash", "rollback"] {
        for name in ["held", "released", "delivered", "lost", "dropped"] {
            for end in ["dropped", "dropped by an older end", "released"] {
                cases.push(format!("{step}: {name} becomes {end}"));
            }
        }
        for name in ["held", "dropped", "published"] {
            cases.push(format!("{step}: {name} for the desk stays"));
        }
        cases.push(format!("{step}: held for the desk becomes dropped"));
    }
    for name in ["held", "delivered", "lost", "dropped"] {
        cases.push(format!("D of a {name} message refused"));
    }
    for name in ["released", "delivered", "lost", "dropped"] {
        cases.push(format!("R of a {name} message refused"));
    }
    for name in ["held", "dropped", "published"] {
        cases.push(format!("D of a {name} message for the desk refused"));
    }
    for name in ["dropped", "published"] {
        cases.push(format!("R of a {name} message for the desk refused"));
    }
    cases.sort();
    cases
}

/// What a step and its answer show, with the words before and after it.
pub fn cases(before: &[u32], command: Command, answer: Answer, after: &[u32]) -> Vec<String> {
    let refused = answer
        == Answer::Refused {
            number: refusal::STATE,
        };
    let record = |message| Table::new(before).map(|table| table.message(message));
    match command {
        Command::Release { message } if refused => refused_case('R', record(message)),
        Command::Deliver { message } if refused => refused_case('D', record(message)),
        _ => {
            let settled = settled(before, answer, after).into_iter();
            settled.map(|cause| cause.case()).collect()
        }
    }
}

fn refused_case(letter: char, record: Option<Message>) -> Vec<String> {
    let case = record.map(|record| {
        let name = name_of(record.state);
        let addressed = if record.receiver == DESK {
            " for the desk"
        } else {
            ""
        };
        format!("{letter} of a {name} message{addressed} refused")
    });
    case.into_iter().collect()
}

fn name_of(state: u32) -> &'static str {
    STATES.get(state as usize).copied().unwrap_or("unknown")
}

/// The cause of an interval that a step took off its chain.
struct Settled {
    step: &'static str,
    message: u32,
    before: u32,
    after: u32,
    /// Whether the ends that its controller had before the step condemn it.
    older: bool,
    for_desk: bool,
}

impl Settled {
    fn case(&self) -> String {
        let step = self.step;
        let [before, after] = [self.before, self.after].map(name_of);
        let by_older = self.older && self.after == state::DROPPED;
        match (self.for_desk, by_older) {
            (true, _) if self.after == self.before => {
                format!("{step}: {before} for the desk stays")
            }
            (true, _) => format!("{step}: {before} for the desk becomes {after}"),
            (false, true) => format!("{step}: {before} becomes {after} by an older end"),
            (false, false) => format!("{step}: {before} becomes {after}"),
        }
    }
}

/// The causes of all intervals that an accepted step took off their chain.
fn settled(before: &[u32], answer: Answer, after: &[u32]) -> Vec<Settled> {
    let (step, controller, kept) = match answer {
        Answer::Crashed {
            controller, kept, ..
        } => ("crash", controller as usize, kept),
        Answer::Rolled {
            controller, kept, ..
        } => ("rollback", controller as usize, kept),
        _ => return Vec::new(),
    };
    let (Some(before), Some(after)) = (Table::new(before), Table::new(after)) else {
        return Vec::new();
    };
    let ends = before.ends(controller);
    let removed = kept..before.controller(controller).live;
    let causes = removed.map(|place| before.place(controller, place as usize).cause);
    let causes = causes.filter(|&cause| cause != 0).map(|message| {
        let record = before.message(message);
        Settled {
            step,
            message,
            before: record.state,
            after: after.message(message).state,
            older: is_condemned(&record.vector, &ends),
            for_desk: record.receiver == DESK,
        }
    });
    causes.collect()
}

/// The messages of a list that are offered again, and by which step.
#[derive(Debug, Default)]
pub struct Offers(BTreeMap<u32, &'static str>);

impl Offers {
    /// Goes on by a step. If that is the delivery of a message that was offered again, it says what
    /// became of it.
    pub fn feed(
        &mut self,
        before: &[u32],
        command: Command,
        answer: Answer,
        after: &[u32],
    ) -> Option<String> {
        if matches!((command, answer), (Command::Open { .. }, Answer::Done)) {
            self.0.clear();
        }
        for cause in settled(before, answer, after) {
            if cause.after == state::RELEASED {
                self.0.insert(cause.message, cause.step);
            }
        }
        let (offered, end) = match answer {
            Answer::Delivered { message, .. } => (self.0.remove(&message), "delivered"),
            Answer::Dropped { message, .. } => (self.0.remove(&message), "dropped"),
            Answer::Waits { message } => (self.0.get(&message).copied(), "waits"),
            _ => return None,
        };
        offered.map(|step| format!("offered again by a {step}: {end}"))
    }
}
