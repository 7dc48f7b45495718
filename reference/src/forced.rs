//! Which new intervals the gap asked a checkpoint of, and how it was set, read off the tables before and
//! after a step; and how much is replayed beside the ceiling; in words.
//!
//! Only tests use it, to ask that their lists and lent tables come across every case. A machine that takes
//! more than the gap for the gap shows it where an interval stands at the gap; one that passes over
//! starts, where such a start is forced; one that logs less, where a delivery is; one that measures from
//! stable flags alone, or from flags that left the chain, where a flag decides that is such a one.

use crate::machine::{Answer, Command};
use crate::table::{Place, Table};

/// What lists of steps come across. A flagged interval is stable there, so that no crash loses one.
pub const IN_LISTS: [&str; 23] = [
    "delivery: above the gap, forced, logs itself alone",
    "delivery: above the gap, forced, logs others too",
    "delivery: at the gap, forced, logs itself alone",
    "delivery: at the gap, forced, logs others too",
    "delivery: far below the gap",
    "delivery: no gap",
    "delivery: one below the gap",
    "gap lowered",
    "gap raised",
    "gap set again",
    "gap turned off",
    "gap turned on",
    "start after a crash: above the gap, forced",
    "start after a crash: at the gap, forced",
    "start after a crash: far below the gap",
    "start after a crash: no gap",
    "start after a crash: one below the gap",
    "start after a rollback: above the gap, forced",
    "start after a rollback: at the gap, forced",
    "start after a rollback: far below the gap",
    FLAG_UNDONE,
    "start after a rollback: no gap",
    "start after a rollback: one below the gap",
];

/// What single steps on lent tables come across beside these.
pub const ON_LENT_TOO: [&str; 2] = [UNSTABLE_FLAG, FLAG_LOST];

/// All that comes up where no gap is ever set.
pub const WITHOUT_A_GAP: [&str; 3] = [
    "delivery: no gap",
    "start after a crash: no gap",
    "start after a rollback: no gap",
];

/// What lists of steps come across where something is replayed beside a ceiling, or where a gap is set and
/// there is none.
pub const BESIDE_THE_CEILING: [&str; 6] = [
    "replay after a crash: above any ceiling of the gap, none claimed",
    "replay after a crash: at the ceiling",
    "replay after a crash: below the ceiling",
    "replay after a rollback: above any ceiling of the gap, none claimed",
    "replay after a rollback: at the ceiling",
    "replay after a rollback: below the ceiling",
];

/// A flag that isn't stable spares a delivery its checkpoint.
const UNSTABLE_FLAG: &str = "delivery: not forced, by a flag that isn't stable";
/// A flag that the start's chain has lost would have spared it its checkpoint.
const FLAG_LOST: &str = "start after a crash: forced, a later flag lost";
const FLAG_UNDONE: &str = "start after a rollback: forced, a later flag undone";

/// What a step and its answer show, with the words before and after it.
pub fn cases(before: &[u32], command: Command, answer: Answer, after: &[u32]) -> Vec<String> {
    let (Some(before), Some(after)) = (Table::new(before), Table::new(after)) else {
        return Vec::new();
    };
    if let (Command::SetGap { gap }, Answer::Done) = (command, answer) {
        return vec![set(before.gap(), gap)];
    }
    let (cause, controller) = match answer {
        Answer::Delivered { message, .. } => (DELIVERY, after.message(message).receiver),
        Answer::Crashed { controller, .. } => (CRASH, controller),
        Answer::Rolled { controller, .. } => (ROLLBACK, controller),
        _ => return Vec::new(),
    };
    let begun = Begun {
        cause,
        before,
        after,
        c: controller as usize,
    };
    let special = [begun.spared_by_unstable(), begun.forced_by_removed()];
    let special = special.into_iter().flatten();
    std::iter::once(begun.case()).chain(special).collect()
}

/// What an answer shows of the ceiling before its step, and of the gap of that time.
pub fn beside_ceiling(ceiling: Option<u32>, before: &[u32], answer: Answer) -> Option<String> {
    let (step, replayed) = match answer {
        Answer::Crashed { replayed, .. } => ("crash", replayed),
        Answer::Rolled { replayed, .. } => ("rollback", replayed),
        _ => return None,
    };
    let gap = Table::new(before)?.gap();
    let where_it_is = match ceiling {
        Some(most) if replayed < most => "below the ceiling",
        Some(most) if replayed == most => "at the ceiling",
        None if gap != 0 && replayed >= gap => "above any ceiling of the gap, none claimed",
        _ => return None,
    };
    Some(format!("replay after a {step}: {where_it_is}"))
}

const DELIVERY: &str = "delivery";
const CRASH: &str = "start after a crash";
const ROLLBACK: &str = "start after a rollback";

fn set(before: u32, gap: u32) -> String {
    let how = match (before, gap) {
        (0, 1..) => "turned on",
        (1.., 0) => "turned off",
        _ if gap > before => "raised",
        _ if gap < before => "lowered",
        _ => "set again",
    };
    format!("gap {how}")
}

/// An interval that has just begun, with the tables before and after its step.
struct Begun<'a> {
    cause: &'static str,
    before: Table<&'a [u32]>,
    after: Table<&'a [u32]>,
    c: usize,
}

impl Begun<'_> {
    fn newest(&self) -> Place {
        self.after.newest(self.c)
    }

    /// How far the new interval stands above the latest flagged one among the first of so many places of
    /// a chain; 0 where that is above it.
    fn above(&self, chain: &Table<&[u32]>, places: u32) -> u32 {
        let place = |place| chain.place(self.c, place as usize);
        let flagged = (0..places).map(place).filter(|record| record.flag == 1);
        let latest = flagged.map(|record| record.number).max();
        self.newest().number.saturating_sub(latest.unwrap_or(0))
    }

    fn case(&self) -> String {
        let cause = self.cause;
        let gap = self.after.gap();
        let above = self.above(&self.after, self.newest().number - 1);
        if gap == 0 {
            return format!("{cause}: no gap");
        }
        let stands = match above {
            _ if above > gap => "above the gap",
            _ if above == gap => "at the gap",
            _ if above + 1 == gap => "one below the gap",
            _ => "far below the gap",
        };
        let forced = if self.newest().flag == 1 {
            ", forced"
        } else {
            ""
        };
        let logs = self.logs();
        format!("{cause}: {stands}{forced}{logs}")
    }

    /// What the checkpoint of a delivery logs. A start has logged all.
    fn logs(&self) -> &'static str {
        let counts = self.before.controller(self.c);
        match self.newest().flag {
            1 if self.cause == DELIVERY && counts.stable == counts.live => ", logs itself alone",
            1 if self.cause == DELIVERY => ", logs others too",
            _ => "",
        }
    }

    /// Whether a delivery would be forced if only stable flags counted, and isn't.
    fn spared_by_unstable(&self) -> Option<String> {
        let gap = self.after.gap();
        let by_stable = self.above(&self.before, self.before.controller(self.c).stable);
        let spared = self.newest().flag == 0 && gap != 0 && by_stable >= gap;
        (self.cause == DELIVERY && spared).then(|| UNSTABLE_FLAG.to_owned())
    }

    /// Whether a start is forced, and would not be by the flags that the chain had before.
    fn forced_by_removed(&self) -> Option<String> {
        let by_all = self.above(&self.before, self.before.controller(self.c).live);
        let forced = self.newest().flag == 1 && by_all < self.after.gap();
        let case = match self.cause {
            CRASH => FLAG_LOST,
            ROLLBACK => FLAG_UNDONE,
            _ => return None,
        };
        forced.then(|| case.to_owned())
    }
}
