//! Whom the dispatcher serves and whom it passes over, read off the table before its call, in words; and whether it
//! starves anybody.
//!
//! Only tests use it, to ask that their lists and lent tables come across every case. A machine that begins its round
//! elsewhere shows it where several could be served; one that takes another number, where several are for one
//! controller or a lower one is for another; one that takes what waits or has no place, where that is passed over.

use crate::machine::{Answer, Command};
use crate::table::{in_form, Table, CONTROLLERS, LAST_NUMBER};
use crate::vector::{filtered, is_condemned, merged};
use std::collections::BTreeSet;

/// What would come of the delivery of a released message.
#[derive(Clone, Copy, Debug, PartialEq, Eq)]
pub enum Fate {
    /// It is delivered.
    Begins,
    /// It is dropped.
    Drops,
    /// It waits.
    Waits,
    /// It gets 12.
    NoPlace,
}

impl Fate {
    /// "Which would be delivered or dropped."
    pub fn is_taken(self) -> bool {
        matches!(self, Fate::Begins | Fate::Drops)
    }
}

/// A released message.
#[derive(Clone, Copy, Debug, PartialEq, Eq)]
pub struct Offered {
    /// Its number.
    pub message: u32,
    /// Who it is for.
    pub receiver: u32,
    /// What would come of its delivery.
    pub fate: Fate,
}

/// The released messages of a table in form, the lowest number first. Of one that isn't nothing is said.
pub fn offered(words: &[u32]) -> Vec<Offered> {
    let Some(table) = Table::new(words).filter(|_| in_form(words)) else {
        return Vec::new();
    };
    let messages = (0..table.n()).flat_map(|receiver| {
        let released = table.released_for(receiver);
        released.map(move |message| Offered {
            message,
            receiver,
            fate: fate(&table, message),
        })
    });
    let mut offered: Vec<Offered> = messages.collect();
    offered.sort_by_key(|offered| offered.message);
    offered
}

fn fate(table: &Table<&[u32]>, message: u32) -> Fate {
    let record = table.message(message);
    let c = record.receiver as usize;
    let known = table.known(c);
    let [ours, theirs] =
        [table.newest(c).vector, record.vector].map(|vector| filtered(&vector, &known));
    if is_condemned(&record.vector, &table.ends(c)) {
        Fate::Drops
    } else if merged(c, &ours, &theirs).is_none() {
        Fate::Waits
    } else if table.controller(c).live == LAST_NUMBER {
        Fate::NoPlace
    } else {
        Fate::Begins
    }
}

/// What lists of steps come across.
pub const IN_LISTS: [&str; 15] = [
    "dispatch: a controller passed over whose messages wait",
    "dispatch: a controller passed over without a place",
    "dispatch: a lower number left for another controller",
    "dispatch: a lower number passed over that waits",
    "dispatch: another of the round served",
    "dispatch: delivered",
    "dispatch: dropped",
    "dispatch: dropped without a place, a lower number passed over",
    "dispatch: idle, all are without a place",
    "dispatch: idle, all wait",
    "dispatch: idle, nothing released",
    "dispatch: idle, some wait and others are without a place",
    "dispatch: the first of the round served",
    "dispatch: the last of the round served",
    "dispatch: the lowest of several for its controller",
];

/// What single calls on lent tables come across beside these.
pub const ON_LENT_TOO: [&str; 2] = [
    "dispatch: after a controller that isn't there, n taken off once",
    "dispatch: after a controller that isn't there, n taken off more than once",
];

/// What a step and its answer show, with the words before it. Only calls of the dispatcher show something.
pub fn cases(before: &[u32], command: Command, answer: Answer) -> Vec<String> {
    let (Command::Dispatch, Some(table)) = (command, Table::new(before)) else {
        return Vec::new();
    };
    let call = Call {
        table,
        offered: offered(before),
    };
    let cases = match answer {
        Answer::Idle => vec![call.idle()],
        Answer::Delivered { message, .. } => call.served("delivered", message),
        Answer::Dropped { message, .. } => call.served("dropped", message),
        _ => Vec::new(),
    };
    let cases = cases.into_iter().map(|case| format!("dispatch: {case}"));
    cases.collect()
}

/// A call on a table in form.
struct Call<'a> {
    table: Table<&'a [u32]>,
    offered: Vec<Offered>,
}

impl Call<'_> {
    fn idle(&self) -> &'static str {
        let has = |fate| self.offered.iter().any(|offered| offered.fate == fate);
        match (has(Fate::Waits), has(Fate::NoPlace)) {
            (true, true) => "idle, some wait and others are without a place",
            (true, false) => "idle, all wait",
            (false, true) => "idle, all are without a place",
            (false, false) => "idle, nothing released",
        }
    }

    /// The turn of a controller in the round, from 1 to n.
    fn turn(&self, c: u32) -> u32 {
        let (n, served) = (self.table.n(), self.table.served());
        let turn = (1..=n).find(|turn| (served + turn) % n == c);
        turn.unwrap_or(0)
    }

    fn served(&self, end: &'static str, message: u32) -> Vec<&'static str> {
        let turn = self.turn(self.table.message(message).receiver);
        let which = match turn {
            1 => "the first of the round served",
            _ if turn == self.table.n() => "the last of the round served",
            _ => "another of the round served",
        };
        let others = self.offered.iter();
        let others = others.filter_map(|other| self.beside(message, turn, other));
        let mut cases = vec![end, which];
        cases.extend(others.collect::<BTreeSet<_>>());
        cases.extend(self.after_nobody());
        cases
    }

    /// What another message shows beside the one that was taken in this turn.
    fn beside(&self, message: u32, turn: u32, other: &Offered) -> Option<&'static str> {
        let others = self.turn(other.receiver);
        let (before, its_own) = (others < turn, others == turn);
        let lower = other.message < message;
        match other.fate {
            Fate::Waits if before => Some("a controller passed over whose messages wait"),
            Fate::NoPlace if before => Some("a controller passed over without a place"),
            Fate::Waits if its_own && lower => Some("a lower number passed over that waits"),
            Fate::NoPlace if its_own && lower => {
                Some("dropped without a place, a lower number passed over")
            }
            fate if fate.is_taken() && its_own && other.message > message => {
                Some("the lowest of several for its controller")
            }
            fate if fate.is_taken() && !its_own && lower => {
                Some("a lower number left for another controller")
            }
            _ => None,
        }
    }

    /// How often n is taken off a controller last served that isn't there, plus 1.
    fn after_nobody(&self) -> Option<&'static str> {
        match (self.table.served() + 1, self.table.n()) {
            (first, n) if first <= n => None,
            (first, n) if first < 2 * n => {
                Some("after a controller that isn't there, n taken off once")
            }
            _ => Some("after a controller that isn't there, n taken off more than once"),
        }
    }
}

/// What a dispatcher does that it must not.
#[derive(Clone, Copy, Debug, PartialEq, Eq)]
pub enum Unfair {
    /// This controller had a message that would be delivered or dropped at each of n calls running, and was served in
    /// none of them.
    Starved(u32),
    /// The answer is idle, and this message would be delivered or dropped.
    Idle(u32),
}

/// How many calls running each controller had such a message, and wasn't served.
#[derive(Clone, Debug, Default)]
pub struct Rounds([u32; CONTROLLERS]);

impl Rounds {
    /// Goes on by a step, with the words before it. "A controller that has such a message at each of n calls running is
    /// served in one of them. Other steps but openings may come between the calls." Says whether one was served now
    /// that had been left out in all n − 1 calls before.
    pub fn feed(
        &mut self,
        before: &[u32],
        command: Command,
        answer: Answer,
    ) -> Result<bool, Unfair> {
        if matches!((command, answer), (Command::Open { .. }, Answer::Done)) {
            *self = Rounds::default();
        }
        let (Command::Dispatch, Some(table)) = (command, Table::new(before)) else {
            return Ok(false);
        };
        let taken = offered(before).into_iter();
        let taken: Vec<Offered> = taken.filter(|offered| offered.fate.is_taken()).collect();
        let served = match (answer, taken.first()) {
            (Answer::Idle, Some(offered)) => return Err(Unfair::Idle(offered.message)),
            (Answer::Delivered { message, .. } | Answer::Dropped { message, .. }, _) => {
                Some(table.message(message).receiver)
            }
            _ => None,
        };
        let has = |c| taken.iter().any(|offered| offered.receiver == c);
        self.call(table.n(), served, has)
    }

    /// Goes on by a call of the dispatcher in a house of n.
    fn call(
        &mut self,
        n: u32,
        served: Option<u32>,
        has: impl Fn(u32) -> bool,
    ) -> Result<bool, Unfair> {
        let mut at_last = false;
        for (c, unserved) in (0..n).zip(&mut self.0) {
            if served == Some(c) || !has(c) {
                at_last |= served == Some(c) && *unserved > 0 && *unserved == n - 1;
                *unserved = 0;
            } else {
                *unserved += 1;
            }
            if *unserved == n {
                return Err(Unfair::Starved(c));
            }
        }
        Ok(at_last)
    }
}
