//! By which checks a fault is found, and how often.

use reference::demand::Breach;

/// A check, in the order of the printed table.
#[derive(Clone, Copy, Debug, PartialEq, Eq)]
pub enum By {
    /// Demand 3 on hearings, live intervals and releases, by the steps and answers of a list alone.
    Demand,
    /// Its claim on what was published, by the same.
    Published,
    /// Its claim on the ledger, by the words of the ledger beside them.
    Ledger,
    /// The ceiling on replay, by the steps and answers alone.
    Ceiling,
    /// The crash that an answer names, by the same.
    Blame,
    /// The history's checkpoints, by what an answer says is replayed.
    Replayed,
    /// That the dispatcher starves nobody and is idle only where nothing can go, by the tables before its calls.
    Fair,
    /// The history, by answers that it can't read.
    Unreadable,
    /// The sound machine, by another answer, table or ledger to a step of a list.
    Lists,
    /// The same to a single step on a lent table and a lent ledger.
    Lent,
}

use By::{Blame, Ceiling, Demand, Fair, Ledger, Lent, Lists, Published, Replayed, Unreadable};

pub const CHECKS: [By; 10] = [
    Demand, Published, Ledger, Ceiling, Blame, Replayed, Fair, Unreadable, Lists, Lent,
];

/// In how many lists, and in how many single steps, of one machine each check finds a fault.
#[derive(Clone, Copy, Debug, Default, PartialEq, Eq)]
pub struct Found(pub [usize; CHECKS.len()]);

impl Found {
    pub fn add(&mut self, by: By, found: bool) {
        self.0[by as usize] += usize::from(found);
    }

    /// Each check counts once for a list.
    pub fn add_breaches(&mut self, breaches: &[Breach]) {
        for by in CHECKS {
            self.add(by, breaches.iter().any(|breach| finder(breach) == by));
        }
    }

    /// The checks that find it.
    pub fn means(self) -> Vec<By> {
        let found = |by: &By| self.0[*by as usize] > 0;
        CHECKS.into_iter().filter(found).collect()
    }
}

/// The check that finds this breach. Demand 3 is meant as it was before there was a desk.
fn finder(breach: &Breach) -> By {
    match breach {
        Breach::NotUndone { .. }
        | Breach::UndoneWithoutCause { .. }
        | Breach::LiveOrphan { .. }
        | Breach::TooManyNamed { .. }
        | Breach::OwnerNotNamed { .. } => Demand,
        Breach::PublishedRevoked { .. } => Published,
        Breach::LedgerDiffers { .. } => Ledger,
        Breach::AboveCeiling { .. } => Ceiling,
        Breach::WrongCrash { .. } => Blame,
        Breach::Unreadable { .. } => Unreadable,
    }
}
