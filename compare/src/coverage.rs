//! What a comparison has come across, so that a test can ask for all of it.

use crate::agreement::Lent;
use reference::ledger::Ledger;
use reference::lines;
use reference::machine::{Answer, Command};
use reference::refusal::{self, Refusal};
use reference::table::{Table, CONTROLLERS};
use std::collections::{BTreeMap, BTreeSet};
use std::ops::RangeBounds;

/// The answers but the refusals, in the order of the alphabet.
const ANSWERS: [&str; 13] = [
    "crashed",
    "delivered",
    "done",
    "dropped",
    "heard",
    "held",
    "idle",
    "released",
    "rolled",
    "sent",
    "set_held",
    "set_released",
    "waits",
];

/// Stand for the step that sets the gap, the one that releases a set and the dispatcher, which have no letter.
const SET_GAP: char = 'q';
const RELEASE_SET: char = 's';
const DISPATCH: char = 'd';

fn letter(command: Command) -> char {
    let letter = lines::write(command).and_then(|line| line.chars().next());
    letter.unwrap_or(match command {
        Command::ReleaseSet { .. } => RELEASE_SET,
        Command::Dispatch => DISPATCH,
        _ => SET_GAP,
    })
}

/// Which steps can be given each refusal, in the order of their letters.
const REFUSED: [(Refusal, &str); 16] = [
    (refusal::LENGTH, "CDHKLORSTXdqs"),
    (refusal::FORM, "CDHKLRSTXdqs"),
    (refusal::CONTROLLER, "CHKLSTX"),
    (refusal::MESSAGE, "DRs"),
    (refusal::DEGREE, "KOq"),
    (refusal::SAME_CONTROLLER, "STs"),
    (refusal::STATE, "DRs"),
    (refusal::SENDERS, "s"),
    (refusal::LOG_COUNT, "L"),
    (refusal::NO_SUCH_CRASH, "H"),
    (refusal::ALREADY_HEARD, "H"),
    (refusal::MESSAGES_USED_UP, "S"),
    (refusal::PLACES_USED_UP, "DX"),
    (refusal::INCARNATIONS_USED_UP, "HX"),
    (refusal::LEDGER, "ORs"),
    (refusal::LEDGER_USED_UP, "Rs"),
];

/// How far a house went.
#[derive(Clone, Copy, Debug, Default, PartialEq, Eq)]
pub struct Extent {
    /// The highest incarnation of a controller.
    pub incarnation: u32,
    /// The most live intervals of a controller.
    pub live: u32,
    /// The most messages sent.
    pub sent: u32,
    /// The most messages published.
    pub published: u32,
}

impl Extent {
    /// As far as a house can go: incarnation 15, 64 live intervals, 128 messages, and all of them
    /// published.
    pub const UTMOST: Extent = Extent {
        incarnation: 15,
        live: 64,
        sent: 128,
        published: 128,
    };

    fn farther(self, other: Extent) -> Extent {
        Extent {
            incarnation: self.incarnation.max(other.incarnation),
            live: self.live.max(other.live),
            sent: self.sent.max(other.sent),
            published: self.published.max(other.published),
        }
    }

    fn of(table: Table<&[u32]>, ledger: Ledger<&[u32]>) -> Extent {
        let counts = (0..CONTROLLERS).map(|controller| table.controller(controller));
        let none = Extent {
            sent: table.sent(),
            published: ledger.count(),
            ..Extent::default()
        };
        counts.fold(none, |extent, counts| {
            extent.farther(Extent {
                incarnation: counts.incarnation,
                live: counts.live,
                ..none
            })
        })
    }
}

/// The steps and answers seen so far.
#[derive(Debug, Default)]
pub struct Seen {
    /// How many steps.
    pub steps: u64,
    /// The answers but the refusals, by their first words.
    answers: BTreeSet<String>,
    /// The refusals, each with the letter of its step.
    refusals: BTreeSet<(Refusal, char)>,
    /// How often each case of causes, of rollbacks, of crashes named, of the desk, of the gap, of sets and of the
    /// dispatcher came up.
    cases: BTreeMap<String, u64>,
    /// How far the houses went.
    pub extent: Extent,
}

impl Seen {
    /// Takes note of a step.
    pub fn note(&mut self, command: Command, answer: Answer) {
        self.steps += 1;
        if let Answer::Refused { number } = answer {
            self.refusals.insert((number, letter(command)));
        } else {
            let line = lines::render(&answer);
            let name = line.split(' ').next();
            self.answers.extend(name.map(str::to_owned));
        }
    }

    /// Takes note of what became of causes, of rollbacks, of crashes named, of readings for the desk, of new
    /// intervals by the gap, of sets and of calls of the dispatcher, in the words of [`reference::causes`],
    /// [`reference::rollbacks`], [`reference::blames`], [`desk`](crate::desk), [`reference::forced`],
    /// [`reference::sets`] and [`reference::dispatched`].
    pub fn note_cases(&mut self, cases: impl IntoIterator<Item = String>) {
        for case in cases {
            *self.cases.entry(case).or_default() += 1;
        }
    }

    /// Takes note of how far a house went, by a table in form and its ledger.
    pub fn note_extent(&mut self, lent: &Lent) {
        let ledger = Ledger::new(&lent.ledger[..]);
        if let (Some(table), Some(ledger)) = (Table::new(&lent.table[..]), ledger) {
            self.extent = self.extent.farther(Extent::of(table, ledger));
        }
    }

    /// Adds what another has seen.
    pub fn join(mut self, other: Seen) -> Seen {
        self.steps += other.steps;
        self.answers.extend(other.answers);
        self.refusals.extend(other.refusals);
        for (case, count) in other.cases {
            *self.cases.entry(case).or_default() += count;
        }
        self.extent = self.extent.farther(other.extent);
        self
    }

    /// Every answer was given, and every refusal with one of these numbers, each to every step it can be
    /// given to.
    ///
    /// # Panics
    /// If one is missing.
    pub fn assert_all(&self, refusals: impl RangeBounds<Refusal>) {
        assert!(self.answers.iter().eq(&ANSWERS), "{:?}", self.answers);
        for (refusal, letters) in REFUSED {
            if refusals.contains(&refusal) {
                assert_eq!(self.refused(refusal), letters, "refused {refusal}");
            }
        }
    }

    /// These cases came up, each of them and no other.
    ///
    /// # Panics
    /// If one is missing or there is another.
    pub fn assert_cases<S: AsRef<str>>(&self, causes: &[S], others: &[&[&str]]) {
        println!("{:#?}", self.cases);
        let causes = causes.iter().map(S::as_ref);
        let expected: BTreeSet<&str> = causes.chain(others.concat()).collect();
        let seen = self.cases.keys().map(String::as_str).collect();
        assert_eq!(expected, seen);
    }

    /// Each of these cases came up at least so many times.
    ///
    /// # Panics
    /// If one came up less often.
    pub fn assert_often(&self, cases: &[&str], least: u64) {
        for &case in cases {
            let seen = self.cases.get(case).copied().unwrap_or(0);
            println!("{case}: {seen}");
            assert!(seen >= least, "{case}: {seen}");
        }
    }

    /// The letters of the steps that were refused so.
    pub fn refused(&self, refusal: Refusal) -> String {
        let refused = self.refusals.iter().filter(|(seen, _)| *seen == refusal);
        refused.map(|(_, letter)| letter).collect()
    }
}
