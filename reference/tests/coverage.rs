//! The generators reach every answer, every refusal, the limits of a house, all that becomes of the
//! causes of lost and undone intervals, all checkpoints that a rollback goes back to, all crashes that an answer
//! may name, all that becomes of messages for the desk and of sets, whom the dispatcher serves and passes over, and all
//! checkpoints that the gap forces or doesn't.

use reference::blames;
use reference::causes::{self, Offers};
use reference::demand::Judge;
use reference::dispatched;
use reference::forced;
use reference::generate::{
    condemned_table, damaged, damaged_gap, damaged_ledger, damaged_served, dispatch_table, gap,
    gapped_table, in_form_table, named, nearly_full_ledger, senseless, set, set_table,
    sound_ledger, wrong_length, Profile, Random, Walk,
};
use reference::lines;
use reference::machine::{step, Answer, Command};
use reference::refusal::{self, Refusal};
use reference::rollbacks;
use reference::sets;
use reference::table::{state, Table, DESK};
use std::collections::{BTreeMap, BTreeSet};

/// Stand for the step that sets the gap, the one that releases a set and the dispatcher, which have no letter.
const SET_GAP: char = 'q';
const RELEASE_SET: char = 's';
const DISPATCH: char = 'd';

fn letter(command: Command) -> char {
    let line = lines::write(command).and_then(|line| line.chars().next());
    line.unwrap_or(match command {
        Command::ReleaseSet { .. } => RELEASE_SET,
        Command::Dispatch => DISPATCH,
        _ => SET_GAP,
    })
}

/// The answers without their numbers, but a refusal with its own and the letter of its step; and how
/// often each case of causes, of rollbacks, of crashes named, of the desk, of the gap, of sets and of the dispatcher
/// came up.
#[derive(Default)]
struct Seen {
    answers: BTreeSet<String>,
    refusals: BTreeSet<(Refusal, char)>,
    causes: BTreeMap<String, u64>,
    rollbacks: BTreeMap<String, u64>,
    blames: BTreeMap<String, u64>,
    desk: BTreeMap<&'static str, u64>,
    forced: BTreeMap<String, u64>,
    sets: BTreeMap<String, u64>,
    dispatched: BTreeMap<String, u64>,
}

impl Seen {
    fn note(&mut self, command: Command, answer: Answer) {
        match answer {
            Answer::Refused { number } => {
                self.refusals.insert((number, letter(command)));
            }
            _ => {
                let line = lines::render(&answer);
                self.answers
                    .extend(line.split(' ').next().map(str::to_owned));
            }
        }
    }

    fn note_causes(&mut self, cases: impl IntoIterator<Item = String>) {
        for case in cases {
            *self.causes.entry(case).or_default() += 1;
        }
    }

    fn note_rollback(&mut self, case: Option<String>) {
        if let Some(case) = case {
            *self.rollbacks.entry(case).or_default() += 1;
        }
    }

    fn note_blames(&mut self, cases: Vec<String>) {
        for case in cases {
            *self.blames.entry(case).or_default() += 1;
        }
    }

    fn note_forced(&mut self, cases: impl IntoIterator<Item = String>) {
        for case in cases {
            *self.forced.entry(case).or_default() += 1;
        }
    }

    fn note_sets(&mut self, cases: impl IntoIterator<Item = String>) {
        for case in cases {
            *self.sets.entry(case).or_default() += 1;
        }
    }

    fn note_dispatched(&mut self, cases: impl IntoIterator<Item = String>) {
        for case in cases {
            *self.dispatched.entry(case).or_default() += 1;
        }
    }

    /// These cases of sets came up, and no other.
    fn assert_sets(&self, expected: &[&[&str]]) {
        let expected: BTreeSet<&str> = expected.concat().into_iter().collect();
        println!("of sets: {:#?}", self.sets);
        assert!(self.sets.keys().eq(expected), "{:?}", self.sets.keys());
    }

    /// These cases of the dispatcher came up, and no other.
    fn assert_dispatched(&self, expected: &[&[&str]]) {
        let expected: BTreeSet<&str> = expected.concat().into_iter().collect();
        println!("by the dispatcher: {:#?}", self.dispatched);
        assert!(
            self.dispatched.keys().eq(expected),
            "{:?}",
            self.dispatched.keys()
        );
    }

    /// These cases of the gap came up, and no other.
    fn assert_forced(&self, expected: &[&[&str]]) {
        let expected: BTreeSet<&str> = expected.concat().into_iter().collect();
        println!("by the gap: {:#?}", self.forced);
        assert!(self.forced.keys().eq(expected), "{:?}", self.forced.keys());
    }

    /// What a step made of messages for the desk, and whether the ledger was full before it.
    fn note_desk(&mut self, before: &[u32], full: bool, answer: Answer, after: &[u32]) {
        let Some([before, after]) = tables(before, after) else {
            return;
        };
        let for_desk = |message: u32| after.message(message).receiver == DESK;
        let case = match answer {
            Answer::Sent { message } if for_desk(message) => Some("sent"),
            Answer::Held { message, .. } if for_desk(message) && full => Some("held, ledger full"),
            Answer::Held { message, .. } if for_desk(message) => Some("held"),
            Answer::Released { message, .. } if for_desk(message) => Some("published"),
            Answer::Released { .. } if full => Some("released elsewhere, ledger full"),
            Answer::Crashed { .. } if drops_for_desk(before, after) => Some("dropped by a crash"),
            Answer::Rolled { .. } if drops_for_desk(before, after) => Some("dropped by a rollback"),
            _ => None,
        };
        if let Some(case) = case {
            *self.desk.entry(case).or_default() += 1;
        }
    }

    /// The letters of the steps that were refused so.
    fn refused(&self, refusal: Refusal) -> String {
        let refused = self.refusals.iter().filter(|(seen, _)| *seen == refusal);
        refused.map(|(_, letter)| letter).collect()
    }
}

fn tables<'a>(before: &'a [u32], after: &'a [u32]) -> Option<[Table<&'a [u32]>; 2]> {
    Some([Table::new(before)?, Table::new(after)?])
}

/// Whether a message for the desk was held and is dropped.
fn drops_for_desk(before: Table<&[u32]>, after: Table<&[u32]>) -> bool {
    (1..=before.sent()).any(|message| {
        let [before, after] = [before.message(message), after.message(message)];
        before.receiver == DESK && before.state == state::HELD && after.state == state::DROPPED
    })
}

/// What becomes of messages for the desk in lists. No ledger is full there while a message is held.
const DESK_IN_LISTS: [&str; 5] = [
    "dropped by a crash",
    "dropped by a rollback",
    "held",
    "published",
    "sent",
];

/// The same on lent tables beside lent ledgers.
const DESK_ON_LENT: [&str; 7] = [
    "dropped by a crash",
    "dropped by a rollback",
    "held",
    "held, ledger full",
    "published",
    "released elsewhere, ledger full",
    "sent",
];

const ANSWERS: [&str; 13] = [
    "crashed",
    "delivered",
    "done",
    "dropped",
    "heard",
    "held",
    "idle",
    "released",
    "rolled",
    "sent",
    "set_held",
    "set_released",
    "waits",
];

/// Which steps can be refused for each reason but the host's, in the order of their letters.
const REFUSED: [(Refusal, &str); 12] = [
    (refusal::CONTROLLER, "CHKLSTX"),
    (refusal::MESSAGE, "DRs"),
    (refusal::DEGREE, "KOq"),
    (refusal::SAME_CONTROLLER, "STs"),
    (refusal::STATE, "DRs"),
    (refusal::SENDERS, "s"),
    (refusal::LOG_COUNT, "L"),
    (refusal::NO_SUCH_CRASH, "H"),
    (refusal::ALREADY_HEARD, "H"),
    (refusal::MESSAGES_USED_UP, "S"),
    (refusal::PLACES_USED_UP, "DX"),
    (refusal::INCARNATIONS_USED_UP, "HX"),
];

#[test]
fn lists_reach_everything() {
    let mut seen = Seen::default();
    let mut sizes = BTreeSet::new();
    let (mut degrees_released, mut degrees_published) = (BTreeSet::new(), BTreeSet::new());
    let (mut incarnation, mut live, mut sent, mut published) = (0, 0, 0, 0);
    for profile in Profile::ALL {
        for seed in 0..150 {
            let mut walk = Walk::new(seed, profile);
            let mut before = walk.table().to_vec();
            let mut ledger = walk.ledger().to_vec();
            let mut offers = Offers::default();
            let mut judge = Judge::default();
            while let Some((command, answer)) = walk.next() {
                seen.note(command, answer);
                seen.note_causes(causes::cases(&before, command, answer, walk.table()));
                seen.note_causes(offers.feed(&before, command, answer, walk.table()));
                seen.note_rollback(rollbacks::case(&before, answer));
                seen.note_blames(blames::cases(&before, answer));
                seen.note_desk(&before, false, answer, walk.table());
                seen.note_forced(forced::cases(&before, command, answer, walk.table()));
                seen.note_forced(forced::beside_ceiling(judge.ceiling(), &before, answer));
                seen.note_sets(sets::cases(&before, &ledger, command, answer));
                seen.note_dispatched(dispatched::cases(&before, command, answer));
                judge.feed(command, answer);
                before.copy_from_slice(walk.table());
                ledger.copy_from_slice(walk.ledger());
                let table = Table::new(walk.table()).expect("the right length");
                sizes.insert(table.n());
                sent = sent.max(table.sent());
                published = published.max(walk.ledger()[0]);
                if let Answer::Released { message, .. } = answer {
                    let record = table.message(message);
                    let degree = table.controller(record.sender as usize).degree;
                    if record.receiver == DESK {
                        degrees_published.insert(degree);
                    } else {
                        degrees_released.insert(degree);
                    }
                }
                for c in 0..table.n() as usize {
                    incarnation = incarnation.max(table.controller(c).incarnation);
                    live = live.max(table.controller(c).live);
                }
            }
        }
    }
    assert!(seen.answers.iter().eq(&ANSWERS), "{:?}", seen.answers);
    for (refusal, letters) in REFUSED {
        assert_eq!(seen.refused(refusal), letters, "refused {refusal}");
    }
    // From an opening the ledger is sound, and never full while a message is held.
    assert_eq!(seen.refused(refusal::LEDGER), "");
    assert_eq!(seen.refused(refusal::LEDGER_USED_UP), "");
    println!(
        "in lists: {:#?}\n{:#?}\n{:#?}\nfor the desk: {:#?}",
        seen.causes, seen.rollbacks, seen.blames, seen.desk
    );
    assert!(seen.causes.keys().eq(&causes::IN_LISTS));
    assert!(seen.rollbacks.keys().eq(&rollbacks::CASES));
    assert!(seen.blames.keys().eq(&blames::CASES));
    assert!(seen.desk.keys().eq(&DESK_IN_LISTS));
    seen.assert_forced(&[&forced::IN_LISTS, &forced::BESIDE_THE_CEILING]);
    seen.assert_sets(&[&sets::IN_LISTS]);
    seen.assert_dispatched(&[&dispatched::IN_LISTS]);
    assert_eq!((incarnation, live, sent, published), (15, 64, 128, 128));
    assert!(sizes.iter().eq(&[1, 2, 3, 4, 5, 6, 7, 8]), "{sizes:?}");
    assert!(degrees_released.into_iter().eq(0..=8));
    assert!(degrees_published.into_iter().eq(0..=8));
}

/// Takes note of the crashes that are named on tables where much is condemned.
fn see_condemned(seen: &mut Seen) {
    let mut random = Random::new(22);
    for _ in 0..300 {
        let before = condemned_table(&mut random);
        for command in named(&mut random, &before) {
            let (mut words, mut ledger) = (before.clone(), sound_ledger(&mut random));
            let answer = step(&mut words, &mut ledger, command);
            seen.note_blames(blames::cases(&before, answer));
        }
    }
}

/// On lent tables beside lent ledgers a step of each letter is accepted, and each refusal is given.
#[test]
fn lent_tables_reach_everything() {
    let mut random = Random::new(21);
    let mut seen = Seen::default();
    for _ in 0..8_000 {
        let mut words = match random.below(12) {
            0 => wrong_length(&mut random),
            1 => damaged(&mut random).0,
            2 => damaged_gap(&mut random),
            3 => in_form_table(&mut random),
            4 | 5 => set_table(&mut random),
            6 => damaged_served(&mut random),
            7 | 8 => dispatch_table(&mut random),
            _ => gapped_table(&mut random),
        };
        let mut ledger = match random.below(8) {
            0 | 1 => damaged_ledger(&mut random),
            2 => nearly_full_ledger(&mut random),
            _ => sound_ledger(&mut random),
        };
        for _ in 0..10 {
            let mut sensible = named(&mut random, &words);
            sensible.push(Command::SetGap {
                gap: gap(&mut random),
            });
            let messages = set(&mut random, &words);
            sensible.extend([Command::ReleaseSet { messages }; 2]);
            sensible.extend([Command::Dispatch; 2]);
            let sensible = random.pick(&sensible).filter(|_| random.chance(50));
            let command = sensible.unwrap_or_else(|| senseless(&mut random));
            let before = words.clone();
            let ledger_before = ledger.clone();
            let full = ledger.first() == Some(&128);
            let answer = step(&mut words, &mut ledger, command);
            seen.note(command, answer);
            seen.note_causes(causes::cases(&before, command, answer, &words));
            seen.note_rollback(rollbacks::case(&before, answer));
            seen.note_blames(blames::cases(&before, answer));
            seen.note_desk(&before, full, answer, &words);
            seen.note_forced(forced::cases(&before, command, answer, &words));
            seen.note_sets(sets::cases(&before, &ledger_before, command, answer));
            seen.note_dispatched(dispatched::cases(&before, command, answer));
        }
    }
    see_condemned(&mut seen);
    println!(
        "on lent tables: {:#?}\n{:#?}\n{:#?}\nfor the desk: {:#?}",
        seen.causes, seen.rollbacks, seen.blames, seen.desk
    );
    assert!(seen.causes.keys().eq(&causes::on_lent_tables()));
    assert!(seen.rollbacks.keys().eq(&rollbacks::CASES));
    assert!(seen.blames.keys().eq(&blames::CASES));
    assert!(seen.desk.keys().eq(&DESK_ON_LENT));
    seen.assert_forced(&[&forced::IN_LISTS, &forced::ON_LENT_TOO]);
    seen.assert_sets(&[&sets::IN_LISTS, &sets::ON_LENT_TOO]);
    seen.assert_dispatched(&[&dispatched::IN_LISTS, &dispatched::ON_LENT_TOO]);
    assert!(seen.answers.iter().eq(&ANSWERS), "{:?}", seen.answers);
    assert_eq!(seen.refused(refusal::LENGTH), "CDHKLORSTXdqs");
    assert_eq!(seen.refused(refusal::FORM), "CDHKLRSTXdqs");
    assert_eq!(seen.refused(refusal::LEDGER), "ORs");
    assert_eq!(seen.refused(refusal::LEDGER_USED_UP), "Rs");
    for (refusal, letters) in REFUSED {
        assert_eq!(seen.refused(refusal), letters, "refused {refusal}");
    }
}
