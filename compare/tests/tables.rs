//! Random lent tables with lent ledgers, that no list of steps leads to: both machines answer the same,
//! leave the same words in both, and find the same tables in form.

use compare::agreement::{on_lent, on_lent_with, Lent};
use compare::coverage::Seen;
use compare::inputs::{any_ledger, gaps_set, sets, steps, Tables};
use compare::{desk, effort, in_form};
use reference::generate::{
    damaged, damaged_gap, damaged_served, dispatch_table, gapped_table, in_form_table,
    nearly_full_ledger, set_table, Profile, Random, Walk,
};
use reference::machine::{self, Answer, Command, Fault};
use reference::table::state::{DROPPED, HELD, PUBLISHED};
use reference::table::{self, Message, Table, DESK, WORDS};
use reference::{blames, causes, dispatched, forced, ledger, refusal, rollbacks};

/// Does each of many steps on the table and the ledger as they were lent.
fn compare_table(lent: &Lent, steps: Vec<Command>, seen: &mut Seen) {
    assert_eq!(in_form(&lent.table), table::in_form(&lent.table));
    for command in steps {
        let agreed = on_lent(lent, command);
        let (answer, after) =
            agreed.unwrap_or_else(|difference| panic!("{command:?}: {difference:?}"));
        if let Answer::Refused { .. } | Answer::SetHeld { .. } | Answer::Idle = answer {
            assert!(after == *lent, "{command:?}: words changed");
        }
        seen.note(command, answer);
        seen.note_cases(causes::cases(&lent.table, command, answer, &after.table));
        seen.note_cases(rollbacks::case(&lent.table, answer));
        seen.note_cases(blames::cases(&lent.table, answer));
        seen.note_cases(desk::case(lent, command, answer));
        seen.note_cases(forced::cases(&lent.table, command, answer, &after.table));
        let sets = reference::sets::cases(&lent.table, &lent.ledger, command, answer);
        seen.note_cases(sets);
        seen.note_cases(dispatched::cases(&lent.table, command, answer));
    }
}

fn compare_tables(tables: Tables) -> Seen {
    let mut seen = Seen::default();
    for (lent, steps) in tables.with_steps() {
        compare_table(&lent, steps, &mut seen);
    }
    seen
}

#[test]
fn tables_in_form() {
    let seen = compare_tables(Tables::IN_FORM);
    assert!(seen.steps >= 80_000);
    seen.assert_cases(
        &causes::on_lent_tables(),
        &[
            &rollbacks::CASES,
            &blames::CASES,
            &desk::ON_LENT,
            &forced::WITHOUT_A_GAP,
        ],
    );
    let gapped = compare_tables(Tables::GAPPED);
    assert!(gapped.steps >= 80_000);
    let by_the_gap: [&[&str]; 2] = [&forced::IN_LISTS, &forced::ON_LENT_TOO];
    gapped.assert_cases(
        &causes::on_lent_tables(),
        &[
            &rollbacks::CASES,
            &blames::CASES,
            &desk::ON_LENT,
            &by_the_gap.concat(),
        ],
    );
    let condemned = compare_tables(Tables::CONDEMNED);
    assert!(condemned.steps >= 30_000);
    condemned.assert_often(&blames::CASES, 100);
    seen.join(gapped)
        .join(condemned)
        .join(sets_and_calls())
        .assert_all(refusal::CONTROLLER..);
}

/// What sets and the dispatcher come across on tables in form.
fn sets_and_calls() -> Seen {
    let sets = compare_tables(Tables::SETS);
    assert!(sets.steps >= 40_000);
    let of_sets: [&[&str]; 2] = [&reference::sets::IN_LISTS, &reference::sets::ON_LENT_TOO];
    sets.assert_cases::<&str>(&[], &of_sets);
    let calls = compare_tables(Tables::DISPATCH);
    assert!(calls.steps >= 40_000);
    calls.assert_often(&dispatched::IN_LISTS, 50);
    calls.assert_often(&dispatched::ON_LENT_TOO, 50);
    sets.join(calls)
}

#[test]
fn damaged_tables() {
    let seen = compare_tables(Tables::DAMAGED);
    assert!(seen.steps >= 60_000);
    let gaps = compare_tables(Tables::GAP_DAMAGED);
    assert!(gaps.steps >= 20_000);
    assert_eq!(gaps.refused(refusal::LENGTH), "CDHKLORSTXq");
    let sets = compare_tables(Tables::SETS_DAMAGED);
    assert!(sets.steps >= 10_000);
    assert_eq!(sets.refused(refusal::LENGTH), "s");
    let calls = compare_tables(Tables::DISPATCH_DAMAGED);
    assert!(calls.steps >= 15_000);
    assert_eq!(calls.refused(refusal::FORM), "CDHKLRSTXd");
    seen.join(gaps)
        .join(sets)
        .join(calls)
        .assert_all(refusal::FORM..);
}

#[test]
fn tables_of_another_length_and_noise() {
    let seen = compare_tables(Tables::NOISE);
    assert!(seen.steps >= 6_000);
    assert_eq!(seen.refused(refusal::LENGTH), "CDHKLORSTX");
    // An opening doesn't look at the form.
    assert_eq!(seen.refused(refusal::FORM), "CDHKLRSTX");
    // A release has been refused by then.
    assert_eq!(seen.refused(refusal::LEDGER), "O");
}

/// Lengths near the right one, near none, and at powers of two, of a table in form before it was cut.
#[test]
fn every_wrong_length_is_refused() {
    let mut random = Random::new(4);
    let mut whole = in_form_table(&mut random);
    whole.resize(4 * WORDS, 0);
    let lengths = [
        0, 1, 2, 5, 15, 16, 48, 255, 256, 257, 4_096, 12_336, 15_150, 15_151, 15_153, 15_154,
        16_384, 30_304, 60_608,
    ];
    let mut seen = Seen::default();
    for length in lengths {
        let lent = Lent {
            table: whole[..length].to_vec(),
            ledger: any_ledger(&mut random),
        };
        for _ in 0..10 {
            let mut steps = steps(&mut random, &lent.table);
            steps.extend(gaps_set(&mut random));
            steps.extend(sets(&mut random, &lent.table));
            steps.push(Command::Dispatch);
            compare_table(&lent, steps, &mut seen);
        }
        assert!(!in_form(&lent.table), "{length} words");
    }
    assert_eq!(seen.refused(refusal::LENGTH), "CDHKLORSTXdqs");
    assert!(in_form(&whole[..WORDS]));
}

/// The comparison can fail here too: each planted fault that no list shows is found on some table in
/// form, or damaged, with some ledger.
#[test]
fn every_planted_fault_that_no_list_shows_is_found() {
    let mut random = Random::new(6);
    let mut left: Vec<Fault> = Fault::PLANTED.to_vec();
    left.retain(|fault| !fault.shows_in_lists());
    assert!(!left.is_empty());
    for round in 0..1_000 {
        let table = match round % 7 {
            0 => in_form_table(&mut random),
            1 => gapped_table(&mut random),
            2 => damaged_gap(&mut random),
            3 => set_table(&mut random),
            4 => dispatch_table(&mut random),
            5 => damaged_served(&mut random),
            _ => damaged(&mut random).0,
        };
        let ledger = match round % 14 {
            3 => nearly_full_ledger(&mut random),
            _ => any_ledger(&mut random),
        };
        let lent = Lent { table, ledger };
        let mut steps = steps(&mut random, &lent.table);
        steps.extend(sets(&mut random, &lent.table));
        steps.push(Command::Dispatch);
        for command in steps {
            left.retain(|&fault| on_lent_with(fault, &lent, command).is_ok());
        }
        if left.is_empty() {
            return println!("all found by table {round}");
        }
    }
    panic!("not found: {left:?}");
}

/// A table as a long list of steps leaves it.
fn walked(seed: u64) -> Vec<u32> {
    let mut walk = Walk::new(seed, &Profile::FULL);
    walk.by_ref().for_each(drop);
    walk.table().to_vec()
}

/// Changes each word of the table, one at a time, to its neighbours and to edges of ranges, and
/// returns in how many cases the table is out of form by that.
fn change_each_word(random: &mut Random, mut words: Vec<u32>) -> usize {
    const EDGES: [u32; 12] = [0, 1, 5, 6, 7, 8, 9, 15, 16, 64, 65, 129];
    let mut spoilt = 0;
    for position in 0..WORDS {
        let word = words[position];
        let edges = [0, 1].map(|_| random.pick(&EDGES).unwrap_or(u32::MAX));
        for other in [
            word.wrapping_add(1),
            word.wrapping_sub(1),
            edges[0],
            edges[1],
        ] {
            words[position] = other;
            let expected = table::in_form(&words);
            assert_eq!(in_form(&words), expected, "{other} as word {position}");
            spoilt += usize::from(!expected);
        }
        words[position] = word;
    }
    spoilt
}

#[test]
fn every_word_has_the_same_range() {
    let mut random = Random::new(5);
    for seed in 0..effort(1) {
        for words in [walked(seed), in_form_table(&mut random)] {
            assert!(in_form(&words));
            let spoilt = change_each_word(&mut random, words);
            assert!((WORDS..4 * WORDS).contains(&spoilt), "{spoilt} spoilt");
        }
    }
}

/// A house of n controllers with one message, for this receiver and in this state.
fn with_message(n: u32, receiver: u32, state: u32) -> Vec<u32> {
    let (mut words, mut ledger) = (vec![0; WORDS], [0; ledger::WORDS]);
    machine::step(&mut words, &mut ledger, Command::Open { n, degree: 0 });
    let message = Message {
        state,
        receiver,
        number: 1,
        ..Message::default()
    };
    let mut table = Table::new(&mut words[..]).expect("a table of its length");
    table.set_sent(1);
    table.set_message(1, &message);
    words
}

/// A message for the desk is held, dropped or published, and no other is published. A receiver past the
/// last controller is none but the desk.
#[test]
fn receivers_and_states_fit_together() {
    let pairs = || (0..=10).flat_map(|receiver| (0..=8).map(move |state| (receiver, state)));
    for n in 1..=8 {
        for (receiver, state) in pairs() {
            let expected = match receiver {
                DESK => [HELD, DROPPED, PUBLISHED].contains(&state),
                _ => receiver < n && (HELD..=DROPPED).contains(&state),
            };
            let words = with_message(n, receiver, state);
            let formed = [in_form(&words), table::in_form(&words)];
            assert_eq!(formed, [expected; 2], "{n}: {receiver}, {state}");
        }
    }
}
