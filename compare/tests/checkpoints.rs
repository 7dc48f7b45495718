//! The question for a checkpoint: whether the newest live interval of a controller is one. Held against the
//! reference and against the history, which knows only the steps and their answers, after each step of random
//! lists; and against the reference on lent tables of all kinds, with controllers that are there and others.

use compare::agreement::beside;
use compare::inputs::Tables;
use compare::{effort, is_checkpoint};
use reference::demand::Judge;
use reference::generate::{Profile, Walk};
use reference::history::History;
use reference::machine::{Answer, Command};
use reference::table::{self, Table, CONTROLLERS, LAST_NUMBER, WORDS};
use std::collections::BTreeMap;

/// How often each case came up.
type Cases = BTreeMap<&'static str, u64>;

/// These cases came up, each of them often enough, and no other.
fn assert_cases(cases: &Cases, expected: &[&str], least: u64) {
    println!("{cases:#?}");
    assert!(cases.keys().eq(expected), "{:?}", cases.keys());
    assert!(cases.values().all(|&count| count >= least));
}

/// What it is by the history: whether the last interval on the controller's chain is flagged.
fn in_history(history: &History, controller: u32) -> bool {
    let controller = history.controllers().get(controller as usize);
    let newest = controller.and_then(|controller| controller.chain.last());
    newest.is_some_and(|&id| history.intervals()[id].flagged)
}

/// What has just happened at which controller, where a step takes a checkpoint, or begins an interval that
/// the gap may have made one.
fn begun(command: Command, answer: Answer, words: &[u32]) -> Option<([&'static str; 2], u32)> {
    let table = Table::new(words)?;
    Some(match (command, answer) {
        (Command::Open { .. }, Answer::Done) => (["opening: none", "opening: one"], 0),
        (Command::Checkpoint { controller }, Answer::Done) => {
            (["checkpoint: none", "checkpoint: one"], controller)
        }
        (_, Answer::Delivered { message, .. }) => {
            let receiver = table.message(message).receiver;
            (["delivery: none", "delivery: one"], receiver)
        }
        (_, Answer::Crashed { controller, .. }) => (["crash: none", "crash: one"], controller),
        (_, Answer::Rolled { controller, .. }) => (["rollback: none", "rollback: one"], controller),
        _ => return None,
    })
}

/// Asks for every controller, and for the one past the last, after each step.
fn compare_list(profile: &'static Profile, seed: u64, cases: &mut Cases) {
    let mut judge = Judge::default();
    let together = beside(Walk::new(seed, profile), |command, answer, lent| {
        judge.feed(command, answer);
        for controller in 0..=CONTROLLERS as u32 {
            let told = is_checkpoint(&lent.table, controller);
            let by_words = table::is_checkpoint(&lent.table, controller);
            let history = judge.history();
            let by_steps = history.is_some_and(|history| in_history(history, controller));
            let label = || format!("{} list {seed}: {command:?}, {controller}", profile.name);
            assert_eq!([told; 2], [by_words, by_steps], "{}", label());
        }
        if let Some((names, controller)) = begun(command, answer, &lent.table) {
            let told = is_checkpoint(&lent.table, controller);
            *cases.entry(names[usize::from(told)]).or_default() += 1;
        }
    });
    assert_eq!(together, Ok(()), "{} list {seed}", profile.name);
}

/// Every checkpoint that the gap forces is told, by a delivery and by both kinds of starts.
#[test]
fn after_each_step_of_lists() {
    let mut cases = Cases::new();
    for profile in [&Profile::MIXED, &Profile::GAPS, &Profile::CEILING] {
        for seed in 0..effort(100) {
            compare_list(profile, seed, &mut cases);
        }
    }
    let expected = [
        "checkpoint: one",
        "crash: none",
        "crash: one",
        "delivery: none",
        "delivery: one",
        "opening: one",
        "rollback: none",
        "rollback: one",
    ];
    assert_cases(&cases, &expected, 60);
}

/// Without a gap no interval begins as a checkpoint.
#[test]
fn after_each_step_of_lists_without_a_gap() {
    let mut cases = Cases::new();
    for seed in 0..effort(100) {
        compare_list(&Profile::CRASHES, seed, &mut cases);
    }
    let expected = [
        "checkpoint: one",
        "crash: none",
        "delivery: none",
        "opening: one",
        "rollback: none",
    ];
    assert_cases(&cases, &expected, 60);
}

/// All controllers that a house can have, and others.
fn controllers() -> impl Iterator<Item = u32> {
    (0..=9).chain([15, 16, 63, 64, 1 << 16, 1 << 31, u32::MAX])
}

/// Whether the newest place is flagged in the first words of any length and form, if it can be found there.
fn flagged(words: &[u32], controller: u32) -> bool {
    let table = words.get(..WORDS).and_then(Table::new);
    table.is_some_and(|table| {
        let c = controller as usize;
        controller < table.n().min(CONTROLLERS as u32)
            && (1..=LAST_NUMBER).contains(&table.controller(c).live)
            && table.newest(c).flag == 1
    })
}

/// What kind of question this is.
fn case(words: &[u32], controller: u32) -> &'static str {
    let Some(table) = Table::new(words) else {
        return match flagged(words, controller) {
            false => "another length",
            true => "another length, flagged",
        };
    };
    match (table::in_form(words), flagged(words, controller)) {
        (false, false) => "out of form",
        (false, true) => "out of form, flagged",
        (true, true) => "a checkpoint",
        (true, false) if controller < table.n() => "no checkpoint",
        (true, false) if controller == table.n() => "controller n",
        (true, false) => "controller above n",
    }
}

#[test]
fn on_lent_tables() {
    let mut cases = Cases::new();
    for tables in Tables::ALL {
        for (lent, _) in tables.with_steps() {
            for controller in controllers() {
                let told = is_checkpoint(&lent.table, controller);
                let expected = table::is_checkpoint(&lent.table, controller);
                assert_eq!(told, expected, "{}: {controller}", tables.name);
                let case = case(&lent.table, controller);
                assert_eq!(told, case == "a checkpoint", "{case}");
                *cases.entry(case).or_default() += 1;
            }
        }
    }
    let expected = [
        "a checkpoint",
        "another length",
        "another length, flagged",
        "controller above n",
        "controller n",
        "no checkpoint",
        "out of form",
        "out of form, flagged",
    ];
    assert_cases(&cases, &expected, 100);
}

/// A wrong answer for a controller of a table in form.
type Wrong = fn(Table<&[u32]>, usize) -> bool;

const WRONG: [(&str, Wrong); 4] = [
    ("of the first interval", |table, c| {
        table.place(c, 0).flag == 1
    }),
    ("of the newest that is stable", |table, c| {
        let stable = table.controller(c).stable as usize;
        table.place(c, stable - 1).flag == 1
    }),
    ("whether all is stable", |table, c| {
        let counts = table.controller(c);
        counts.stable == counts.live
    }),
    ("of another controller", |table, _| {
        table.newest(0).flag == 1
    }),
];

/// The comparison can fail: each of these is another answer on many of the tables.
#[test]
fn wrong_answers_are_told_apart() {
    for (name, wrong) in WRONG {
        let differs = |words: &[u32]| {
            let table = Table::new(words).expect("a table of its length");
            let mut controllers = 0..table.n();
            controllers.any(|c| wrong(table, c as usize) != is_checkpoint(words, c))
        };
        let tables = Tables::GAPPED.with_steps().take(1_000);
        let found = tables.filter(|(lent, _)| differs(&lent.table)).count();
        assert!(found > 100, "{name}: {found}");
    }
}
