//! The ceiling on replay, on lists written by hand: where it is claimed it holds and a breach of it is
//! found, and where it isn't claimed it can be exceeded.

use reference::demand::{Breach, Judge};
use reference::facts;
use reference::generate::{Profile, Walk};
use reference::history::Misreading;
use reference::lines::{parse, render};
use reference::machine::{step, Answer, Command};
use std::collections::BTreeMap;

/// A step by its line, or by `gap q`, which the program hasn't.
fn command(line: &str) -> Command {
    match line.strip_prefix("gap ") {
        Some(gap) => Command::SetGap {
            gap: gap.parse().expect("a number"),
        },
        None => parse(line.as_bytes()).expect("a good line"),
    }
}

/// Steps with the sound machine's answers.
fn sound(script: &str) -> Vec<(Command, Answer)> {
    let mut table = vec![0; reference::table::WORDS];
    let mut ledger = vec![0; reference::ledger::WORDS];
    let commands = script.lines().map(command);
    commands
        .map(|command| (command, step(&mut table, &mut ledger, command)))
        .collect()
}

fn last(list: &[(Command, Answer)]) -> String {
    let (_, answer) = list.last().expect("a step");
    render(answer)
}

fn breaches_by(mut judge: Judge, list: &[(Command, Answer)]) -> Vec<Breach> {
    for &(command, answer) in list {
        judge.feed(command, answer);
    }
    judge.finish()
}

fn breaches(list: &[(Command, Answer)]) -> Vec<Breach> {
    breaches_by(Judge::default(), list)
}

/// Five messages that 1 takes from 0, numbered from here on.
fn five(first: u32) -> String {
    let messages = first..first + 5;
    let lines = messages.map(|message| format!("S 0 1 7\nR {message}\nD {message}\n"));
    lines.collect()
}

#[test]
fn what_is_replayed_is_less_than_the_gap() {
    // What is forced is stable: nothing else is logged here, so the latest checkpoint is all that is kept.
    for (gap, kept) in [(1, 6), (2, 5), (3, 4), (4, 5), (5, 6), (6, 1)] {
        let list = sound(&format!("O 2 2\ngap {gap}\n{}X 1", five(1)));
        let lost = 6 - kept;
        assert_eq!(last(&list), format!("crashed 1 0 {kept} {lost} 0"));
        assert_eq!(breaches(&list), []);
    }
    // What is logged and not forced is replayed: as much as a gap of 6 allows.
    let list = sound(&format!("O 2 2\ngap 6\n{}L 1 5\nX 1", five(1)));
    assert_eq!(last(&list), "crashed 1 0 6 0 5");
    assert_eq!(breaches(&list), []);
}

/// With any other figure in its last answer the list breaks the claim from the gap on.
#[test]
fn a_crash_above_it_is_found() {
    for figure in 0..10 {
        let mut list = sound(&format!("O 2 2\ngap 6\n{}L 1 5\nX 1", five(1)));
        let position = list.len() - 1;
        let Some((_, Answer::Crashed { replayed, .. })) = list.last_mut() else {
            panic!("no crash");
        };
        *replayed = figure;
        let above = Breach::AboveCeiling {
            position,
            replayed: figure,
            most: 5,
        };
        let expected = if figure > 5 { vec![above] } else { vec![] };
        assert_eq!(breaches(&list), expected, "replayed {figure}");
    }
}

#[test]
fn a_rollback_above_it_is_found() {
    let script = "O 3 3\ngap 2\nS 2 0 7\nR 1\nD 1\nS 0 1 7\nR 2\nD 2\nX 0\nH 1 0 0";
    let mut list = sound(script);
    assert_eq!(last(&list), "rolled 1 1 1 0 0 0");
    assert_eq!(breaches(&list), []);
    let position = list.len() - 1;
    list[position].1 = Answer::Rolled {
        controller: 1,
        kept: 1,
        undone: 1,
        replayed: 2,
        crashed: 0,
        incarnation: 0,
    };
    let above = Breach::AboveCeiling {
        position,
        replayed: 2,
        most: 1,
    };
    assert_eq!(breaches(&list), [above]);
}

/// "The largest Q set so far": what stands below it was begun under a wider gap.
#[test]
fn the_largest_gap_counts_and_not_the_newest() {
    let list = sound(&format!("O 2 2\ngap 6\n{}L 1 5\ngap 2\nX 1", five(1)));
    assert_eq!(last(&list), "crashed 1 0 6 0 5");
    assert_eq!(breaches(&list), []);
    let newest = Judge::misreading(Misreading::CeilingOfTheNewestGap);
    let accused = Breach::AboveCeiling {
        position: list.len() - 1,
        replayed: 5,
        most: 1,
    };
    assert_eq!(breaches_by(newest, &list), [accused]);
    // "So far": a gap that is set after the crash doesn't help it, nor one that is refused.
    let mut list = sound("O 2 2\ngap 2\nX 1\ngap 6\nX 1");
    assert_eq!(breaches(&list), []);
    for (at, most) in [(2, 1), (4, 5)] {
        let Answer::Crashed { replayed, .. } = &mut list[at].1 else {
            panic!("no crash");
        };
        *replayed = most + 1;
    }
    let above = |position, most| Breach::AboveCeiling {
        position,
        replayed: most + 1,
        most,
    };
    assert_eq!(breaches(&list), [above(2, 1), above(4, 5)]);
    let mut list = sound("O 2 2\ngap 2\ngap 65\nX 1");
    assert_eq!(render(&list[2].1), "refused 5");
    list[3].1 = Answer::Crashed {
        controller: 1,
        incarnation: 0,
        kept: 1,
        lost: 0,
        replayed: 2,
    };
    assert_eq!(breaches(&list), [above(3, 1)]);
}

/// Where the gap was set later, or was off in between, nothing is claimed, and more is replayed.
#[test]
fn without_a_gap_from_the_start_it_can_be_exceeded() {
    let work = five(1);
    for script in [
        format!("O 2 2\n{work}L 1 5\ngap 2\nX 1"),
        format!("O 2 2\ngap 2\ngap 0\n{work}L 1 5\ngap 2\nX 1"),
        format!("O 2 2\ngap 0\ngap 2\ngap 0\n{work}L 1 5\ngap 2\nX 1"),
        format!("O 2 2\ngap 3\nO 2 2\n{work}L 1 5\ngap 3\nX 1"),
    ] {
        let list = sound(&script);
        assert!(last(&list).ends_with(" 0 6 0 5"), "{script}");
        assert_eq!(breaches(&list), [], "{script}");
    }
    // By a rollback, too: five kept, and one undone that rests on what 2 has lost.
    let lost = "S 0 2 7\nR 6\nD 6\nS 2 1 7\nR 7\nD 7\nX 2\ngap 2\nH 1 2 0";
    let list = sound(&format!("O 3 3\n{work}{lost}"));
    assert_eq!(last(&list), "rolled 1 6 1 5 2 0");
    assert_eq!(breaches(&list), []);
}

/// "The first step after opening": a step before it, a refused one too, and nothing is claimed.
#[test]
fn only_the_first_step_makes_the_claim() {
    let wrong = (command("X 1"), {
        let list = sound("O 2 2\nX 1");
        let Answer::Crashed { incarnation, .. } = list[1].1 else {
            panic!("no crash");
        };
        Answer::Crashed {
            controller: 1,
            incarnation,
            kept: 1,
            lost: 0,
            replayed: 9,
        }
    });
    for (script, claimed) in [
        ("O 2 2\ngap 2", true),
        ("O 2 2\ngap 2\nK 0 1\ngap 1", true),
        ("O 2 2\ngap 2\nO 9 9", true),
        ("O 2 2\nO 2 2\ngap 2", true),
        ("O 2 2", false),
        ("O 2 2\nK 0 1\ngap 2", false),
        ("O 2 2\ngap 65\ngap 2", false),
        ("O 2 2\nO 9 9\ngap 2", false),
        ("O 2 2\ngap 2\nO 2 2", false),
        ("O 2 2\ngap 2\ngap 0", false),
        ("O 2 2\ngap 2\ngap 0\ngap 2", false),
        ("gap 2\nO 2 2", false),
    ] {
        let mut list = sound(script);
        list.push(wrong);
        let found = breaches(&list);
        let above = |breach: &Breach| matches!(breach, Breach::AboveCeiling { most: 1, .. });
        assert_eq!(found.iter().any(above), claimed, "{script:?}: {found:?}");
    }
}

/// The history's own figure: that of the flagged intervals which it keeps.
#[test]
fn the_history_knows_what_is_replayed() {
    let script = format!("O 2 2\ngap 4\n{}L 1 1\nX 1\nX 1", five(1));
    let mut judge = Judge::default();
    let mut figures = Vec::new();
    for (command, answer) in sound(&script) {
        if let (Some(history), Answer::Crashed { replayed, .. }) = (judge.history(), answer) {
            assert!(facts::replayed_agrees(history, answer));
            let mut other = answer;
            if let Answer::Crashed { replayed, .. } = &mut other {
                *replayed += 1;
            }
            assert!(!facts::replayed_agrees(history, other));
            figures.push((history.gap(), replayed));
        }
        judge.feed(command, answer);
    }
    // Number 5 is forced; 6 is logged, and 7 is the first crash's start.
    assert_eq!(figures, [(4, 1), (4, 2)]);
}

/// Random lists come up to the ceiling: with narrow gaps and wide ones.
#[test]
fn lists_come_up_to_it() {
    let mut reached = BTreeMap::new();
    for (profile, lists) in [(&Profile::CEILING, 400), (&Profile::LONG, 100)] {
        for seed in 0..lists {
            let mut largest = 0;
            for (command, answer) in Walk::new(seed, profile) {
                match (command, answer) {
                    (Command::Open { .. }, Answer::Done) => largest = 0,
                    (Command::SetGap { gap }, Answer::Done) => largest = largest.max(gap),
                    (_, Answer::Crashed { replayed, .. } | Answer::Rolled { replayed, .. })
                        if replayed + 1 == largest =>
                    {
                        *reached.entry(largest).or_insert(0) += 1
                    }
                    _ => {}
                }
            }
        }
    }
    println!("crashes and rollbacks that replay as much as the gap allows: {reached:?}");
    assert!((1..=6).all(|gap| reached.contains_key(&gap)), "{reached:?}");
    assert!(reached.keys().any(|&gap| gap > 12), "{reached:?}");
}
