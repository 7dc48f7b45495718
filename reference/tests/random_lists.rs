//! Random lists of the sound machine: demand 3 and the ceiling on replay hold, the table and the ledger
//! agree with their history after each step, so do the replay figures, and a refused step, a set that is held
//! and an idle dispatcher change no word of either.

use reference::demand::Judge;
use reference::facts;
use reference::generate::{Profile, Walk};
use reference::machine::Answer;

/// Walks so many lists, and returns how many steps they had.
fn walk_lists(profile: &'static Profile, lists: u64) -> usize {
    (0..lists).map(|seed| walk_list(profile, seed)).sum()
}

fn walk_list(profile: &'static Profile, seed: u64) -> usize {
    let mut walk = Walk::new(seed, profile);
    let mut judge = Judge::default();
    let mut before = walk.table().to_vec();
    let mut ledger_before = walk.ledger().to_vec();
    let mut steps = 0;
    while let Some((command, answer)) = walk.next() {
        let label = || format!("{} list {seed}, step {steps}: {command:?}", profile.name);
        if matches!(
            answer,
            Answer::Refused { .. } | Answer::SetHeld { .. } | Answer::Idle
        ) {
            let unwritten = before == walk.table() && ledger_before == walk.ledger();
            assert!(unwritten, "{}: {answer:?}, and wrote", label());
        } else {
            before.copy_from_slice(walk.table());
            ledger_before.copy_from_slice(walk.ledger());
        }
        let before_it = judge.history();
        let replayed = before_it.is_none_or(|history| facts::replayed_agrees(history, answer));
        assert!(replayed, "{}: replayed otherwise", label());
        judge.feed(command, answer);
        judge.see_ledger(walk.ledger());
        let history = judge.history().expect("a list begins with an opening");
        let facts = facts::check(walk.table(), walk.ledger(), history);
        assert_eq!(facts, Ok(()), "{}", label());
        steps += 1;
    }
    assert_eq!(judge.finish(), [], "{} list {seed}", profile.name);
    steps
}

#[test]
fn mixed() {
    assert!(walk_lists(&Profile::MIXED, 8_000) > 500_000);
}

#[test]
fn crashes() {
    assert!(walk_lists(&Profile::CRASHES, 3_500) > 400_000);
}

#[test]
fn partial() {
    assert!(walk_lists(&Profile::PARTIAL, 2_500) > 250_000);
}

#[test]
fn full() {
    assert!(walk_lists(&Profile::FULL, 80) > 40_000);
}

#[test]
fn worn() {
    assert!(walk_lists(&Profile::WORN, 250) > 60_000);
}

#[test]
fn desk() {
    assert!(walk_lists(&Profile::DESK, 120) > 30_000);
}

#[test]
fn gaps() {
    assert!(walk_lists(&Profile::GAPS, 3_000) > 300_000);
}

#[test]
fn ceiling() {
    assert!(walk_lists(&Profile::CEILING, 3_000) > 400_000);
}

#[test]
fn long() {
    assert!(walk_lists(&Profile::LONG, 120) > 50_000);
}

#[test]
fn sets() {
    assert!(walk_lists(&Profile::SETS, 2_000) > 250_000);
}

#[test]
fn reels() {
    assert!(walk_lists(&Profile::REELS, 600) > 100_000);
}

#[test]
fn dispatch() {
    assert!(walk_lists(&Profile::DISPATCH, 1_500) > 250_000);
}

#[test]
fn crowded() {
    assert!(walk_lists(&Profile::CROWDED, 100) > 50_000);
}

#[test]
fn wild() {
    assert!(walk_lists(&Profile::WILD, 6_000) > 200_000);
}
