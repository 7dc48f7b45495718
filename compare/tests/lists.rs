//! Random lists of steps: after each step the answer and every word of the table and of the ledger
//! agree, the table is in form, the ledger is the one that the steps say, and demand 3, the ceiling on replay,
//! the crash that an answer names and that the dispatcher starves nobody hold of the proved machine's own answers.

use compare::agreement::{beside, Buffer, Difference, Lent, Parting};
use compare::coverage::{Extent, Seen};
use compare::inputs::LISTS;
use compare::{desk, effort, in_form};
use reference::causes::{self, Offers};
use reference::demand::Judge;
use reference::dispatched::{self, Rounds};
use reference::generate::{Profile, Walk};
use reference::machine::{Answer, Command, Fault};
use reference::{blames, facts, forced, refusal, rollbacks, sets};
use std::thread;

fn compare_list(profile: &'static Profile, seed: u64, seen: &mut Seen) {
    let mut judge = Judge::default();
    let mut opened = false;
    let mut offers = Offers::default();
    let mut rounds = Rounds::default();
    let walk = Walk::new(seed, profile);
    let mut before = Lent::by(&walk);
    let together = beside(walk, |command, answer, lent| {
        let label = || format!("{} list {seed}: {command:?}, {answer:?}", profile.name);
        opened |= matches!((command, answer), (Command::Open { .. }, Answer::Done));
        assert_eq!(in_form(&lent.table), opened, "{}", label());
        if let Answer::Refused { .. } | Answer::SetHeld { .. } | Answer::Idle = answer {
            assert!(*lent == before, "{}: words changed", label());
        }
        let fair = rounds.feed(&before.table, command, answer);
        assert!(fair.is_ok(), "{}: {fair:?}", label());
        let before_it = judge.history();
        let replayed = before_it.is_none_or(|history| facts::replayed_agrees(history, answer));
        assert!(replayed, "{}: not what the history has", label());
        let beside = forced::beside_ceiling(judge.ceiling(), &before.table, answer);
        seen.note_cases(beside);
        judge.feed(command, answer);
        judge.see_ledger(&lent.ledger);
        seen.note(command, answer);
        let (before_it, after_it) = (&before.table, &lent.table);
        seen.note_cases(causes::cases(before_it, command, answer, after_it));
        seen.note_cases(offers.feed(before_it, command, answer, after_it));
        seen.note_cases(rollbacks::case(before_it, answer));
        seen.note_cases(blames::cases(before_it, answer));
        seen.note_cases(desk::case(&before, command, answer));
        seen.note_cases(forced::cases(before_it, command, answer, after_it));
        seen.note_cases(sets::cases(before_it, &before.ledger, command, answer));
        seen.note_cases(dispatched::cases(before_it, command, answer));
        seen.note_extent(lent);
        before.clone_from(lent);
    });
    assert_eq!(together, Ok(()), "{} list {seed}", profile.name);
    assert_eq!(judge.finish(), [], "{} list {seed}", profile.name);
}

fn compare_lists((profile, lists): (&'static Profile, u64)) -> Seen {
    let mut seen = Seen::default();
    for seed in 0..effort(lists) {
        compare_list(profile, seed, &mut seen);
    }
    println!("{}: {} steps", profile.name, seen.steps);
    seen
}

#[test]
fn the_machines_agree_on_every_step() {
    let workers = LISTS.map(|lists| thread::spawn(move || compare_lists(lists)));
    let seen = workers
        .into_iter()
        .map(|worker| worker.join().expect("a comparison that went well"))
        .fold(Seen::default(), Seen::join);
    assert!(seen.steps > 300_000, "only {} steps", seen.steps);
    // No list is lent a table that is too short or, after its opening, not in form; nor a ledger that
    // is refused. And there are no more messages than pairs in the ledger.
    seen.assert_all(refusal::CONTROLLER..=refusal::INCARNATIONS_USED_UP);
    seen.assert_all(refusal::SENDERS..=refusal::SENDERS);
    assert_eq!(seen.refused(refusal::LEDGER), "");
    assert_eq!(seen.refused(refusal::LEDGER_USED_UP), "");
    seen.assert_cases(
        &causes::IN_LISTS,
        &[
            &rollbacks::CASES,
            &blames::CASES,
            &desk::IN_LISTS,
            &forced::IN_LISTS,
            &forced::BESIDE_THE_CEILING,
            &sets::IN_LISTS,
            &dispatched::IN_LISTS,
        ],
    );
    assert_eq!(seen.extent, Extent::UTMOST);
}

/// Where the proved machine parts from a faulty one, if it does in one of these lists.
fn parting(fault: Fault) -> Option<Box<Parting>> {
    let profiles = [
        &Profile::CRASHES,
        &Profile::PARTIAL,
        &Profile::WORN,
        &Profile::GAPS,
        &Profile::CEILING,
        &Profile::SETS,
        &Profile::REELS,
        &Profile::DISPATCH,
        &Profile::CROWDED,
    ];
    profiles.into_iter().find_map(|profile| {
        (0..20).find_map(|seed| {
            let walk = Walk::with_fault(seed, profile, fault);
            beside(walk, |_, _, _| ()).err()
        })
    })
}

/// The comparison can fail: a machine with any one of the planted faults doesn't pass for the same. The
/// faults that no list shows are found on lent tables and ledgers.
#[test]
fn every_planted_fault_that_lists_show_is_found() {
    let shown = |fault: &Fault| fault.shows_in_lists();
    for fault in Fault::PLANTED.into_iter().filter(shown) {
        let found = parting(fault).unwrap_or_else(|| panic!("{fault:?} is not found"));
        println!("{fault:?}: {found:?}");
    }
    assert_eq!(parting(Fault::None), None);
}

/// All parts of the comparison can fail: some faults show in an answer first, some in a word of the
/// table, and some in the ledger alone.
#[test]
fn faults_are_found_by_answers_and_by_words() {
    let difference = |fault| parting(fault).map(|parting| parting.difference);
    let by_answer = difference(Fault::InventsReplayed);
    assert!(matches!(by_answer, Some(Difference::Answer { .. })));
    for (fault, place) in [
        (Fault::KnownNotRaised, Buffer::Table),
        (Fault::FlaggedWithoutLogging, Buffer::Table),
        (Fault::CrashStartNotCounted, Buffer::Table),
        (Fault::PublishedWithoutEntry, Buffer::Ledger),
        (Fault::EntryOutOfOrder, Buffer::Ledger),
        (Fault::FirstLetOut, Buffer::Table),
        (Fault::PublishedInTableOrder, Buffer::Ledger),
        (Fault::ServedNotWritten, Buffer::Table),
    ] {
        let by_word = difference(fault);
        let found = matches!(by_word, Some(Difference::Word { buffer, .. }) if buffer == place);
        assert!(found, "{fault:?}: {by_word:?}");
    }
}
