//! Every planted fault is found, and by which means.

mod found;

use found::By::{
    self, Blame, Ceiling, Demand, Fair, Ledger, Lent, Lists, Published, Replayed, Unreadable,
};
use found::{Found, CHECKS};
use reference::demand::Judge;
use reference::dispatched::Rounds;
use reference::facts;
use reference::generate::{
    condemned_table, damaged, damaged_gap, damaged_ledger, damaged_served, dispatch_table, gap,
    gapped_table, named, senseless, set, set_table, sound_ledger, Profile, Random, Walk,
};
use reference::history::Misreading;
use reference::machine::{step, step_with, Command, Fault};

/// By which checks each fault is found. One that lists show is found on what is lent, too.
const EXPECTED: [(Fault, &[By]); Fault::PLANTED.len()] = [
    (
        Fault::LargerAcrossIncarnations,
        &[Demand, Blame, Lists, Lent],
    ),
    (
        Fault::NumbersWithoutIncarnations,
        &[Demand, Published, Blame, Lists, Lent],
    ),
    (Fault::StoredPairsCounted, &[Lists, Lent]),
    (Fault::EndWordOnRollback, &[Demand, Blame, Lists, Lent]),
    (
        Fault::KeptNotLogged,
        &[Demand, Published, Blame, Replayed, Lists, Lent],
    ),
    (Fault::KnownNotRaised, &[Lists, Lent]),
    (Fault::HeldKept, &[Lists, Lent]),
    // Whatever is offered again, a delivery drops what is condemned: demand 3 sees no difference.
    (Fault::LostGiven, &[Lists, Lent]),
    (Fault::EndsBeforeCrash, &[Lists, Lent]),
    (Fault::CondemnedOffered, &[Lists, Lent]),
    (Fault::RefusesAll, &[Lists, Lent]),
    // It says that it opened, and leaves the ledger as it was.
    (Fault::DoneToAll, &[Ledger, Unreadable, Lists, Lent]),
    (Fault::WritesNoWord, &[Ledger, Lists, Lent]),
    (Fault::EchoesAfterFirst, &[Demand, Blame, Lists, Lent]),
    (Fault::InventsLost, &[Lists, Lent]),
    (Fault::InventsUndone, &[Lists, Lent]),
    (Fault::InventsReplayed, &[Ceiling, Replayed, Lists, Lent]),
    (Fault::WaitsBeforeLooking, &[Lists, Lent]),
    (Fault::HeldBeforeLooking, &[Lists, Lent]),
    // It hears even controllers that the house doesn't have.
    (
        Fault::HeardBeforeLooking,
        &[Demand, Blame, Unreadable, Lists, Lent],
    ),
    (Fault::NeverHears, &[Lists, Lent]),
    // What went out is lost or undone later.
    (Fault::PublishedByTheDegree, &[Published, Lists, Lent]),
    (Fault::PublishedWithoutEntry, &[Ledger, Lists, Lent]),
    (Fault::LedgerWrittenOnHeld, &[Ledger, Lists, Lent]),
    (Fault::LedgerNotCleared, &[Ledger, Lists, Lent]),
    (Fault::EntryOutOfOrder, &[Ledger, Lists, Lent]),
    // From an opening a ledger is full only once no message is left to be held.
    (Fault::FullBeforeHeld, &[Lent]),
    (Fault::PublishedElsewhereInForm, &[Lent]),
    (Fault::DeskChangedAsCause, &[Lent]),
    (Fault::FourteenOnlyForTheDesk, &[Lent]),
    (Fault::LedgerLookedAtByAll, &[Lent]),
    (Fault::DegreeBeforeLedger, &[Lent]),
    (Fault::FigureOfThePlaceItself, &[Replayed, Lists, Lent]),
    (Fault::FigureNotRaised, &[Ceiling, Replayed, Lists, Lent]),
    (Fault::FirstPlaceLeftOut, &[Ceiling, Replayed, Lists, Lent]),
    // It leaves an interval live that rests on lost work.
    (
        Fault::CondemnedPlacePassedOver,
        &[Demand, Blame, Lists, Lent],
    ),
    // What the history takes for stable is lost, from here on.
    (
        Fault::FlaggedWithoutLogging,
        &[Demand, Published, Blame, Replayed, Lists, Lent],
    ),
    (
        Fault::LoggedOnlyBefore,
        &[Demand, Blame, Replayed, Lists, Lent],
    ),
    (Fault::ForcedNotKnown, &[Lists, Lent]),
    (
        Fault::CrashStartNotCounted,
        &[Demand, Ceiling, Blame, Replayed, Lists, Lent],
    ),
    (
        Fault::RollbackStartNotCounted,
        &[Demand, Published, Ceiling, Blame, Replayed, Lists, Lent],
    ),
    (
        Fault::MoreThanTheGap,
        &[Demand, Published, Ceiling, Blame, Replayed, Lists, Lent],
    ),
    (
        Fault::ForcedWhenOff,
        &[Demand, Published, Blame, Replayed, Lists, Lent],
    ),
    // In lists all that is flagged is stable.
    (Fault::StableFlagsOnly, &[Lent]),
    (
        Fault::RemovedFlagsCounted,
        &[Demand, Ceiling, Blame, Replayed, Lists, Lent],
    ),
    (Fault::GapOf65Taken, &[Lists, Lent]),
    // No step leaves such a table.
    (Fault::GapOf65InForm, &[Lent]),
    // Where a gap is set the dispatcher is refused.
    (Fault::GapOutOfForm, &[Fair, Lists, Lent]),
    (Fault::GapNotCleared, &[Demand, Replayed, Lists, Lent]),
    // The masks of a sender's messages are nested in lists: the largest is the union. But a reading that
    // could go by itself goes with others, and is never lost for it.
    (Fault::EachMaskByItself, &[Lists, Lent]),
    (Fault::LargestMaskForTheUnion, &[Lent]),
    (Fault::StoredPairsJoined, &[Lists, Lent]),
    (Fault::SetByTheDegree, &[Published, Lists, Lent]),
    (Fault::DoubledTaken, &[Lists, Lent]),
    (Fault::SeventeenTaken, &[Lists, Lent]),
    (Fault::NoneTaken, &[Lists, Lent]),
    (Fault::SendersTaken, &[Lists, Lent]),
    (Fault::LengthBeforeMessages, &[Lists, Lent]),
    (Fault::SendersBeforeStates, &[Lists, Lent]),
    (Fault::FirstLetOut, &[Ledger, Lists, Lent]),
    (Fault::ThoseWithinLetOut, &[Ledger, Lists, Lent]),
    // What is delivered with less than it rests on stays live when that is lost.
    (Fault::OneVectorForAll, &[Demand, Blame, Lists, Lent]),
    (Fault::PublishedInTableOrder, &[Ledger, Lists, Lent]),
    // From an opening there is always room.
    (Fault::RoomForTheFirst, &[Lent]),
    (Fault::SetFullBeforeHeld, &[Lent]),
    (Fault::SetLedgerOnlyForTheDesk, &[Lent]),
    (Fault::HighestBlamed, &[Blame, Lists, Lent]),
    (Fault::NewestIncarnationBlamed, &[Blame, Lists, Lent]),
    (Fault::NewestCrashBlamed, &[Blame, Lists, Lent]),
    (Fault::OwnEndsBlamed, &[Blame, Lists, Lent]),
    (Fault::HearerBlamed, &[Blame, Lists, Lent]),
    (Fault::RoundFromTheServed, &[Fair, Lists, Lent]),
    (Fault::RoundFromZero, &[Fair, Lists, Lent]),
    // In lists the controller last served is one of the house.
    (Fault::LessNOnce, &[Lent]),
    (Fault::HighestNumberTaken, &[Lists, Lent]),
    (Fault::LowestOfAll, &[Fair, Lists, Lent]),
    (Fault::FullReceiverChosen, &[Fair, Lists, Lent]),
    (Fault::WaitingTaken, &[Fair, Unreadable, Lists, Lent]),
    (Fault::WaitingEndsTheRound, &[Fair, Lists, Lent]),
    (Fault::DroppedPassedOver, &[Fair, Lists, Lent]),
    (Fault::IdleBeforeLooking, &[Fair, Lists, Lent]),
    // Nobody has a message when it goes on, so that nobody is starved by it.
    (Fault::IdleWrites, &[Lists, Lent]),
    (Fault::ServedNotWritten, &[Fair, Lists, Lent]),
    (Fault::DroppedNotServed, &[Fair, Lists, Lent]),
    (Fault::DeliveryServes, &[Fair, Lists, Lent]),
    (Fault::ServedNotOpened, &[Lists, Lent]),
    // No step leaves such a table.
    (Fault::Served8InForm, &[Lent]),
    (Fault::ServedBelowNInForm, &[Lent]),
];

const PROFILES: [(&Profile, u64); 9] = [
    (&Profile::CRASHES, 50),
    (&Profile::PARTIAL, 30),
    (&Profile::WORN, 15),
    (&Profile::GAPS, 40),
    (&Profile::CEILING, 40),
    (&Profile::SETS, 40),
    (&Profile::REELS, 20),
    (&Profile::DISPATCH, 30),
    (&Profile::CROWDED, 14),
];

/// Walks one list of a faulty machine, and holds each step against the sound one.
fn inspect_list(fault: Fault, profile: &'static Profile, seed: u64, found: &mut Found) {
    let mut walk = Walk::with_fault(seed, profile, fault);
    let mut judge = Judge::default();
    let (mut table, mut ledger) = (walk.table().to_vec(), walk.ledger().to_vec());
    let mut rounds = Rounds::default();
    let (mut differs, mut replays, mut fair) = (false, true, true);
    while let Some((command, answer)) = walk.next() {
        fair &= rounds.feed(&table, command, answer).is_ok();
        let before_it = judge.history();
        replays &= before_it.is_none_or(|history| facts::replayed_agrees(history, answer));
        judge.feed(command, answer);
        judge.see_ledger(walk.ledger());
        differs |= step(&mut table, &mut ledger, command) != answer;
        differs |= table != walk.table() || ledger != walk.ledger();
        table.copy_from_slice(walk.table());
        ledger.copy_from_slice(walk.ledger());
    }
    found.add_breaches(&judge.finish());
    found.add(Replayed, !replays);
    found.add(Fair, !fair);
    found.add(Lists, differs);
}

fn inspect_lists(fault: Fault) -> Found {
    let mut found = Found::default();
    for (profile, lists) in PROFILES {
        for seed in 0..lists {
            inspect_list(fault, profile, seed, &mut found);
        }
    }
    found
}

/// How many single steps are tried on what is lent, how many sets, how many deliveries and hearings where much is
/// condemned, and how many calls of the dispatcher.
const LENT_STEPS: usize = 2_500;
const LENT_SETS: usize = 1_500;
const LENT_CONDEMNED: usize = 500;
const LENT_CALLS: usize = 1_000;

fn has_most_rules(command: Command) -> bool {
    matches!(
        command,
        Command::Release { .. } | Command::Deliver { .. } | Command::Hear { .. }
    )
}

/// A table, a ledger and a step.
fn lent(random: &mut Random) -> (Vec<u32>, Vec<u32>, Command) {
    let table = match random.below(8) {
        0 => damaged_gap(random),
        1 | 2 => damaged(random).0,
        _ => gapped_table(random),
    };
    let ledger = match random.below(3) {
        0 => damaged_ledger(random),
        _ => sound_ledger(random),
    };
    let steps = named(random, &table);
    let mut often = steps.clone();
    often.retain(|step| has_most_rules(*step));
    let gap = gap(random);
    let chosen = match random.below(16) {
        0..=6 => random.pick(&often),
        7..=12 => random.pick(&steps),
        13 => Some(Command::SetGap { gap }),
        _ => None,
    };
    (table, ledger, chosen.unwrap_or_else(|| senseless(random)))
}

/// A table, mostly with many messages held, a ledger and a set.
fn lent_set(random: &mut Random) -> (Vec<u32>, Vec<u32>, Command) {
    let (mut table, ledger, _) = lent(random);
    if random.chance(80) {
        table = set_table(random);
    }
    let messages = set(random, &table);
    (table, ledger, Command::ReleaseSet { messages })
}

/// A table on which much is condemned, a ledger, and a delivery or a hearing.
fn lent_condemned(random: &mut Random) -> (Vec<u32>, Vec<u32>, Command) {
    let table = condemned_table(random);
    let mut steps = named(random, &table);
    steps.retain(|step| matches!(step, Command::Deliver { .. } | Command::Hear { .. }));
    let chosen = random.pick(&steps);
    let command = chosen.unwrap_or_else(|| senseless(random));
    (table, sound_ledger(random), command)
}

/// A table, mostly with many messages released, a ledger, and the dispatcher, now and then a delivery.
fn lent_call(random: &mut Random) -> (Vec<u32>, Vec<u32>, Command) {
    let table = match random.below(8) {
        0 => damaged_served(random),
        _ => dispatch_table(random),
    };
    let mut steps = named(random, &table);
    steps.retain(|step| matches!(step, Command::Deliver { .. } | Command::Open { .. }));
    let other = random.pick(&steps).filter(|_| random.chance(15));
    let command = other.unwrap_or(Command::Dispatch);
    (table, sound_ledger(random), command)
}

/// What is lent, with a step, and how often.
type Make = fn(&mut Random) -> (Vec<u32>, Vec<u32>, Command);

const LENT: [(Make, u64, usize); 4] = [
    (lent, 31, LENT_STEPS),
    (lent_set, 32, LENT_SETS),
    (lent_condemned, 33, LENT_CONDEMNED),
    (lent_call, 34, LENT_CALLS),
];

/// In how many single steps each machine differs from the sound one.
fn inspect_lent(faults: &[Fault]) -> Vec<usize> {
    let mut differences = vec![0; faults.len()];
    let made = LENT.into_iter().flat_map(|(make, seed, count)| {
        let mut random = Random::new(seed);
        (0..count).map(move |_| make(&mut random))
    });
    for (table, ledger, command) in made {
        let outcome = |fault| {
            let (mut table, mut ledger) = (table.clone(), ledger.clone());
            let answer = step_with(fault, &mut table, &mut ledger, command);
            (answer, table, ledger)
        };
        let sound = outcome(Fault::None);
        for (count, &fault) in differences.iter_mut().zip(faults) {
            *count += usize::from(outcome(fault) != sound);
        }
    }
    differences
}

#[test]
fn every_fault_is_found_by_these_means() {
    let lent = inspect_lent(&Fault::PLANTED);
    let lists: u64 = PROFILES.iter().map(|(_, lists)| lists).sum();
    println!(
        "of {lists} lists, and of {LENT_STEPS} steps, {LENT_SETS} sets, {LENT_CONDEMNED} \
         deliveries and hearings and {LENT_CALLS} calls of the dispatcher on what is lent:"
    );
    print_row("", CHECKS.map(|by| format!("{by:?}")));
    let mut found = EXPECTED.map(|(fault, _)| (fault, inspect_lists(fault)));
    for ((fault, found), lent) in found.iter_mut().zip(lent) {
        found.0[Lent as usize] = lent;
        print_row(
            &format!("{fault:?}"),
            found.0.map(|count| count.to_string()),
        );
    }
    for ((fault, found), (_, expected)) in found.into_iter().zip(EXPECTED) {
        assert_eq!(found.means(), expected, "{fault:?}");
    }
}

fn print_row(name: &str, columns: [String; CHECKS.len()]) {
    let columns = columns.map(|column| format!("{column:>11}")).concat();
    println!("{name:<26}{columns}");
}

#[test]
fn no_fault_is_left_out() {
    assert_eq!(EXPECTED.map(|(fault, _)| fault), Fault::PLANTED);
    let in_lists = EXPECTED.map(|(_, by)| by.contains(&Lists));
    assert_eq!(in_lists, Fault::PLANTED.map(Fault::shows_in_lists));
}

#[test]
fn the_sound_machine_is_not_accused() {
    assert_eq!(inspect_lists(Fault::None), Found::default());
}

/// What accuses the sound machine if its steps are misread: breaches, replay figures, and whether its tables
/// agree with the history.
fn misread(misreading: Misreading) -> (Vec<By>, bool) {
    let (mut found, mut agrees) = (Found::default(), true);
    for seed in 0..60 {
        let mut walk = Walk::new(seed, &Profile::CEILING);
        let mut judge = Judge::misreading(misreading);
        while let Some((command, answer)) = walk.next() {
            let before_it = judge.history();
            let replays = before_it.is_none_or(|history| facts::replayed_agrees(history, answer));
            found.add(Replayed, !replays);
            judge.feed(command, answer);
            let history = judge.history().expect("a list begins with an opening");
            agrees &= facts::check(walk.table(), walk.ledger(), history).is_ok();
        }
        found.add_breaches(&judge.finish());
    }
    (found.means(), agrees)
}

/// The judge of a machine can be at fault, too, and is found out by accusing the sound one.
#[test]
fn every_misreading_accuses_the_sound_machine() {
    let by_history: &[By] = &[Demand, Published, Blame, Replayed];
    let expected = [
        (Misreading::ForcedForgotten, by_history, false),
        (Misreading::ForcedNotStable, by_history, false),
        // Its next intervals are forced too early then, and so taken for stable.
        (Misreading::ForcedNotFlagged, by_history, false),
        (Misreading::CeilingOfTheNewestGap, &[Ceiling], true),
    ];
    assert_eq!(expected.map(|row| row.0), Misreading::PLANTED);
    for (misreading, by, agrees) in expected {
        assert_eq!(misread(misreading), (by.to_vec(), agrees), "{misreading:?}");
    }
    assert_eq!(misread(Misreading::None), (vec![], true));
}
