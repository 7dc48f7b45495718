//! Nothing is held for ever, and what is cited stands: the theorems on messages in `paper/proofs/Theorems.antt`
//! (theorem_A_1_messages, theorem_A_2 and those under its name), and `AllCitable` in `history/specs/Citable.antt`.
//!
//! In random lists both machines are held to these at every release, of a set too, and every delivery, by the
//! dispatcher too, which is idle only where they leave nothing to do. Where a release was held, or let a message out,
//! or a delivery waits, the list goes on for a second time: those whom the mask names are asked, or all but K of them,
//! each by a checkpoint or a crash and by a telling after it, and the sender or the receiver hears every crash; in any
//! order, and among other steps. Then the message goes out, or comes in, or its work is gone. At the end of a list
//! everyone is asked so for one controller, and all its messages and all those to it are tried.

mod woven;

use compare::effort;
use reference::generate::{Profile, Random};
use reference::machine::{Answer, Command, Fault};
use reference::refusal;
use std::thread;
use woven::{named, refused, weave, Aim, Broken, House, Met, Trial};

/// How many lists of each profile.
const LISTS: [(&Profile, u64); 14] = [
    (&Profile::MIXED, 1_600),
    (&Profile::CRASHES, 700),
    (&Profile::PARTIAL, 500),
    (&Profile::FULL, 60),
    (&Profile::WORN, 400),
    (&Profile::WILD, 300),
    (&Profile::DESK, 60),
    (&Profile::GAPS, 700),
    (&Profile::CEILING, 700),
    (&Profile::LONG, 60),
    (&Profile::SETS, 700),
    (&Profile::REELS, 200),
    (&Profile::DISPATCH, 300),
    (&Profile::CROWDED, 30),
];

/// How many other steps stand among those that are needed, of a hundred: none, half of them, most.
const OTHERS: [u32; 3] = [0, 50, 80];

/// What comes up, and how often at least: by what those of a mask were secured; what is tried after an answer, or at
/// the end of a list, by what was done for it; and what stands in the lists themselves.
const CASES: [(&str, u64); 51] = [
    ("asked by a checkpoint", 20_000),
    ("asked by a crash", 12_000),
    ("asked by a rollback", 4_000),
    ("delivery, all asked: released 0, then begins", 3_500),
    ("delivery, all asked: released, then begins", 2_000),
    ("delivery, all asked: released, then dropped", 1_300),
    ("delivery, all asked: waits, then begins", 700),
    ("delivery, all asked: waits, then dropped", 700),
    ("delivery, not all heard: waits, then begins", 80),
    ("delivery, not all heard: waits, then dropped", 30),
    ("end: delivery, all asked: begins", 2_500),
    ("end: delivery, all asked: dropped", 400),
    ("end: delivery, all asked: refused 7", 18_000),
    ("end: delivery, not all heard: begins", 50),
    ("end: delivery, not all heard: dropped", 30),
    ("end: delivery, not all heard: refused 7", 700),
    ("end: publishing, all asked: released 0", 800),
    ("end: publishing, gone: refused 7", 1_800),
    ("end: publishing, let out: refused 7", 5_500),
    ("end: publishing, not all heard: held", 30),
    ("end: release, all asked: released 0", 2_300),
    ("end: release, gone: refused 7", 6_000),
    ("end: release, let out: refused 7", 22_000),
    ("end: release, not all heard: held", 50),
    ("end: release, not all heard: released", 60),
    ("entries cited", 60_000),
    ("list: a set refused", 2_500),
    ("list: dropped", 5_000),
    ("list: fewer named again", 3_000),
    ("list: idle", 2_000),
    ("list: messages held in a set", 10_000),
    ("list: messages let out in a set", 20_000),
    ("list: not dropped", 90_000),
    ("list: the same named again", 15_000),
    ("no place: refused 12", 40),
    ("not asked, as one of K", 1_000),
    ("publishing, all asked: held, then released 0", 5_500),
    ("publishing, gone: held, then refused 7", 3_500),
    ("publishing, not all heard: held, then held", 100),
    ("release, all asked: held, then released 0", 4_000),
    ("release, all but K asked: held, then released 0", 70),
    ("release, all but K asked: held, then released", 800),
    ("release, gone: held, then refused 7", 3_500),
    ("release, not all heard: held, then held", 100),
    ("set with a reading, all asked: held, then released 0", 600),
    ("set with a reading, gone: held, then refused 7", 300),
    ("set, all asked: held, then released 0", 100),
    ("set, all but K asked: held, then released 0", 1),
    ("set, all but K asked: held, then released", 15),
    ("set, gone: held, then refused 7", 60),
    ("steps in between", 180_000),
];

/// How many of a hundred such answers are followed by a trial.
fn tried(answer: Answer) -> u32 {
    match answer {
        Answer::Held { .. } | Answer::SetHeld { .. } => 60,
        Answer::Released { .. } => 10,
        Answer::Waits { .. } => 20,
        _ => 0,
    }
}

/// What is to be tried after a step, and what is to be done before.
fn trial_after(house: &House, step: (Command, Answer)) -> Option<(Trial, Aim)> {
    let trial = Trial::after(step.0, step.1)?;
    Some((trial, trial.aim(house)?))
}

/// What a list has come across, and the numbers that decide on what is left to chance.
struct Check {
    random: Random,
    met: Met,
}

impl Check {
    /// Goes through a list, and after some of its answers for a second time on from there.
    fn list(&mut self, house: &mut House) -> Result<(), Broken> {
        while let Some(step) = house.go_on()? {
            self.met.note_step(step);
            if self.random.chance(tried(step.1)) {
                self.second_time(house, step)?;
            }
        }
        self.met.note_masks(house);
        self.end(house)
    }

    /// Does what is needed for the message or the set of a step, and tries it.
    fn second_time(&mut self, house: &House, step: (Command, Answer)) -> Result<(), Broken> {
        let Some((trial, aim)) = trial_after(house, step) else {
            return Ok(());
        };
        let all_but_k = self.random.chance(50);
        let aim = Aim { all_but_k, ..aim };
        let mut house = house.clone();
        self.weave(&mut house, aim)?;
        self.met.note_asked(&house, aim);
        let (case, then) = self.attempt(&mut house, trial)?;
        let [answer, then] = [step.1, then].map(named);
        self.met.note(format!("{case}: {answer}, then {then}"));
        self.end(&house)
    }

    /// Asks everyone for one controller, and tries all messages so far that it has sent and that are for it.
    fn all_messages(&mut self, house: &mut House) -> Result<(), Broken> {
        let holder = self.random.below(house.controllers().end);
        let messages: Vec<u32> = house.history().messages().keys().copied().collect();
        self.weave(house, Aim::everyone(house, holder))?;
        for message in messages {
            let Some(trial) = Trial::by(house, holder, message) else {
                continue;
            };
            let (case, answer) = self.attempt(house, trial)?;
            self.met.note(format!("end: {case}: {}", named(answer)));
        }
        self.end(house)
    }

    /// Tries a message, and says of what case that is, too.
    fn attempt(&mut self, house: &mut House, trial: Trial) -> Result<(String, Answer), Broken> {
        let case = trial.case(house);
        let answer = trial.attempt(house)?;
        if answer == refused(refusal::PLACES_USED_UP) {
            self.met.note("no place: refused 12");
        }
        Ok((case, answer))
    }

    fn weave(&mut self, house: &mut House, aim: Aim) -> Result<(), Broken> {
        let others = self.random.pick(&OTHERS).unwrap_or(0);
        let between = weave(house, aim, others, &mut self.random)?;
        self.met.add("steps in between", between);
        Ok(())
    }

    /// At the end of a list every entry of the ledger may be cited.
    fn end(&mut self, house: &House) -> Result<(), Broken> {
        let cited = house.cited().map_err(Broken::Entry)?;
        self.met.add("entries cited", cited.into());
        house.is_alike().then_some(()).ok_or(Broken::Words)
    }
}

/// Goes through one list of a machine, and through its end.
fn check_list(profile: &'static Profile, seed: u64, fault: Fault) -> Result<Met, Broken> {
    let mut check = Check {
        random: Random::new(!seed),
        met: Met::default(),
    };
    let mut house = House::open(seed, profile, fault)?;
    check.list(&mut house)?;
    check.all_messages(&mut house)?;
    Ok(check.met)
}

fn check_lists((profile, lists): (&'static Profile, u64)) -> Met {
    let lists = (0..effort(lists)).map(|seed| {
        let met = check_list(profile, seed, Fault::None);
        met.unwrap_or_else(|broken| panic!("{} list {seed}: {broken:?}", profile.name))
    });
    lists.fold(Met::default(), Met::join)
}

/// These cases come up often enough, and no others but of a holder that could not hear all, of which less is claimed.
#[test]
fn nothing_is_held_for_ever() {
    let workers = LISTS.map(|lists| thread::spawn(move || check_lists(lists)));
    let met = workers
        .into_iter()
        .map(|worker| worker.join().expect("lists that went well"))
        .fold(Met::default(), Met::join);
    println!("{met:#?}");
    met.assert_at_least(&CASES);
    let mut cases = met.cases().filter(|case| !case.contains("not all heard"));
    let other = cases.find(|case| CASES.iter().all(|(expected, _)| expected != case));
    assert_eq!(other, None);
}

/// What is done for a message, with something left out or too early.
#[derive(Clone, Copy, Debug, PartialEq, Eq)]
enum Recipe {
    Whole,
    NoCheckpoints,
    NoTellings,
    TellingsFirst,
    NoHearings,
}

impl Recipe {
    const ALL: [Recipe; 5] = [
        Recipe::Whole,
        Recipe::NoCheckpoints,
        Recipe::NoTellings,
        Recipe::TellingsFirst,
        Recipe::NoHearings,
    ];

    /// The steps by which it asks.
    fn asking(self, aim: Aim) -> Vec<Command> {
        let checkpoints = aim
            .asked()
            .map(|controller| Command::Checkpoint { controller });
        let owners = aim.asked().filter(|&owner| owner != aim.holder);
        let holder = aim.holder;
        let tellings = owners.map(|owner| Command::Tell { owner, holder });
        match self {
            Recipe::Whole | Recipe::NoHearings => checkpoints.chain(tellings).collect(),
            Recipe::NoCheckpoints => tellings.collect(),
            Recipe::NoTellings => checkpoints.collect(),
            Recipe::TellingsFirst => tellings.chain(checkpoints).collect(),
        }
    }

    /// What a trial answers after it.
    fn then(self, mut house: House, trial: Trial, aim: Aim) -> Result<Answer, Broken> {
        for command in self.asking(aim) {
            house.step(command)?;
        }
        if self != Recipe::NoHearings {
            let hearing = Aim { mask: 0, ..aim };
            weave(&mut house, hearing, 0, &mut Random::new(0))?;
        }
        trial.attempt(&mut house)
    }
}

fn is_stuck(answer: Answer) -> bool {
    matches!(
        answer,
        Answer::Held { .. } | Answer::SetHeld { .. } | Answer::Waits { .. }
    )
}

/// Tries every recipe after each answer of a list that holds a message or lets it wait.
fn try_recipes(profile: &'static Profile, seed: u64, met: &mut Met) -> Result<(), Broken> {
    let mut house = House::open(seed, profile, Fault::None)?;
    while let Some(step) = house.go_on()? {
        let stuck = trial_after(&house, step).filter(|_| is_stuck(step.1));
        let Some((trial, aim)) = stuck else {
            continue;
        };
        for recipe in Recipe::ALL {
            let then = recipe.then(house.clone(), trial, aim)?;
            let then = if is_stuck(then) { "still" } else { "not" };
            let set = matches!(trial, Trial::Set(_));
            let set = if set { "a set " } else { "" };
            met.note(format!("{recipe:?}: {set}{}, then {then}", named(step.1)));
        }
    }
    Ok(())
}

/// The recipe by itself always serves, and with something left out or too early it may not: none of it could be left
/// out of the theorems. (What waits needs no checkpoints where the tellings come last: it waits for an incarnation that
/// has ended, and all that was kept of that is stable.)
#[test]
fn all_that_is_done_is_needed() {
    let mut met = Met::default();
    for profile in [&Profile::CRASHES, &Profile::PARTIAL, &Profile::SETS] {
        for seed in 0..effort(40) {
            let tried = try_recipes(profile, seed, &mut met);
            assert_eq!(tried, Ok(()), "{} list {seed}", profile.name);
        }
    }
    println!("{met:#?}");
    met.assert_at_least(&[
        ("Whole: held, then not", 800),
        ("Whole: waits, then not", 200),
        ("NoCheckpoints: held, then still", 500),
        ("NoTellings: held, then still", 200),
        ("NoTellings: waits, then still", 15),
        ("TellingsFirst: held, then still", 100),
        ("NoHearings: held, then still", 150),
        ("NoHearings: waits, then still", 15),
        ("Whole: a set held, then not", 100),
        ("NoCheckpoints: a set held, then still", 50),
        ("NoTellings: a set held, then still", 20),
        ("TellingsFirst: a set held, then still", 5),
        ("NoHearings: a set held, then still", 10),
    ]);
    let mut whole = met.cases().filter(|case| case.starts_with("Whole"));
    assert_eq!(whole.find(|case| case.ends_with("still")), None);
}

/// What a machine with this fault does that it must not, if one of these lists shows it.
fn broken(fault: Fault) -> Option<Broken> {
    let profiles = [
        &Profile::CRASHES,
        &Profile::PARTIAL,
        &Profile::CEILING,
        &Profile::SETS,
        &Profile::DISPATCH,
    ];
    profiles
        .into_iter()
        .find_map(|profile| (0..20).find_map(|seed| check_list(profile, seed, fault).err()))
}

/// The check can fail: demand 3 accuses none of these machines, which hold or wait for ever, hold what is gone, hear
/// nothing, or are idle with something to do.
#[test]
fn machines_that_hold_for_ever_are_found() {
    for fault in [
        Fault::HeldBeforeLooking,
        Fault::WaitsBeforeLooking,
        Fault::NeverHears,
        Fault::StoredPairsCounted,
        Fault::KnownNotRaised,
        Fault::ForcedNotKnown,
        Fault::HeldKept,
        Fault::StoredPairsJoined,
        Fault::IdleBeforeLooking,
        Fault::DroppedPassedOver,
        Fault::WaitingEndsTheRound,
    ] {
        let found = broken(fault);
        println!("{fault:?}: {found:?}");
        assert!(matches!(found, Some(Broken::Answer(..))), "{fault:?}");
    }
    assert_eq!(broken(Fault::None), None);
}

/// So can the claim on the ledger: of readings that are still held, of entries that say something else, and of
/// readings from work that was lost later.
#[test]
fn wrong_records_are_found() {
    for fault in [
        Fault::LedgerWrittenOnHeld,
        Fault::EntryOutOfOrder,
        Fault::NumbersWithoutIncarnations,
    ] {
        let found = broken(fault);
        println!("{fault:?}: {found:?}");
        assert!(matches!(found, Some(Broken::Entry(_))), "{fault:?}");
    }
}
