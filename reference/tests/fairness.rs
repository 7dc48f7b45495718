//! The dispatcher starves nobody: in lists and from lent tables, with other steps between its calls; that one call less
//! isn't enough; what idle says; and that in the end nothing is left but what has no place.

mod common;

use common::House;
use reference::dispatched::{offered, Fate, Rounds, Unfair};
use reference::generate::{
    dispatch_table, gap, named, senseless, set, sound_ledger, Profile, Random, Walk,
};
use reference::machine::{step, Answer, Command};
use reference::table::{state, Table, INCARNATIONS};

/// How many calls were made, and how many of them served one that had been left out in all n − 1 calls before.
#[derive(Default)]
struct Calls {
    all: usize,
    at_last: usize,
}

impl Calls {
    fn note(&mut self, command: Command, fair: Result<bool, Unfair>) {
        self.all += usize::from(command == Command::Dispatch);
        self.at_last += usize::from(fair == Ok(true));
    }
}

#[test]
fn nobody_is_starved_in_lists() {
    for (profile, lists, least) in [
        (&Profile::DISPATCH, 1_500, 3_000),
        (&Profile::CROWDED, 150, 1_000),
    ] {
        let mut calls = Calls::default();
        for seed in 0..lists {
            let mut walk = Walk::new(seed, profile);
            let (mut rounds, mut before) = (Rounds::default(), walk.table().to_vec());
            while let Some((command, answer)) = walk.next() {
                let fair = rounds.feed(&before, command, answer);
                assert!(fair.is_ok(), "{} list {seed}: {fair:?}", profile.name);
                calls.note(command, fair);
                before.copy_from_slice(walk.table());
            }
        }
        let Calls { all, at_last } = calls;
        assert!(all > 15_000 && at_last > least, "{all} {at_last}");
    }
}

/// A step that isn't an opening, on a table of any content.
fn other_step(random: &mut Random, words: &[u32]) -> Command {
    let messages = set(random, words);
    let mut steps = named(random, words);
    steps.extend([
        Command::ReleaseSet { messages },
        Command::SetGap { gap: gap(random) },
        senseless(random),
    ]);
    steps.retain(|step| !matches!(step, Command::Open { .. }));
    let chosen = random.pick(&steps);
    chosen.unwrap_or(Command::Crash { controller: 0 })
}

/// From any table in form, with any controller last served, and with any steps between the calls.
#[test]
fn nobody_is_starved_on_lent_tables() {
    let mut random = Random::new(1);
    let mut calls = Calls::default();
    for _ in 0..1_000 {
        let (mut words, mut ledger) = (dispatch_table(&mut random), sound_ledger(&mut random));
        let mut rounds = Rounds::default();
        let others = [0, 30, 60][random.index(3)];
        for _ in 0..60 {
            let command = if random.chance(others) {
                other_step(&mut random, &words)
            } else {
                Command::Dispatch
            };
            let before = words.clone();
            let answer = step(&mut words, &mut ledger, command);
            let fair = rounds.feed(&before, command, answer);
            assert!(fair.is_ok(), "{fair:?}");
            calls.note(command, fair);
        }
    }
    let Calls { all, at_last } = calls;
    assert!(all > 30_000 && at_last > 1_000, "{all} {at_last}");
}

/// In n − 1 calls one can be left out: the one that was served last, where all others have messages, too.
#[test]
fn one_call_less_is_not_enough() {
    for n in 2..=8 {
        let mut house = House::after(&format!("O {n} {n}"));
        for message in 1..=2 * n {
            let receiver = (message - 1) % n;
            let sender = (receiver + 1) % n;
            house.go_on(&format!("S {sender} {receiver} 7\nR {message}"));
        }
        let last = n - 1;
        for call in 1..n {
            let has = |house: &House| {
                let mut offered = offered(&house.words).into_iter();
                offered.any(|offered| offered.receiver == last && offered.fate == Fate::Begins)
            };
            assert!(has(&house));
            assert_eq!(house.dispatch(), format!("delivered {call} 0 2"));
            assert_ne!(house.table().served(), last);
        }
        assert_eq!(house.dispatch(), format!("delivered {n} 0 2"));
        assert_eq!(house.table().served(), last);
    }
}

/// What comes of the delivery of each released message.
fn tried(words: &[u32]) -> Vec<Answer> {
    let table = Table::new(words).expect("the right length");
    let released = (1..=table.sent())
        .filter(|&message| table.message(message).state == state::RELEASED)
        .map(|message| Command::Deliver { message });
    let tried = released.map(|command| step(&mut words.to_vec(), &mut [], command));
    tried.collect()
}

fn gets_12(answer: &Answer) -> bool {
    *answer == Answer::Refused { number: 12 }
}

/// Where it says idle each released message waits or would get 12, and where it doesn't one can go.
#[test]
fn idle_says_that_nothing_can_go() {
    let (mut waiting, mut full, mut none, mut busy) = (0, 0, 0, 0);
    for seed in 0..300 {
        let profile = [&Profile::DISPATCH, &Profile::CROWDED][seed as usize % 2];
        let mut walk = Walk::new(seed, profile);
        let mut before = walk.table().to_vec();
        while let Some((command, answer)) = walk.next() {
            if command == Command::Dispatch {
                let tried = tried(&before);
                let stuck = |answer: &Answer| matches!(answer, Answer::Waits { .. });
                let idle = tried.iter().all(|answer| stuck(answer) || gets_12(answer));
                assert_eq!(answer == Answer::Idle, idle, "{tried:?}");
                waiting += usize::from(idle && tried.iter().any(stuck));
                full += usize::from(idle && tried.iter().any(gets_12));
                none += usize::from(tried.is_empty());
                busy += usize::from(!idle);
            }
            before.copy_from_slice(walk.table());
        }
    }
    let seen = [waiting, full, none, busy];
    assert!(seen.iter().all(|&count| count > 100), "{seen:?}");
}

/// The crashes that somebody hasn't heard of.
fn unheard(table: Table<&[u32]>) -> Vec<Command> {
    let n = table.n();
    let mut hearings = Vec::new();
    for crashed in 0..n {
        for incarnation in 0..INCARNATIONS as u32 {
            let end = |c: u32| table.ends(c as usize).word(crashed as usize, incarnation);
            let hearers = (0..n).filter(|&hearer| end(crashed) != 0 && end(hearer) == 0);
            hearings.extend(hearers.map(|hearer| Command::Hear {
                hearer,
                crashed,
                incarnation,
            }));
        }
    }
    hearings
}

/// Everyone hears every crash, takes a checkpoint and tells all others. False where a hearing is refused: there is no
/// incarnation left for it.
fn settle(walk: &mut Walk) -> bool {
    let table = |walk: &Walk| {
        let words = walk.table().to_vec();
        Table::new(words).expect("the right length")
    };
    for hearing in unheard(Table::new(walk.table()).expect("the right length")) {
        if matches!(walk.step(hearing), Answer::Refused { .. }) {
            return false;
        }
    }
    let n = table(walk).n();
    for controller in 0..n {
        assert_eq!(walk.step(Command::Checkpoint { controller }), Answer::Done);
    }
    for owner in 0..n {
        for holder in (0..n).filter(|&holder| holder != owner) {
            assert_eq!(walk.step(Command::Tell { owner, holder }), Answer::Done);
        }
    }
    true
}

/// Where all is heard, written and told, nothing waits: 128 calls, as many as there may be messages, leave none that is
/// released but those that would get 12.
#[test]
fn in_the_end_nothing_is_left_but_what_has_no_place() {
    let (mut settled, mut left, mut served) = (0, 0, 0);
    for profile in [&Profile::DISPATCH, &Profile::CROWDED, &Profile::WORN] {
        for seed in 0..200 {
            let mut walk = Walk::new(seed, profile);
            let steps = 30 + 3 * seed as usize;
            walk.by_ref().take(steps).for_each(drop);
            if !settle(&mut walk) {
                continue;
            }
            settled += 1;
            for _ in 0..128 {
                let answer = walk.step(Command::Dispatch);
                served += usize::from(answer != Answer::Idle);
            }
            let tried = tried(walk.table());
            assert!(
                tried.iter().all(gets_12),
                "{} {seed}: {tried:?}",
                profile.name
            );
            assert_eq!(walk.step(Command::Dispatch), Answer::Idle);
            left += tried.len();
        }
    }
    assert!(
        settled > 400 && served > 2_000 && left > 50,
        "{settled} {served} {left}"
    );
}
