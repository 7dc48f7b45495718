//! Houses that are saved, lent, cloned, cited from, and used from several threads at once.

use goulvizad::{
    citations, dispatch, in_form, is_checkpoint, release_set, run, step, Answer, Citation, Refusal,
    Step, Table, DESK, LEDGER_WORDS, SET_MOST, TABLE_WORDS,
};
use std::thread;

/// A house in which the second controller works on from the first one's message, whose reading has gone
/// out before.
fn working() -> Table {
    let mut table = Table::new();
    let sending = |receiver| Step::Send {
        sender: 0,
        receiver,
        payload: u32::MAX,
    };
    for step in [
        Step::Open { n: 2, degree: 2 },
        sending(DESK),
        Step::Release { message: 1 },
        sending(1),
        Step::Release { message: 2 },
        Step::Deliver { message: 2 },
    ] {
        table.step(step).expect("a step that is not refused");
    }
    table
}

const CRASH: Step = Step::Crash { controller: 1 };

const CRASHED: Result<Answer, Refusal> = Ok(Answer::Crashed {
    controller: 1,
    incarnation: 0,
    kept: 1,
    lost: 1,
    replayed: 0,
});

#[test]
fn a_new_table_is_no_house() {
    let mut table = Table::new();
    assert!(!table.is_in_form());
    assert_eq!(table.step(CRASH), Err(Refusal::Form));
    assert_eq!(table, Table::default());
}

#[test]
fn a_saved_house_goes_on() {
    let mut table = working();
    let mut restored = Table::restore(table.words(), table.ledger()).expect("a house");
    assert_eq!(table, restored);
    assert_eq!(restored.step(CRASH), CRASHED);
    assert_ne!(table, restored);
    assert_eq!(table.step(CRASH), CRASHED);
    assert_eq!(table, restored);
}

#[test]
fn what_is_no_house_is_not_restored() {
    let (mut words, ledger) = (working().words().to_vec(), *working().ledger());
    for length in [0, 1, TABLE_WORDS - 1] {
        let cut = Table::restore(&words[..length], &ledger);
        assert_eq!(cut, Err(Refusal::Length));
    }
    words.push(0);
    assert_eq!(Table::restore(&words, &ledger), Err(Refusal::Length));
    words.pop();
    words[0] = 0;
    assert_eq!(Table::restore(&words, &ledger), Err(Refusal::Form));
    // As at a release the table is looked at first.
    assert_eq!(Table::restore(&words, &[]), Err(Refusal::Form));
}

#[test]
fn what_is_no_ledger_is_not_restored() {
    let (table, mut ledger) = (working(), working().ledger().to_vec());
    let restored = |ledger: &[u32]| Table::restore(table.words(), ledger);
    for length in [0, 1, LEDGER_WORDS - 1] {
        assert_eq!(restored(&ledger[..length]), Err(Refusal::Ledger));
    }
    ledger.push(0);
    assert_eq!(restored(&ledger), Err(Refusal::Ledger));
    ledger.pop();
    for (position, word) in [(0, 0), (0, 129), (3, 1), (4, 1), (LEDGER_WORDS - 1, 1)] {
        let mut other = ledger.clone();
        other[position] = word;
        assert_eq!(restored(&other), Err(Refusal::Ledger), "word {position}");
    }
    // Pairs before the count are not looked at: that they are the right ones is the caller's to see.
    ledger[1] = 99;
    assert!(restored(&ledger).is_ok_and(|other| other != table));
}

#[test]
fn lent_words_are_the_same_house() {
    let mut table = working();
    let (mut words, mut ledger) = (table.words().to_vec(), *table.ledger());
    assert!(in_form(&words) && !in_form(&words[1..]));
    assert_eq!(step(&mut words, &mut ledger, CRASH), CRASHED);
    assert_eq!(table.step(CRASH), CRASHED);
    assert_eq!(table.words()[..], words);
    assert_eq!(*table.ledger(), ledger);
    let cut = step(&mut words[1..], &mut ledger, CRASH);
    assert_eq!(cut, Err(Refusal::Length));
}

/// A list goes on after a step that is refused, and leaves what its steps leave one by one.
#[test]
fn a_list_is_its_steps_one_by_one() {
    let steps = [
        CRASH,
        Step::Deliver { message: 2 },
        Step::Release { message: 9 },
        CRASH,
        Step::Checkpoint { controller: 1 },
        reading(1, 5),
        Step::Release { message: 3 },
    ];
    let (mut table, mut by_step) = (working(), working());
    let answers: Vec<_> = steps.iter().map(|&step| by_step.step(step)).collect();
    assert!(answers.contains(&Err(Refusal::Message)));
    assert_eq!(table.run(&steps), answers);
    assert_eq!(table, by_step);
    let (mut words, mut ledger) = (working().words().to_vec(), *working().ledger());
    assert_eq!(run(&mut words, &mut ledger, &steps), answers);
    assert_eq!(words, by_step.words());
    assert_eq!(
        run(&mut words[1..], &mut [], &[CRASH; 2]),
        [Err(Refusal::Length); 2]
    );
    assert_eq!(table.run(&[]), []);
    assert_eq!(table, by_step);
}

/// The positions of the gap and of the controller last served in the words.
const GAP: usize = 11;
const SERVED: usize = 12;

#[test]
fn a_gap_is_kept_with_the_house() {
    let mut table = working();
    assert_eq!(table.set_gap(65), Err(Refusal::Degree));
    assert_eq!(table, working());
    assert_eq!(table.set_gap(2), Ok(()));
    assert_eq!(table.words()[GAP], 2);
    let restored = Table::restore(table.words(), table.ledger()).expect("a house");
    assert_eq!(table, restored);
    let (mut words, mut ledger) = (table.words().to_vec(), *table.ledger());
    assert_eq!(goulvizad::set_gap(&mut words, 0), Ok(()));
    assert_eq!(words, working().words());
    assert_eq!(goulvizad::set_gap(&mut words[1..], 0), Err(Refusal::Length));
    // Only an opening mends a gap that is too wide.
    words[GAP] = 65;
    assert_eq!(goulvizad::set_gap(&mut words, 3), Err(Refusal::Form));
    assert_eq!(Table::restore(&words, &ledger), Err(Refusal::Form));
    let open = Step::Open { n: 2, degree: 2 };
    assert_eq!(step(&mut words, &mut ledger, open), Ok(Answer::Done));
    assert_eq!(words[GAP], 0);
}

/// The next interval stands two above the only checkpoint: it is another one, and nothing is lost.
#[test]
fn a_gap_takes_checkpoints() {
    let mut table = working();
    assert_eq!(table.set_gap(2), Ok(()));
    let sending = Step::Send {
        sender: 0,
        receiver: 1,
        payload: 0,
    };
    for step in [
        sending,
        Step::Release { message: 3 },
        Step::Deliver { message: 3 },
    ] {
        assert!(table.step(step).is_ok());
    }
    let crashed = Answer::Crashed {
        controller: 1,
        incarnation: 0,
        kept: 3,
        lost: 0,
        replayed: 0,
    };
    assert_eq!(table.step(CRASH), Ok(crashed));
}

/// Whether each of these is at a checkpoint: the two controllers, and three that are none.
fn checkpoints(table: &Table) -> [bool; 5] {
    [0, 1, 2, 8, u32::MAX].map(|controller| table.is_checkpoint(controller))
}

/// By the first interval, by the gap, and by its own step; not where there is no such controller or house.
#[test]
fn a_checkpoint_can_be_asked_for() {
    const ONE: [bool; 5] = [true, false, false, false, false];
    const BOTH: [bool; 5] = [true, true, false, false, false];
    let mut table = working();
    assert_eq!(checkpoints(&Table::new()), [false; 5]);
    assert_eq!(checkpoints(&table), ONE);
    assert_eq!(table.set_gap(2), Ok(()));
    assert_eq!(checkpoints(&table), ONE, "what has begun stays as it is");
    let mut bring = |message| {
        let sending = Step::Send {
            sender: 0,
            receiver: 1,
            payload: 0,
        };
        let (release, deliver) = (Step::Release { message }, Step::Deliver { message });
        let answers = table.run(&[sending, release, deliver]);
        assert!(matches!(answers[2], Ok(Answer::Delivered { .. })));
        table.clone()
    };
    assert_eq!(checkpoints(&bring(3)), BOTH, "two above the first");
    assert_eq!(checkpoints(&bring(4)), ONE);
    let taken = table.step(Step::Checkpoint { controller: 1 });
    assert_eq!((taken, checkpoints(&table)), (Ok(Answer::Done), BOTH));
    let words = table.words();
    assert!(is_checkpoint(words, 1) && !is_checkpoint(&words[1..], 1));
}

/// A reading for the desk.
fn reading(sender: u32, payload: u32) -> Step {
    Step::Send {
        sender,
        receiver: DESK,
        payload,
    }
}

/// The later reading is published first: nobody could revoke it.
#[test]
fn readings_are_cited_in_the_order_of_publishing() {
    let mut table = working();
    assert_eq!(table.step(reading(1, 24)), Ok(Answer::Sent { message: 3 }));
    assert_eq!(table.step(reading(0, 18)), Ok(Answer::Sent { message: 4 }));
    let mut released = |message| match table.step(Step::Release { message }) {
        Ok(Answer::Held { mask, .. }) => (false, mask.bits()),
        Ok(Answer::Released { mask, .. }) => (true, mask.bits()),
        other => panic!("{other:?} to a release"),
    };
    assert_eq!(released(3), (false, 2));
    assert_eq!(released(4), (true, 0));
    let checkpoint = table.step(Step::Checkpoint { controller: 1 });
    assert_eq!(checkpoint, Ok(Answer::Done));
    assert!(table.step(Step::Release { message: 3 }).is_ok());
    let cited = [(1, u32::MAX), (4, 18), (3, 24)];
    let cited = cited.map(|(message, payload)| Citation { message, payload });
    assert!(table.citations().eq(cited));
    assert!(citations(table.ledger()).eq(cited));
}

/// The second controller's readings leave together once it has written its work, in the order given.
#[test]
fn a_set_goes_whole_or_not_at_all() {
    let mut table = working();
    for step in [reading(1, 24), reading(1, 25), reading(0, 26)] {
        assert!(table.step(step).is_ok());
    }
    let before = table.clone();
    let Ok(Answer::SetHeld { mask }) = table.release_set(&[4, 3]) else {
        panic!("work that isn't written goes out");
    };
    assert!(mask.controllers().eq([1]));
    for (messages, refusal) in [
        (&[][..], Refusal::SameController),
        (&[3; SET_MOST + 1], Refusal::SameController),
        (&[9; SET_MOST + 1], Refusal::Message),
        (&[3, 2], Refusal::State),
        (&[3, 5], Refusal::Senders),
    ] {
        assert_eq!(table.release_set(messages), Err(refusal), "{messages:?}");
    }
    assert_eq!(table, before);
    let taken = table.step(Step::Checkpoint { controller: 1 });
    assert_eq!(taken, Ok(Answer::Done));
    let (mut words, mut ledger) = (table.words().to_vec(), *table.ledger());
    let Ok(Answer::SetReleased { mask }) = table.release_set(&[4, 3]) else {
        panic!("written work is held");
    };
    assert_eq!(mask.bits(), 0);
    assert!(table.citations().map(|cited| cited.message).eq([1, 4, 3]));
    assert!(release_set(&mut words, &mut ledger, &[4, 3]).is_ok());
    assert_eq!((&words[..], ledger), (&table.words()[..], *table.ledger()));
    let cut = release_set(&mut words[1..], &mut ledger, &[4, 3]);
    assert_eq!(cut, Err(Refusal::Length));
}

/// Two for the second controller and one for the first, which has its turn between them. What is saved in the middle
/// of a round goes on there.
#[test]
fn messages_are_handed_out_in_turns() {
    let mut table = working();
    assert_eq!(table.served(), 1);
    for (message, receiver) in [(3, 1), (4, 1), (5, 0)] {
        let sender = 1 - receiver;
        let sending = Step::Send {
            sender,
            receiver,
            payload: 0,
        };
        assert_eq!(table.step(sending), Ok(Answer::Sent { message }));
        assert!(table.step(Step::Release { message }).is_ok());
    }
    let mut handed_out = Vec::new();
    while let Ok(Answer::Delivered { message, .. }) = table.dispatch() {
        handed_out.push((message, table.served()));
        table = Table::restore(table.words(), table.ledger()).expect("a house");
    }
    assert_eq!(handed_out, [(5, 0), (3, 1), (4, 1)]);
    let (mut words, before) = (table.words().to_vec(), table.clone());
    assert_eq!(table.dispatch(), Ok(Answer::Idle));
    assert_eq!(dispatch(&mut words), Ok(Answer::Idle));
    assert!(table == before && words == before.words());
    assert_eq!(dispatch(&mut words[1..]), Err(Refusal::Length));
    words[SERVED] = 8;
    assert_eq!(dispatch(&mut words), Err(Refusal::Form));
    assert_eq!(Table::restore(&words, table.ledger()), Err(Refusal::Form));
    assert_eq!(table.step(CRASH).map(drop), Ok(()));
    assert!(matches!(table.dispatch(), Ok(Answer::Delivered { .. })));
}

/// Only an opening that is done takes them away.
#[test]
fn published_readings_stay() {
    let mut table = working();
    let ledger = *table.ledger();
    let delivery = table.step(Step::Deliver { message: 1 });
    assert_eq!(delivery, Err(Refusal::State));
    let opening = table.step(Step::Open { n: 9, degree: 0 });
    assert_eq!(opening, Err(Refusal::Degree));
    assert_eq!(table.step(CRASH), CRASHED);
    assert_eq!(*table.ledger(), ledger);
    let opening = table.step(Step::Open { n: 1, degree: 0 });
    assert_eq!(opening, Ok(Answer::Done));
    assert_eq!(*table.ledger(), [0; LEDGER_WORDS]);
}

/// Words that nobody published have no more citations than they have pairs.
#[test]
fn any_words_can_be_cited_from() {
    assert_eq!(citations(&[]).count(), 0);
    assert_eq!(citations(&[u32::MAX]).count(), 0);
    assert_eq!(citations(&[1, 7]).count(), 0);
    assert_eq!(citations(&[u32::MAX; 6]).count(), 2);
    assert_eq!(citations(&[u32::MAX; LEDGER_WORDS]).count(), 128);
}

/// Sixteen threads, each with its own house: each ends as one that was alone.
#[test]
fn different_tables_from_several_threads() {
    const ROUNDS: u32 = 15;
    let play = |table: &mut Table| {
        for round in 0..ROUNDS {
            assert!(matches!(table.step(CRASH), Ok(Answer::Crashed { .. })));
            assert!(table.step(reading(1, round)).is_ok());
            assert!(table.step(Step::Release { message: 3 + round }).is_ok());
            assert!(table.is_in_form());
        }
        table.step(CRASH)
    };
    let mut alone = working();
    assert_eq!(play(&mut alone), Err(Refusal::IncarnationsUsedUp));
    assert_eq!(alone.citations().count(), 1 + ROUNDS as usize);
    let house = working();
    thread::scope(|scope| {
        for _ in 0..16 {
            scope.spawn(|| {
                for _ in 0..50 {
                    let mut table = house.clone();
                    assert_eq!(play(&mut table), Err(Refusal::IncarnationsUsedUp));
                    assert_eq!(table, alone);
                }
            });
        }
    });
}
