//! What demand 3 and the ledger say of sets that are let out, as a sound machine would or only a faulty one.

mod common;

use common::sound;
use reference::demand::{check, Breach, Judge};
use reference::machine::{Answer, Command, Messages};

/// Message 2 rests on work of 1 that is then lost, message 3 on nothing.
const PARTS: &str = "O 3 1\nS 0 1 7\nR 1\nS 1 2 9\nD 1\nS 1 8 5\nX 1";
const BEFORE_THE_CRASH: usize = 6;

fn with_set(messages: &[u32], answer: Answer) -> Vec<Breach> {
    let messages = Messages::of(messages);
    let mut list = sound(PARTS);
    list.insert(BEFORE_THE_CRASH, (Command::ReleaseSet { messages }, answer));
    check(&list)
}

#[test]
fn each_message_is_judged_by_the_mask_of_the_set() {
    let revoked = Breach::PublishedRevoked {
        position: 7,
        message: 3,
    };
    let unnamed = Breach::OwnerNotNamed {
        position: 6,
        owner: 1,
    };
    let too_many = Breach::TooManyNamed {
        position: 6,
        named: 2,
        degree: 1,
    };
    let released = |mask| Answer::SetReleased { mask };
    assert_eq!(with_set(&[2], released(0)), []);
    assert_eq!(with_set(&[2, 3], released(0)), [revoked, unnamed]);
    assert_eq!(with_set(&[2, 3], released(2)), [revoked]);
    let two = [too_many, too_many, revoked];
    assert_eq!(with_set(&[3, 2], released(6)), two);
    assert_eq!(with_set(&[2, 3], Answer::SetHeld { mask: 2 }), []);
}

#[test]
fn answers_without_sense_are_unreadable() {
    let unreadable = [Breach::Unreadable { position: 6 }];
    let messages = Messages::of(&[2, 9]);
    assert_eq!(
        with_set(&messages, Answer::SetReleased { mask: 0 }),
        unreadable
    );
    assert_eq!(with_set(&[2], Answer::Done), unreadable);
    let released = Answer::Released {
        message: 2,
        mask: 0,
    };
    assert_eq!(with_set(&[2], released), unreadable);
    let mut list = sound("O 3 3\nS 0 1 7");
    list.push((
        Command::Release { message: 1 },
        Answer::SetReleased { mask: 0 },
    ));
    assert_eq!(check(&list), [Breach::Unreadable { position: 2 }]);
}

/// In the order of the list.
#[test]
fn the_ledger_is_read_off_them() {
    let mut judge = Judge::default();
    for (command, answer) in sound("O 2 0\nS 0 8 70\nS 0 1 71\nS 0 8 72") {
        judge.feed(command, answer);
    }
    let messages = Messages::of(&[3, 2, 1]);
    judge.feed(
        Command::ReleaseSet { messages },
        Answer::SetReleased { mask: 0 },
    );
    assert_eq!(judge.ledger()[..6], [2, 3, 72, 1, 70, 0]);
}
