//! The judge of demand 3, on lists written by hand: it accepts the right answers and ledgers, and finds
//! each kind of breach in wrong ones.

mod common;

use common::sound;
use reference::demand::{check, Breach, Judge};
use reference::lines::{render, run};
use reference::machine::{Answer, Command};
use reference::refusal;

/// Two messages on, controllers 1 and 2 rest on work of 1 that is then lost.
const CHAIN: &str = "O 3 3\nS 0 1 7\nR 1\nD 1\nS 1 2 9\nR 2\nD 2\nX 1";

/// The steps of [`CHAIN`].
const CHAIN_STEPS: usize = 8;
const SECOND_RELEASE: usize = 5;

fn hear(hearer: u32, crashed: u32) -> Command {
    Command::Hear {
        hearer,
        crashed,
        incarnation: 0,
    }
}

/// By the crash of controller 1 that all hearings here are of.
fn rolled(controller: u32, kept: u32) -> Answer {
    Answer::Rolled {
        controller,
        kept,
        undone: 1,
        replayed: 0,
        crashed: 1,
        incarnation: 0,
    }
}

/// The breaches of [`CHAIN`] with another last step.
fn breaches_with(command: Command, answer: Answer) -> Vec<Breach> {
    let mut list = sound(CHAIN);
    list.push((command, answer));
    check(&list)
}

#[test]
fn the_sound_answers_are_accepted() {
    let script = format!("{CHAIN}\nH 2 1 0\nH 0 1 0");
    let last = |list: &[(Command, Answer)]| list.last().map(|(_, answer)| render(answer));
    let list = sound(&script);
    assert_eq!(
        last(&list[..CHAIN_STEPS + 1]),
        Some("rolled 2 1 1 0 1 0".to_owned())
    );
    assert_eq!(last(&list), Some("heard 0".to_owned()));
    assert_eq!(check(&list), []);
    assert!(run(script.as_bytes()).ends_with(b"heard 0\n"));
}

#[test]
fn a_hearing_that_leaves_an_orphan() {
    let breaches = breaches_with(hear(2, 1), Answer::Heard { controller: 2 });
    let left = Breach::NotUndone {
        position: CHAIN_STEPS,
        intervals: 1,
    };
    let live = Breach::LiveOrphan {
        position: CHAIN_STEPS + 1,
        controller: 2,
    };
    assert_eq!(breaches, [left, live]);
}

#[test]
fn a_hearing_that_undoes_without_cause() {
    // Controller 0 takes a message from 2 that rests on nothing lost, and gives it up.
    let mut list = sound("O 3 3\nX 1\nS 2 0 5\nR 1\nD 1");
    list.push((hear(0, 1), rolled(0, 1)));
    let breach = Breach::UndoneWithoutCause {
        position: 5,
        intervals: 1,
    };
    // So the crash isn't its reason.
    assert_eq!(check(&list), [breach, Breach::WrongCrash { position: 5 }]);
}

#[test]
fn an_orphan_that_no_hearing_left() {
    // Delivered after the crash was heard, where it should have been dropped.
    let mut list = sound("O 3 3\nS 0 1 7\nR 1\nD 1\nS 1 2 9\nR 2\nX 1\nH 2 1 0");
    let delivered = Answer::Delivered {
        message: 2,
        incarnation: 0,
        number: 2,
    };
    list.push((Command::Deliver { message: 2 }, delivered));
    let breach = Breach::LiveOrphan {
        position: 9,
        controller: 2,
    };
    assert_eq!(check(&list), [breach]);
}

#[test]
fn a_release_that_names_too_many() {
    let mut list = sound(CHAIN);
    list[0].0 = Command::Open { n: 3, degree: 0 };
    let breach = Breach::TooManyNamed {
        position: SECOND_RELEASE,
        named: 1,
        degree: 0,
    };
    assert_eq!(check(&list), [breach]);
}

#[test]
fn a_release_that_names_the_wrong_ones() {
    let unnamed = Breach::OwnerNotNamed {
        position: SECOND_RELEASE,
        owner: 1,
    };
    for (mask, breaches) in [
        (0, vec![unnamed]),
        (5, vec![unnamed]),
        (2, vec![]),
        (7, vec![]),
    ] {
        let mut list = sound(CHAIN);
        list[SECOND_RELEASE].1 = Answer::Released { message: 2, mask };
        assert_eq!(check(&list), breaches, "mask {mask}");
    }
}

#[test]
fn an_owner_need_not_be_named_if_nothing_is_lost_or_all_was_stable() {
    let unnamed = Answer::Released {
        message: 2,
        mask: 0,
    };
    let mut never_lost = sound(CHAIN);
    never_lost.pop();
    never_lost[SECOND_RELEASE].1 = unnamed;
    assert_eq!(check(&never_lost), []);
    let mut stable = sound("O 3 3\nS 0 1 7\nR 1\nD 1\nL 1 1\nS 1 2 9\nR 2\nX 1");
    assert_eq!(stable[6].1, unnamed);
    assert_eq!(check(&stable), []);
    // Logged only after the release: not stable then, but never lost either.
    stable.swap(4, 6);
    stable.swap(4, 5);
    assert_eq!(check(&stable), []);
}

#[test]
fn a_loss_before_the_release_counts_too() {
    // Sent from an interval that was lost before the release: a sound machine would have dropped it.
    let mut list = sound("O 3 3\nS 0 1 7\nR 1\nD 1\nS 1 2 9\nX 1");
    list.push((
        Command::Release { message: 2 },
        Answer::Released {
            message: 2,
            mask: 4,
        },
    ));
    let breach = Breach::OwnerNotNamed {
        position: 6,
        owner: 1,
    };
    assert_eq!(check(&list), [breach]);
}

/// Let out to the desk from work that isn't stable, as only a faulty machine would.
mod published {
    use super::*;

    fn publish(message: u32) -> (Command, Answer) {
        let released = Answer::Released { message, mask: 0 };
        (Command::Release { message }, released)
    }

    /// The steps with the sound machine's answers, but for releases of these messages, which are let out.
    fn with_published(script: &str, messages: &[u32]) -> Vec<(Command, Answer)> {
        let mut list = sound(script);
        for &message in messages {
            let (release, released) = publish(message);
            let mut steps = list.iter_mut();
            let step = steps.find(|(command, _)| *command == release);
            step.expect("a release").1 = released;
        }
        list
    }

    /// Message 2 goes out to the desk from an interval of 1 that is then lost, or not.
    const READING: &str = "O 3 3\nS 0 1 7\nR 1\nD 1\nS 1 8 9\nR 2";

    #[test]
    fn and_its_sending_interval_lost() {
        let revoked = Breach::PublishedRevoked {
            position: 6,
            message: 2,
        };
        let unnamed = Breach::OwnerNotNamed {
            position: 5,
            owner: 1,
        };
        let list = with_published(&format!("{READING}\nX 1\nX 1"), &[2]);
        assert_eq!(check(&list), [revoked, unnamed]);
        // Held by the sound machine, or never lost.
        assert_eq!(check(&sound(&format!("{READING}\nX 1"))), []);
        let list = with_published(&format!("{READING}\nX 0\nC 1\nX 1"), &[2]);
        assert_eq!(check(&list), []);
    }

    #[test]
    fn and_its_sending_interval_undone() {
        // Message 3 rests on the work of 1 that message 2 was sent from.
        let script = "O 3 3\nS 0 1 7\nR 1\nD 1\nS 1 2 9\nR 2\nD 2\nS 2 8 5\nR 3\nX 1";
        let unnamed = Breach::OwnerNotNamed {
            position: 8,
            owner: 1,
        };
        let list = with_published(script, &[3]);
        assert_eq!(check(&list), [unnamed], "not undone yet");
        let list = with_published(&format!("{script}\nH 2 1 0"), &[3]);
        let revoked = Breach::PublishedRevoked {
            position: 10,
            message: 3,
        };
        assert_eq!(check(&list), [revoked, unnamed]);
    }

    /// That any owner is named doesn't help: what is published can't be recalled.
    #[test]
    fn and_lost_though_its_owner_was_named() {
        let mut list = with_published(&format!("{READING}\nX 1"), &[2]);
        list[5].1 = Answer::Released {
            message: 2,
            mask: 2,
        };
        let revoked = Breach::PublishedRevoked {
            position: 6,
            message: 2,
        };
        assert_eq!(check(&list), [revoked]);
    }

    /// "In any later steps before an opening": what was lost before, or is lost in another house, is no
    /// matter of this claim.
    #[test]
    fn and_lost_before_or_after_an_opening() {
        let mut list = sound("O 3 3\nS 0 1 7\nR 1\nD 1\nS 1 8 9\nX 1");
        list.push(publish(2));
        let unnamed = Breach::OwnerNotNamed {
            position: 6,
            owner: 1,
        };
        assert_eq!(check(&list), [unnamed]);
        let list = with_published(&format!("{READING}\nO 3 3\nX 1"), &[2]);
        assert_eq!(check(&list), []);
    }

    #[test]
    fn and_delivered_is_unreadable() {
        let mut list = sound("O 3 3\nS 0 8 7\nR 1");
        let delivered = Answer::Delivered {
            message: 1,
            incarnation: 0,
            number: 2,
        };
        list.push((Command::Deliver { message: 1 }, delivered));
        assert_eq!(check(&list), [Breach::Unreadable { position: 3 }]);
    }
}

/// In a house just opened the ledger is that of the list's releases.
mod ledger {
    use super::*;

    fn judge(script: &str) -> Judge {
        let mut judge = Judge::default();
        for (command, answer) in sound(script) {
            judge.feed(command, answer);
        }
        judge
    }

    const READINGS: &str = "O 2 2\nS 0 8 70\nS 0 1 71\nS 1 8 72\nR 3\nR 2\nR 1\nR 1";

    #[test]
    fn is_read_off_the_steps() {
        let mut judge = judge(READINGS);
        let mut words = judge.ledger();
        assert_eq!((words.len(), &words[..6]), (257, &[2, 3, 72, 1, 70, 0][..]));
        judge.see_ledger(&words);
        words[256] = 1;
        judge.see_ledger(&words);
        judge.see_ledger(&words[..256]);
        let differs = Breach::LedgerDiffers { position: 8 };
        assert_eq!(judge.finish(), [differs, differs]);
    }

    #[test]
    fn is_empty_after_an_opening() {
        let mut judge = judge(&format!("{READINGS}\nO 2 2"));
        let empty = vec![0; 257];
        assert_eq!(judge.ledger(), empty);
        judge.see_ledger(&empty);
        assert_eq!(judge.finish(), []);
    }

    #[test]
    fn is_free_before_the_first_opening() {
        let mut judge = Judge::default();
        judge.see_ledger(&[9; 257]);
        judge.feed(
            Command::Open { n: 9, degree: 0 },
            Answer::Refused { number: 5 },
        );
        judge.see_ledger(&[]);
        assert_eq!(judge.finish(), []);
    }
}

#[test]
fn an_opening_begins_a_new_list() {
    let mut list = sound(CHAIN);
    list.push((hear(2, 1), Answer::Heard { controller: 2 }));
    let alone = check(&list);
    assert_eq!(alone.len(), 2);
    list.push((
        Command::Open { n: 9, degree: 0 },
        Answer::Refused {
            number: refusal::DEGREE,
        },
    ));
    list.push((Command::Open { n: 3, degree: 3 }, Answer::Done));
    list.push((Command::Crash { controller: 2 }, crashed(2)));
    let end = Breach::LiveOrphan {
        position: CHAIN_STEPS + 2,
        controller: 2,
    };
    assert_eq!(check(&list), [alone[0], end]);
}

fn crashed(controller: u32) -> Answer {
    Answer::Crashed {
        controller,
        incarnation: 0,
        kept: 1,
        lost: 0,
        replayed: 0,
    }
}

#[test]
fn nothing_is_claimed_before_an_opening() {
    assert_eq!(check(&[(hear(0, 1), rolled(0, 9))]), []);
}

#[test]
fn answers_without_sense_are_unreadable() {
    let unreadable = [Breach::Unreadable {
        position: CHAIN_STEPS,
    }];
    let deliver = |message| Command::Deliver { message };
    let cases = [
        (Command::Crash { controller: 0 }, Answer::Done),
        (Command::Crash { controller: 0 }, crashed(1)),
        (Command::Crash { controller: 3 }, crashed(3)),
        (deliver(1), Answer::Waits { message: 2 }),
        (
            Command::Release { message: 9 },
            Answer::Released {
                message: 9,
                mask: 0,
            },
        ),
        (Command::Open { n: 0, degree: 0 }, Answer::Done),
        (
            Command::Open {
                n: u32::MAX,
                degree: 0,
            },
            Answer::Done,
        ),
        (
            Command::Open { n: 3, degree: 0 },
            Answer::Sent { message: 1 },
        ),
        (hear(9, 1), Answer::Heard { controller: 9 }),
        (hear(0, 9), Answer::Heard { controller: 0 }),
        (hear(0, 1), rolled(0, 0)),
    ];
    for (command, answer) in cases {
        let breaches = breaches_with(command, answer);
        assert_eq!(breaches, unreadable, "{command:?} {answer:?}");
    }
}
