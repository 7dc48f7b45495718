//! Lent ledgers beside a house in which a reading, a reading that could be revoked, and a message between
//! controllers wait for release: which ledgers a release and an opening take, what they write there, and
//! that no other step looks.

use compare::agreement::{on_lent, Lent};
use compare::effort;
use reference::generate::{damaged_ledger, sound_ledger, Profile, Random, Walk};
use reference::ledger::{ENTRIES, ENTRY_WORDS, WORDS};
use reference::machine::{Answer, Command};
use reference::refusal::{self, Refusal};
use reference::table::{self, DESK};

/// What stands in a ledger where nobody shall look or write; no reading has it.
const UNTOUCHED: u32 = 0xA5A5_A5A5;

/// A reading that nobody could revoke, with its payload.
const READING: u32 = 2;
const PAYLOAD: u32 = 24;
/// A reading that its sender could revoke, though the degree allows it to.
const AT_RISK: u32 = 3;
/// A message between controllers that nobody could revoke.
const INSIDE: u32 = 4;

/// The table of the house, opened for two controllers with degree 2.
fn house() -> Vec<u32> {
    let send = |sender, receiver, payload| Command::Send {
        sender,
        receiver,
        payload,
    };
    let mut lent = Lent {
        table: vec![0; table::WORDS],
        ledger: vec![0; WORDS],
    };
    for command in [
        Command::Open { n: 2, degree: 2 },
        send(0, 1, 7),
        Command::Release { message: 1 },
        Command::Deliver { message: 1 },
        send(0, DESK, PAYLOAD),
        send(1, DESK, 25),
        send(0, 1, 26),
    ] {
        let answer = lent.step(command);
        assert!(!matches!(answer, Answer::Refused { .. }), "{command:?}");
    }
    assert_eq!(lent.ledger, [0; WORDS]);
    lent.table
}

/// A ledger with so many entries, whatever stands in them.
fn with_entries(count: u32) -> Vec<u32> {
    let used = 1 + count as usize * ENTRY_WORDS;
    let mut ledger = vec![0; WORDS];
    ledger[1..used].fill(UNTOUCHED);
    ledger[0] = count;
    ledger
}

/// One step on the house with this ledger, in which both machines must agree: the answer, and the ledger
/// after it. If it is refused neither buffer may change.
fn told(ledger: &[u32], command: Command) -> (Answer, Vec<u32>) {
    let lent = Lent {
        table: house(),
        ledger: ledger.to_vec(),
    };
    let (answer, after) = on_lent(&lent, command).expect("the same");
    if let Answer::Refused { .. } = answer {
        assert!(after == lent, "{command:?}: words changed");
    }
    (answer, after.ledger)
}

/// The answer to a release with this ledger.
fn released(ledger: &[u32], message: u32) -> Answer {
    told(ledger, Command::Release { message }).0
}

fn refused(number: Refusal) -> Answer {
    Answer::Refused { number }
}

/// Whether a release with this ledger is refused for it: it is so for every message, or for none.
fn is_refused(ledger: &[u32]) -> bool {
    let for_it = refused(refusal::LEDGER);
    let messages = [0, 1, READING, AT_RISK, INSIDE, 5, u32::MAX];
    let [first, others @ ..] = messages.map(|message| released(ledger, message) == for_it);
    assert!(others.iter().all(|&other| other == first));
    first
}

const HELD: Answer = Answer::Held {
    message: AT_RISK,
    mask: 2,
};

fn let_out(message: u32) -> Answer {
    Answer::Released { message, mask: 0 }
}

#[test]
fn publishing_appends_a_pair_and_writes_no_other_word() {
    for count in [0, 1, 2, 63, 126, 127] {
        let before = with_entries(count);
        let (answer, after) = told(&before, Command::Release { message: READING });
        assert_eq!(answer, let_out(READING));
        let mut expected = before.clone();
        expected[0] = count + 1;
        let entry = 1 + count as usize * ENTRY_WORDS;
        expected[entry..][..ENTRY_WORDS].copy_from_slice(&[READING, PAYLOAD]);
        assert_eq!(after, expected);
        for (message, answer) in [(AT_RISK, HELD), (INSIDE, let_out(INSIDE))] {
            let unpublished = told(&before, Command::Release { message });
            assert_eq!(unpublished, (answer, before.clone()));
        }
    }
}

/// A full ledger keeps only those back that would be published.
#[test]
fn a_full_ledger_takes_no_more() {
    let full = with_entries(ENTRIES);
    assert_eq!(released(&full, READING), refused(refusal::LEDGER_USED_UP));
    assert_eq!(released(&full, AT_RISK), HELD);
    assert_eq!(released(&full, INSIDE), let_out(INSIDE));
    assert_eq!(released(&full, 1), refused(refusal::STATE));
    assert_eq!(released(&full, 0), refused(refusal::MESSAGE));
}

#[test]
fn ledgers_of_another_length_are_refused() {
    let whole = [with_entries(0), vec![0; 2 * table::WORDS]].concat();
    for length in [
        0, 1, 2, 3, 64, 128, 255, 256, 258, 259, 512, 513, 514, 4_096, 15_152,
    ] {
        let ledger = &whole[..length];
        assert!(is_refused(ledger), "{length} words");
        let opening = Command::Open { n: 1, degree: 0 };
        assert_eq!(told(ledger, opening).0, refused(refusal::LEDGER));
    }
    assert!(!is_refused(&whole[..WORDS]));
}

#[test]
fn counts_above_the_last_pair_are_refused() {
    for entries in [0, 1, ENTRIES] {
        let mut ledger = with_entries(entries);
        for count in [129, 130, 255, 256, 257, 0x8000_0000, 0x8000_0001, u32::MAX] {
            ledger[0] = count;
            assert!(is_refused(&ledger), "a count of {count}");
        }
    }
}

/// Each word past the count, one at a time; and words before it are not looked at.
#[test]
fn words_past_the_count_are_refused() {
    for count in [0, 1, 64, 127] {
        let ledger = with_entries(count);
        let used = 1 + count as usize * ENTRY_WORDS;
        for position in (1..WORDS).filter(|p| p.abs_diff(used) < 4 || p % 16 == 0 || p + 3 > WORDS)
        {
            for word in [1, 0x8000_0000, u32::MAX] {
                let mut other = ledger.clone();
                other[position] = word;
                let past = position >= used;
                assert_eq!(is_refused(&other), past, "{count} entries, word {position}");
            }
        }
    }
}

/// An opening looks at the length alone, and makes every word 0; one that is refused keeps all.
#[test]
fn an_opening_clears_any_ledger_of_its_length() {
    let mut random = Random::new(1);
    let noise: Vec<u32> = (0..WORDS).map(|_| random.word()).collect();
    for ledger in [noise, with_entries(ENTRIES), vec![UNTOUCHED; WORDS]] {
        let (answer, after) = told(&ledger, Command::Open { n: 3, degree: 1 });
        assert_eq!((answer, after), (Answer::Done, vec![0; WORDS]));
        for (n, degree) in [(0, 0), (9, 0), (3, 4)] {
            let opening = told(&ledger, Command::Open { n, degree });
            assert_eq!(opening, (refused(refusal::DEGREE), ledger.clone()));
        }
    }
}

/// The order of the refusals: of an opening 1, 14 and 5; of a release 1, 2, 14, 4, 7 and, last, 18.
#[test]
fn refusals_come_in_their_order() {
    let (house, foreign) = (&house()[..], &[UNTOUCHED; table::WORDS][..]);
    let (full, short) = (&with_entries(ENTRIES)[..], &[UNTOUCHED; WORDS - 1][..]);
    let opening = Command::Open { n: 9, degree: 0 };
    let release = |message| Command::Release { message };
    for (table, ledger, command, number) in [
        (&house[1..], short, opening, refusal::LENGTH),
        (foreign, short, opening, refusal::LEDGER),
        (house, short, opening, refusal::LEDGER),
        (house, full, opening, refusal::DEGREE),
        (&house[1..], short, release(0), refusal::LENGTH),
        (foreign, short, release(0), refusal::FORM),
        (house, short, release(0), refusal::LEDGER),
        (house, short, release(1), refusal::LEDGER),
        (house, short, release(READING), refusal::LEDGER),
        (house, full, release(0), refusal::MESSAGE),
        (house, full, release(1), refusal::STATE),
        (house, full, release(READING), refusal::LEDGER_USED_UP),
    ] {
        let lent = Lent {
            table: table.to_vec(),
            ledger: ledger.to_vec(),
        };
        let (answer, after) = on_lent(&lent, command).expect("the same");
        assert_eq!(answer, refused(number), "{command:?}");
        assert!(after == lent, "{command:?}: words changed");
    }
}

/// Any words of any number, none too: the other eight steps, a gap set and the dispatcher answer as with the right
/// ledger, do the same to the table, and leave the ledger as it is.
#[test]
fn other_steps_do_not_look_at_the_ledger() {
    let mut random = Random::new(2);
    let mut steps = 0;
    for profile in Profile::ALL {
        for seed in 0..effort(8) {
            let mut walk = Walk::new(seed, profile);
            let mut lent = Lent::by(&walk);
            while let Some((command, expected)) = walk.next() {
                let looks = matches!(
                    command,
                    Command::Open { .. } | Command::Release { .. } | Command::ReleaseSet { .. }
                );
                if !looks {
                    let right = std::mem::replace(&mut lent.ledger, foreign(&mut random));
                    let foreign = lent.ledger.clone();
                    assert_eq!(lent.step(command), expected, "{command:?}");
                    assert_eq!(lent.ledger, foreign, "{command:?}");
                    lent.ledger = right;
                    steps += 1;
                } else {
                    assert_eq!(lent.step(command), expected, "{command:?}");
                }
                assert!(lent.table == walk.table(), "{command:?}");
            }
        }
    }
    assert!(steps > 5_000, "only {steps} steps");
}

/// A ledger that isn't the house's.
fn foreign(random: &mut Random) -> Vec<u32> {
    match random.below(4) {
        0 => Vec::new(),
        1 => (0..random.index(2 * WORDS))
            .map(|_| random.word())
            .collect(),
        2 => damaged_ledger(random),
        _ => sound_ledger(random),
    }
}

/// All the messages of a house, each published; and after another opening all once more.
#[test]
fn every_message_of_a_house_can_be_published() {
    let mut lent = Lent {
        table: vec![0; table::WORDS],
        ledger: vec![UNTOUCHED; WORDS],
    };
    for payload in [0, 1_000] {
        let opened = lent.step(Command::Open { n: 1, degree: 0 });
        assert_eq!(opened, Answer::Done);
        for message in 1..=ENTRIES {
            let sending = Command::Send {
                sender: 0,
                receiver: DESK,
                payload: payload + message,
            };
            assert_eq!(lent.step(sending), Answer::Sent { message });
            let released = lent.step(Command::Release { message });
            assert_eq!(released, let_out(message));
            assert_eq!(lent.ledger[0], message);
        }
        let pairs = (1..=ENTRIES).flat_map(|message| [message, payload + message]);
        assert!(lent.ledger[1..].iter().copied().eq(pairs));
        // No message is left that could find the ledger full.
        let sending = Command::Send {
            sender: 0,
            receiver: DESK,
            payload,
        };
        let before = lent.clone();
        let refused_once_more = [
            (sending, refusal::MESSAGES_USED_UP),
            (Command::Release { message: ENTRIES }, refusal::STATE),
            (Command::Deliver { message: ENTRIES }, refusal::STATE),
        ];
        for (command, number) in refused_once_more {
            assert_eq!(lent.step(command), refused(number));
        }
        assert!(lent == before);
    }
}
