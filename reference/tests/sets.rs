//! Sets of messages: which go, what they leave, that they go whole or not at all, and the order of their
//! refusals.

mod common;

use common::{bring, House};
use reference::generate::{damaged_ledger, set, set_table, sound_ledger, Profile, Random, Walk};
use reference::ledger::{words_of, Entry, ENTRIES};
use reference::machine::{step, Answer, Command, Messages};
use reference::refusal::{self, Refusal};
use reference::table::{state, Controller, Message, DESK};
use reference::vector::Pair;

fn states(house: &House, messages: &[u32]) -> Vec<u32> {
    let records = messages.iter().map(|&m| house.table().message(m));
    records.map(|record| record.state).collect()
}

/// A house of so many in which controller 0 has sent a message to 1 from each of these owners' work: message
/// i rests on the i-th of them alone, as no list of steps could have it.
fn resting_on(n: u32, owners: &[usize]) -> House {
    let mut house = House::after(&format!("O {n} 0"));
    for (message, &owner) in (1..).zip(owners) {
        house.go_on(&format!("S 0 1 {message}"));
        house.lend(|table| {
            let mut record = table.message(message);
            record.vector[owner] = Pair::new(0, 9);
            table.set_message(message, &record);
        });
    }
    house
}

/// A house in which controller 0 has sent so many messages to 1 from stable work.
fn with_sent(count: u32) -> House {
    let mut house = House::after("O 2 0");
    (0..count).for_each(|_| house.go_on("S 0 1 7"));
    house
}

/// "The bench sends one message for each part of a reel": controller 1 does from the work of one delivery.
fn reel(receivers: &[u32]) -> House {
    let mut house = House::after("O 3 1");
    bring(&mut house, 0, 1);
    for (part, receiver) in receivers.iter().enumerate() {
        house.go_on(&format!("S 1 {receiver} {}", 70 + part));
    }
    house
}

/// "If its ones are at most K, all are released .. ; otherwise all stay held."
#[test]
fn a_set_goes_whole_or_not_at_all() {
    let mut house = reel(&[2, 0, 2]);
    house.go_on("K 1 0");
    assert_eq!(house.release_set(&[2, 3, 4]), "set_held 2");
    assert_eq!(states(&house, &[2, 3, 4]), [state::HELD; 3]);
    house.go_on("K 1 1");
    assert_eq!(house.release_set(&[2, 3, 4]), "set_released 2");
    assert_eq!(states(&house, &[2, 3, 4]), [state::RELEASED; 3]);
    assert_eq!(house.say("D 2"), "delivered 2 0 2");
}

/// "The mask is the union of their masks", which alone decides: each of them is within the degree.
#[test]
fn the_union_decides() {
    for degree in 0..=5 {
        let mut house = resting_on(5, &[1, 2, 4]);
        house.go_on(&format!("K 0 {degree}"));
        let (two, three) = if degree >= 3 {
            ("set_released 6", "set_released 22")
        } else if degree == 2 {
            ("set_released 6", "set_held 22")
        } else {
            ("set_held 6", "set_held 22")
        };
        assert_eq!(house.clone().release_set(&[1, 2]), two, "degree {degree}");
        assert_eq!(house.clone().release_set(&[2, 1]), two, "degree {degree}");
        assert_eq!(house.release_set(&[1, 2, 3]), three, "degree {degree}");
    }
}

/// "The union of their masks", which are those of filtered vectors; and "each with its own filtered vector".
#[test]
fn each_vector_is_filtered_and_stored_by_itself() {
    let mut house = resting_on(4, &[1, 2, 3]);
    house.lend(|table| table.set_known(0, 2, 0, 9));
    house.go_on("K 0 2");
    let before = [1, 2, 3].map(|message| house.table().message(message));
    assert_eq!(house.release_set(&[3, 1, 2]), "set_released 10");
    let state = state::RELEASED;
    for (message, record) in (1..).zip(before) {
        let mut expected = Message { state, ..record };
        expected.vector[2] = Pair::EMPTY;
        assert_eq!(house.table().message(message), expected);
    }
    assert!(!house.table().message(1).vector[1].is_empty());
}

/// "1 to 16 held messages."
#[test]
fn sets_of_every_size() {
    for count in 1..=16 {
        let messages: Vec<u32> = (1..=count).collect();
        let mut house = with_sent(20);
        assert_eq!(house.release_set(&messages), "set_released 0");
        let released = states(&house, &messages);
        assert!(released.iter().all(|&state| state == state::RELEASED));
        assert_eq!(house.table().message(count + 1).state, state::HELD);
    }
    for count in [0, 17, 18, 19, 20] {
        let messages: Vec<u32> = (1..=count).collect();
        assert_eq!(with_sent(20).release_set(&messages), "refused 6");
    }
}

/// "If one of them is for the desk, the union must be 0", at any degree; the others go with it or not at all.
#[test]
fn one_reading_asks_for_nobody_to_be_named() {
    for degree in 0..=3 {
        let mut house = reel(&[2, DESK, 2]);
        house.go_on(&format!("K 1 {degree}"));
        assert_eq!(house.release_set(&[2, 3, 4]), "set_held 2", "{degree}");
        let without = house.clone().release_set(&[2, 4]);
        let expected = if degree > 0 {
            "set_released 2"
        } else {
            "set_held 2"
        };
        assert_eq!(without, expected, "{degree}");
        house.go_on("L 1 1");
        assert_eq!(house.release_set(&[2, 3, 4]), "set_released 0", "{degree}");
        let let_out = [state::RELEASED, state::PUBLISHED, state::RELEASED];
        assert_eq!(states(&house, &[2, 3, 4]), let_out);
        assert_eq!(house.ledger[..4], [1, 3, 71, 0]);
    }
}

/// A reading from older work could go by itself; in a set it waits for the others.
#[test]
fn a_reading_that_could_go_by_itself_stays_with_its_set() {
    let mut house = House::after("O 3 3\nS 1 8 70");
    bring(&mut house, 0, 1);
    house.go_on("S 1 2 71");
    assert_eq!(house.release_set(&[1, 3]), "set_held 2");
    assert_eq!(house.clone().say("R 1"), "released 1 0");
    assert_eq!(house.clone().say("R 3"), "released 3 2");
    assert_eq!(house.release_set(&[1]), "set_released 0");
}

/// "Desk messages enter the ledger in the order given", after what stands there.
#[test]
fn readings_enter_the_ledger_in_the_order_given() {
    let mut house = House::after("O 2 0\nS 0 8 70\nS 0 8 71\nS 0 1 72\nS 0 8 73\nS 1 8 74\nR 5");
    assert_eq!(house.release_set(&[4, 3, 1, 2]), "set_released 0");
    assert_eq!(house.ledger[..10], [4, 5, 74, 4, 73, 1, 70, 2, 71, 0]);
}

/// "18 when publishing would carry the count past 128": all readings of the set are counted.
#[test]
fn a_set_needs_room_for_all_its_readings() {
    let script = "O 2 0\nS 0 8 1\nS 0 1 2\nS 0 8 3\nS 0 8 4";
    for count in 120..=ENTRIES {
        let mut house = House::after(script);
        house.ledger = words_of(&vec![Entry::default(); count as usize]);
        let answer = house.release_set(&[1, 2, 3, 4]);
        if count + 3 <= ENTRIES {
            assert_eq!(answer, "set_released 0");
            assert_eq!(house.ledger[0], count + 3);
        } else {
            assert_eq!(answer, "refused 18");
            assert_eq!(states(&house, &[1, 2, 3, 4]), [state::HELD; 4]);
            assert_eq!(house.release_set(&[2]), "set_released 0");
        }
    }
}

/// The step by a release instead of a set of one.
fn as_release(message: u32, answer: Answer) -> Answer {
    match answer {
        Answer::SetReleased { mask } => Answer::Released { message, mask },
        Answer::SetHeld { mask } => Answer::Held { message, mask },
        other => other,
    }
}

/// What a step makes of a table and a ledger.
fn done(house: &House, command: Command) -> (Answer, House) {
    let mut house = house.clone();
    let answer = step(&mut house.words, &mut house.ledger, command);
    (answer, house)
}

/// Tables and ledgers, of lists and lent, with all their messages and two that aren't there.
fn houses() -> impl Iterator<Item = House> {
    let mut random = Random::new(5);
    let lent = (0..60).map(move |_| House {
        words: set_table(&mut random),
        ledger: sound_ledger(&mut random),
    });
    let walked = (0..20).map(|seed| {
        let mut walk = Walk::new(seed, &Profile::SETS);
        walk.by_ref().for_each(drop);
        House {
            words: walk.table().to_vec(),
            ledger: walk.ledger().to_vec(),
        }
    });
    lent.chain(walked)
}

#[test]
fn a_set_of_one_is_a_release() {
    let mut let_out = 0;
    for house in houses() {
        for message in 0..=house.words[1] + 1 {
            let messages = Messages::of(&[message]);
            let (answer, after) = done(&house, Command::ReleaseSet { messages });
            let (by_release, expected) = done(&house, Command::Release { message });
            assert_eq!(as_release(message, answer), by_release, "{message}");
            assert!(after.words == expected.words && after.ledger == expected.ledger);
            let_out += u32::from(matches!(answer, Answer::SetReleased { .. }));
        }
    }
    assert!(let_out > 1_000, "{let_out}");
}

/// Where a set goes, each of its messages would have gone by itself, and leaves the same.
#[test]
fn a_set_that_goes_leaves_what_its_releases_leave() {
    let mut random = Random::new(6);
    let mut let_out = 0;
    for house in houses() {
        for _ in 0..40 {
            let messages = set(&mut random, &house.words);
            let (answer, after) = done(&house, Command::ReleaseSet { messages });
            let Answer::SetReleased { mask } = answer else {
                assert!(after.words == house.words && after.ledger == house.ledger);
                continue;
            };
            let (mut one_by_one, mut union) = (house.clone(), 0);
            for &message in messages.iter() {
                let (answer, after) = done(&one_by_one, Command::Release { message });
                let Answer::Released { mask, .. } = answer else {
                    panic!("{messages:?}: {answer:?}");
                };
                union |= mask;
                one_by_one = after;
            }
            assert_eq!(union, mask, "{messages:?}");
            assert!(after.words == one_by_one.words && after.ledger == one_by_one.ledger);
            let_out += 1;
        }
    }
    assert!(let_out > 500, "{let_out}");
}

/// A set is let out under the degree of its moment, and of its sender alone.
#[test]
fn the_degree_is_the_senders() {
    let mut house = resting_on(3, &[1, 2]);
    house.lend(|table| {
        for c in [1, 2] {
            let counts = table.controller(c);
            table.set_controller(
                c,
                Controller {
                    degree: 3,
                    ..counts
                },
            );
        }
    });
    assert_eq!(house.release_set(&[1, 2]), "set_held 6");
    house.go_on("K 0 2\nK 1 0");
    assert_eq!(house.release_set(&[1, 2]), "set_released 6");
}

/// "Release: 1 2 14 4 6 7 15 18": each comes before all that follow it.
mod refusals {
    use super::*;

    /// Messages 1 and 2 of controller 0 are held, 2 for the desk, 3 is held and of controller 1, and 4 is
    /// delivered. There is no message 5.
    fn house() -> House {
        House::after("O 2 0\nS 0 1 7\nS 0 8 7\nS 1 0 7\nS 0 1 7\nR 4\nD 4\nC 1")
    }

    fn expect(house: &mut House, refusal: Refusal, lists: &[&[u32]]) {
        for list in lists {
            let answer = house.release_set(list);
            assert_eq!(answer, format!("refused {refusal}"), "{list:?}");
        }
    }

    /// Lists that are refused for their own sake: 4, 6, 7 and 15, in each with all that come after it.
    const FOR_THEMSELVES: [(Refusal, &[&[u32]]); 4] = [
        (
            refusal::MESSAGE,
            &[
                &[0],
                &[5],
                &[1, u32::MAX],
                &[5, 5],
                &[0; 17],
                &[4, 3, 1, 0],
                &[1, 1, 3, 4, 5],
            ],
        ),
        (
            refusal::SAME_CONTROLLER,
            &[
                &[],
                &[1, 1],
                &[1; 17],
                &[4, 4],
                &[3, 1, 2, 3],
                &[1, 3, 4, 1],
            ],
        ),
        (refusal::STATE, &[&[4], &[1, 4], &[3, 4], &[4, 3, 2, 1]]),
        (refusal::SENDERS, &[&[1, 3], &[3, 1], &[2, 3], &[1, 2, 3]]),
    ];

    #[test]
    fn come_in_their_order() {
        let mut house = house();
        house.ledger = words_of(&[Entry::default(); 128]);
        for (refusal, lists) in FOR_THEMSELVES {
            expect(&mut house, refusal, lists);
        }
        expect(
            &mut house,
            refusal::LEDGER_USED_UP,
            &[&[2], &[1, 2], &[2, 1]],
        );
        assert_eq!(house.release_set(&[1]), "set_released 0");
    }

    #[test]
    fn the_host_comes_first() {
        let all: Vec<&[u32]> = FOR_THEMSELVES
            .iter()
            .flat_map(|(_, lists)| lists.iter().copied())
            .collect();
        let mut random = Random::new(7);
        for _ in 0..50 {
            let mut house = house();
            house.ledger = damaged_ledger(&mut random);
            expect(&mut house, refusal::LEDGER, &all);
            expect(&mut house, refusal::LEDGER, &[&[1], &[2]]);
            house.words[2] = 1;
            expect(&mut house, refusal::FORM, &all);
            house.words.pop();
            expect(&mut house, refusal::LENGTH, &all);
        }
    }

    /// A set that stays held is not refused for the ledger.
    #[test]
    fn a_full_ledger_comes_after_the_union() {
        let mut house = House::after("O 2 2");
        bring(&mut house, 0, 1);
        house.go_on("S 1 8 7\nS 1 8 8");
        house.ledger = words_of(&[Entry::default(); 127]);
        assert_eq!(house.release_set(&[2, 3]), "set_held 2");
        house.go_on("C 1");
        expect(&mut house, refusal::LEDGER_USED_UP, &[&[2, 3]]);
        assert_eq!(house.release_set(&[3]), "set_released 0");
        expect(&mut house, refusal::LEDGER_USED_UP, &[&[2]]);
    }
}
