//! The dispatcher: whom it serves and with which message, what it passes over, what it writes, and its refusals.

mod common;

use common::{bring, House};
use reference::demand::{check, Breach};
use reference::dispatched::{offered, Fate, Offered};
use reference::generate::{dispatch_table, Profile, Random, Walk};
use reference::machine::{step, Answer, Command};
use reference::table::{state, Table};
use reference::vector::Pair;

/// A house of so many with a message released for each of these receivers, in this order.
fn released_for(n: u32, receivers: &[u32]) -> House {
    let mut house = House::after(&format!("O {n} {n}"));
    for (message, receiver) in (1..).zip(receivers) {
        let sender = u32::from(*receiver == 0);
        house.go_on(&format!("S {sender} {receiver} 7\nR {message}"));
    }
    house
}

/// The answers to so many calls.
fn dispatch<const CALLS: usize>(house: &mut House) -> [String; CALLS] {
    [(); CALLS].map(|()| house.dispatch())
}

/// "N − 1 after opening", of any size, whatever stood there.
#[test]
fn an_opening_begins_the_round_at_0() {
    let mut house = House::after("O 8 8");
    for n in 1..=8 {
        for word in [0, 3, 7, 8, u32::MAX] {
            house.words[12] = word;
            assert_eq!(house.say("O 9 0"), "refused 5");
            assert_eq!(house.words[12], word);
            house.go_on(&format!("O {n} 0"));
            assert_eq!(house.table().served(), n - 1);
        }
    }
    let mut house = released_for(3, &[2, 1, 0]);
    assert_eq!(dispatch(&mut house), ["delivered 3 0 2"]);
}

/// "Goes round from the controller that is word 12 plus 1", and serves each in its turn.
#[test]
fn it_goes_round() {
    let mut house = released_for(3, &[0, 0, 0, 1, 1, 2]);
    let mut served = Vec::new();
    for expected in [
        "delivered 1 0 2",
        "delivered 4 0 2",
        "delivered 6 0 2",
        "delivered 2 0 3",
        "delivered 5 0 3",
        "delivered 3 0 4",
        "idle",
    ] {
        assert_eq!(house.dispatch(), expected);
        served.push(house.table().served());
    }
    assert_eq!(served, [0, 1, 2, 0, 1, 0, 0]);
}

/// "Of these it takes the lowest number", whenever it was released.
#[test]
fn it_takes_the_lowest_number() {
    let mut house = House::after("O 2 2\nS 0 1 7\nS 0 1 8\nS 0 1 9\nR 3\nR 2\nR 1");
    assert_eq!(
        dispatch(&mut house),
        ["delivered 1 0 2", "delivered 2 0 3", "delivered 3 0 4"]
    );
}

/// What is held, delivered or for the desk is no released message.
#[test]
fn only_what_is_released_is_taken() {
    let mut house = House::after("O 2 2\nS 0 1 7\nS 0 8 7\nR 2\nS 0 1 7");
    assert_eq!(dispatch(&mut house), ["idle"]);
    house.go_on("R 3");
    assert_eq!(dispatch(&mut house), ["delivered 3 0 2", "idle"]);
}

/// A delivery that somebody asked for by its number serves nobody in the round.
#[test]
fn other_deliveries_leave_the_round() {
    let mut house = released_for(3, &[0, 1, 2, 0]);
    assert_eq!(dispatch(&mut house), ["delivered 1 0 2"]);
    house.go_on("D 3");
    assert_eq!(house.table().served(), 0);
    assert_eq!(
        dispatch(&mut house),
        ["delivered 2 0 2", "delivered 4 0 3", "idle"]
    );
}

/// Has a message rest on an incarnation of controller 2 that its receiver, whose newest interval rests on another
/// one, doesn't know the end of.
fn let_wait(house: &mut House, message: u32) {
    house.lend(|table| {
        let mut record = table.message(message);
        let receiver = record.receiver as usize;
        record.vector[2] = Pair::new(1, 9);
        table.set_message(message, &record);
        let mut newest = table.newest(receiver);
        newest.vector[2] = Pair::new(0, 9);
        table.set_place(receiver, newest.number as usize - 1, &newest);
    });
}

/// One that waits is passed over, for a higher number or for another controller, and doesn't end the round.
#[test]
fn what_waits_is_passed_over() {
    let mut house = released_for(3, &[0, 0, 1]);
    let_wait(&mut house, 1);
    let_wait(&mut house, 3);
    assert_eq!(house.clone().say("D 1"), "waits 1");
    assert_eq!(dispatch(&mut house), ["delivered 2 0 2", "idle", "idle"]);
    // What they waited for is heard of, and they rest on lost work.
    house.lend(|table| {
        table.set_end(0, 2, 1, 3);
        table.set_end(1, 2, 1, 3);
    });
    assert_eq!(
        dispatch(&mut house),
        ["dropped 3 2 1", "dropped 1 2 1", "idle"]
    );
}

/// "12 delivery with 64 live, unless it drops or waits": one that would get it is passed over, one that drops isn't.
#[test]
fn a_full_receiver_starves_nobody() {
    let mut house = House::after("O 3 3");
    (2..=64).for_each(|_| drop(bring(&mut house, 1, 0)));
    house.go_on("S 1 0 7\nR 64\nS 2 0 7\nR 65\nS 0 1 7\nR 66\nS 1 2 7\nR 67");
    assert_eq!(house.clone().say("D 64"), "refused 12");
    assert_eq!(
        dispatch(&mut house),
        ["delivered 66 0 2", "delivered 67 0 2", "idle"]
    );
    house.lend(|table| {
        let mut record = table.message(65);
        record.vector[2] = Pair::new(0, 9);
        table.set_message(65, &record);
        table.set_end(0, 2, 0, 3);
    });
    assert_eq!(dispatch(&mut house), ["dropped 65 2 0", "idle"]);
    assert_eq!(house.table().served(), 0);
}

/// Who is served with a message that is dropped is served, too.
#[test]
fn a_dropped_message_counts() {
    let mut house = released_for(3, &[0, 0, 1]);
    house.lend(|table| {
        let mut record = table.message(1);
        record.vector[2] = Pair::new(0, 9);
        table.set_message(1, &record);
        table.set_end(0, 2, 0, 3);
    });
    assert_eq!(dispatch(&mut house), ["dropped 1 2 0"]);
    assert_eq!(house.table().served(), 0);
    assert_eq!(
        dispatch(&mut house),
        ["delivered 3 0 2", "delivered 2 0 2", "idle"]
    );
}

/// A message offered again after a crash is dispatched again, and a gap forces its checkpoint as by `D`.
#[test]
fn it_is_a_delivery_like_any_other() {
    let mut house = released_for(2, &[1]);
    house.set_gap(2);
    assert_eq!(dispatch(&mut house), ["delivered 1 0 2"]);
    assert_eq!(house.say("X 1"), "crashed 1 0 1 1 0");
    assert_eq!(dispatch(&mut house), ["delivered 1 1 3", "idle"]);
    assert_eq!(house.table().newest(1).flag, 1);
    assert_eq!(house.table().message(1).state, state::DELIVERED);
}

/// "Word 12 plus 1, less n as often as needed": every word up to 7, in a house of every size.
#[test]
fn a_lent_word_may_be_any_up_to_7() {
    for n in 2..=8 {
        let receivers: Vec<u32> = (0..n).collect();
        for word in 0..=7 {
            let mut house = released_for(n, &receivers);
            house.words[12] = word;
            let first = (word + 1) % n;
            for turn in 0..n {
                let c = (first + turn) % n;
                assert_eq!(house.dispatch(), format!("delivered {} 0 2", c + 1));
                assert_eq!(house.table().served(), c, "from {word} of {n}");
            }
            assert_eq!(house.dispatch(), "idle");
        }
    }
    // A house of one sends nothing to itself, but may be lent so.
    for word in 0..=7 {
        let mut house = House::after("O 1 1\nS 0 8 7");
        house.lend(|table| {
            let mut record = table.message(1);
            (record.receiver, record.state) = (0, state::RELEASED);
            table.set_message(1, &record);
            table.set_served(word);
        });
        assert_eq!(dispatch(&mut house), ["delivered 1 0 2", "idle"]);
        assert_eq!(house.table().served(), 0);
    }
}

/// An idle dispatcher leaves a lent word as it is, also one that is no controller's.
#[test]
fn idle_leaves_the_word() {
    for n in 1..=8 {
        for word in 0..=7 {
            let mut house = House::after(&format!("O {n} 0"));
            house.words[12] = word;
            assert_eq!(dispatch(&mut house), ["idle", "idle"]);
            assert_eq!(house.words[12], word);
        }
    }
}

/// "Word 12 is in form up to 7"; the length comes first, nothing comes after the form, and no ledger is looked at.
#[test]
fn length_and_form_are_its_only_refusals() {
    let mut house = released_for(2, &[1]);
    for ledger in [vec![], vec![9; 3], vec![9; 257]] {
        house.ledger = ledger;
        assert_eq!(house.clone().dispatch(), "delivered 1 0 2");
    }
    for word in [8, 9, 128, u32::MAX] {
        house.words[12] = word;
        assert_eq!(house.dispatch(), "refused 2", "{word}");
        assert_eq!(house.say("D 1"), "refused 2", "{word}");
        let mut longer = house.clone();
        longer.words.push(0);
        assert_eq!(longer.dispatch(), "refused 1");
    }
    // Only an opening mends it.
    house.ledger = vec![0; 257];
    house.go_on("O 2 2");
    assert_eq!(house.table().served(), 1);
    for words in [vec![], vec![0; 15_151], vec![0; 15_153]] {
        assert_eq!(House::of(words).dispatch(), "refused 1");
    }
    assert_eq!(House::of(vec![0; 15_152]).dispatch(), "refused 2");
}

/// Tables of lists and lent ones.
fn tables() -> impl Iterator<Item = Vec<u32>> {
    let mut random = Random::new(3);
    let lent = (0..300).map(move |_| dispatch_table(&mut random));
    let walked = [&Profile::DISPATCH, &Profile::CROWDED, &Profile::CRASHES];
    let walked = walked.into_iter().flat_map(|profile| {
        (0..40).map(move |seed| {
            let mut walk = Walk::new(seed, profile);
            let steps = 40 + 7 * seed as usize;
            walk.by_ref().take(steps).for_each(drop);
            walk.table().to_vec()
        })
    });
    lent.chain(walked)
}

/// What a step answers on a copy of a table, and leaves.
fn done(words: &[u32], command: Command) -> (Answer, Vec<u32>) {
    let mut words = words.to_vec();
    let answer = step(&mut words, &mut [], command);
    (answer, words)
}

/// Whom it should serve: said a second time, by trying every delivery.
fn expected(words: &[u32]) -> Option<Offered> {
    let n = words[0];
    let turn = |offered: &Offered| (offered.receiver + 8 * n - words[12] - 1) % n;
    let taken = offered(words).into_iter();
    let taken = taken.filter(|offered| offered.fate.is_taken());
    taken.min_by_key(|offered| (turn(offered), offered.message))
}

/// A call answers and leaves what the delivery of its message does, and word 12 beside it.
#[test]
fn a_call_is_the_delivery_that_it_chooses() {
    let mut served = 0;
    for mut words in tables() {
        loop {
            let (answer, after) = done(&words, Command::Dispatch);
            let Some(Offered {
                message, receiver, ..
            }) = expected(&words)
            else {
                assert_eq!(answer, Answer::Idle);
                assert!(after == words);
                break;
            };
            let (by_number, mut left) = done(&words, Command::Deliver { message });
            left[12] = receiver;
            assert_eq!(answer, by_number);
            assert!(after == left, "{answer:?}");
            served += 1;
            words = after;
        }
    }
    assert!(served > 3_000, "{served}");
}

/// What is said of released messages here is what comes of their deliveries.
#[test]
fn fates_are_those_of_deliveries() {
    let mut seen = [0; 4];
    for words in tables() {
        let table = Table::new(&words[..]).expect("the right length");
        let is_released = |&message: &u32| table.message(message).state == state::RELEASED;
        let released = (1..=table.sent()).filter(is_released);
        let offered = offered(&words);
        assert!(released.eq(offered.iter().map(|offered| offered.message)));
        for Offered {
            message,
            receiver,
            fate,
        } in offered
        {
            assert_eq!(table.message(message).receiver, receiver);
            let answer = done(&words, Command::Deliver { message }).0;
            let expected = match answer {
                Answer::Delivered { .. } => Fate::Begins,
                Answer::Dropped { .. } => Fate::Drops,
                Answer::Waits { .. } => Fate::Waits,
                _ => Fate::NoPlace,
            };
            assert_eq!(fate, expected, "{answer:?}");
            seen[fate as usize] += 1;
        }
    }
    assert!(seen.iter().all(|&count| count > 300), "{seen:?}");
}

/// The history reads them as deliveries, and knows no other answer to a call.
#[test]
fn what_the_judge_makes_of_calls() {
    let script = "O 3 3\nS 0 1 7\nR 1\nD 1\nS 1 2 9\nR 2\nD 2\nX 1\nH 2 1 0";
    let mut list = common::sound(script);
    let deliveries: Vec<usize> = (0..list.len())
        .filter(|&position| matches!(list[position].0, Command::Deliver { .. }))
        .collect();
    for position in deliveries {
        list[position].0 = Command::Dispatch;
    }
    assert_eq!(check(&list), []);
    let dropped = |crashed| Answer::Dropped {
        message: 2,
        crashed,
        incarnation: 0,
    };
    let unreadable = Breach::Unreadable { position: 9 };
    let wrong = Breach::WrongCrash { position: 9 };
    for (answer, breach) in [
        (Answer::Idle, None),
        (dropped(1), None),
        (dropped(0), Some(wrong)),
        (Answer::Done, Some(unreadable)),
        (Answer::Waits { message: 2 }, Some(unreadable)),
    ] {
        let mut list = list.clone();
        list.push((Command::Dispatch, answer));
        assert_eq!(check(&list), Vec::from_iter(breach), "{answer:?}");
    }
    list.push((Command::Release { message: 2 }, Answer::Idle));
    assert_eq!(check(&list), [unreadable]);
}
