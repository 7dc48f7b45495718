//! Which crash `dropped` and `rolled` name: on tables and in lists written by hand, and the judge of it, who
//! accepts the right one and finds the others.

mod common;

use common::{sound, House};
use reference::demand::{check, Breach};
use reference::lines::render;
use reference::machine::{Answer, Command};
use reference::vector::Pair;

/// Message 1, for controller 3 and released, rests on (1,5) of controller 1 and on (0,3) of controller 2.
fn resting_on_two() -> House {
    let mut house = House::after("O 4 4\nS 0 3 7\nR 1");
    house.lend(|table| {
        let mut message = table.message(1);
        message.vector[1] = Pair::new(1, 5);
        message.vector[2] = Pair::new(0, 3);
        table.set_message(1, &message);
    });
    house
}

#[test]
fn of_several_the_lowest_is_named() {
    let mut house = resting_on_two();
    house.lend(|table| {
        table.set_end(3, 1, 1, 4);
        table.set_end(3, 2, 0, 2);
    });
    assert_eq!(house.say("D 1"), "dropped 1 1 1");
}

/// "With that pair's incarnation", whatever crashes came later and were heard.
#[test]
fn it_is_the_pairs_incarnation() {
    let mut house = resting_on_two();
    house.lend(|table| {
        let mut counts = table.controller(1);
        counts.incarnation = 9;
        table.set_controller(1, counts);
        for ended in [0, 1, 2, 8] {
            table.set_end(3, 1, ended, 4);
        }
    });
    assert_eq!(house.say("D 1"), "dropped 1 1 1");
}

/// A crash that the receiver hasn't heard is no reason to it, though it is in the own row of who crashed.
#[test]
fn it_is_a_crash_that_the_receiver_has_heard() {
    let mut house = resting_on_two();
    house.lend(|table| {
        table.set_end(1, 1, 1, 4);
        table.set_end(3, 2, 0, 2);
    });
    assert_eq!(house.say("D 1"), "dropped 1 2 0");
}

/// A pair at its end, or of an incarnation that wasn't ended, condemns nothing.
#[test]
fn a_pair_that_does_not_condemn_is_not_named() {
    let mut house = resting_on_two();
    house.lend(|table| {
        table.set_end(3, 1, 1, 5);
        table.set_end(3, 1, 0, 1);
        table.set_end(3, 2, 0, 2);
    });
    assert_eq!(house.say("D 1"), "dropped 1 2 0");
}

/// The receiver's own crash is one that it has heard.
#[test]
fn it_may_be_the_receivers_own_crash() {
    // Message 3 rests on work of controller 0 that is lost after it was let out.
    let script = "O 3 3\nS 2 0 7\nR 1\nD 1\nS 0 1 7\nR 2\nD 2\nS 1 0 7\nR 3\nX 0\nD 3";
    let list = sound(script);
    assert_eq!(last(&list), "dropped 3 0 0");
    assert_eq!(check(&list), []);
}

/// Message 3 rests on work of controllers 1 and 2; both are lost, and controller 1 crashes twice.
const TWICE: &str = "O 3 3\nS 0 1 7\nR 1\nD 1\nS 1 2 9\nR 2\nD 2\nS 2 0 5\nR 3\n\
                     X 1\nX 1\nX 2\nH 0 1 0\nH 0 1 1\nH 0 2 0\nD 3";
const DELIVERY: usize = 15;

fn last(list: &[(Command, Answer)]) -> String {
    list.last()
        .map_or_else(String::new, |(_, answer)| render(answer))
}

#[test]
fn the_right_crash_is_accepted_and_no_other() {
    let mut list = sound(TWICE);
    assert_eq!(last(&list), "dropped 3 1 0");
    assert_eq!(check(&list), []);
    let position = DELIVERY;
    for (crashed, incarnation) in [(2, 0), (1, 1), (1, 2), (0, 0), (3, 0)] {
        list[position].1 = Answer::Dropped {
            message: 3,
            crashed,
            incarnation,
        };
        assert_eq!(check(&list), [Breach::WrongCrash { position }]);
    }
}

/// Before it is heard, the crash of controller 1 is no reason, and after it that of controller 2 isn't the lowest.
#[test]
fn only_what_was_heard_counts() {
    let list = sound(&TWICE.replace("H 0 1 0\nH 0 1 1\n", ""));
    assert_eq!(last(&list), "dropped 3 2 0");
    assert_eq!(check(&list), []);
}

#[test]
fn a_rollback_names_the_crash_just_heard() {
    let mut list = sound("O 3 3\nS 0 1 7\nR 1\nD 1\nS 1 2 9\nR 2\nD 2\nX 1\nX 1\nH 2 1 1\nH 2 1 0");
    assert_eq!(last(&list[..10]), "heard 2");
    assert_eq!(last(&list), "rolled 2 1 1 0 1 0");
    assert_eq!(check(&list), []);
    let position = 10;
    for (crashed, incarnation) in [(2, 0), (1, 1), (0, 0)] {
        list[position].1 = Answer::Rolled {
            controller: 2,
            kept: 1,
            undone: 1,
            replayed: 0,
            crashed,
            incarnation,
        };
        assert_eq!(check(&list), [Breach::WrongCrash { position }]);
    }
}
