//! The rules on tables that no list of steps leads to: the words are read as written.

mod common;

use common::{bring, House};
use reference::table::{in_form, state, Controller, Message, Place};
use reference::vector::Pair;

/// Two controllers; controller 1 has three live intervals with causes 1 and 2, only the first stable.
fn two_deliveries() -> House {
    let mut house = House::after("O 2 2");
    bring(&mut house, 0, 1);
    bring(&mut house, 0, 1);
    house
}

fn set_message(house: &mut House, message: u32, change: impl Fn(&mut Message)) {
    house.lend(|table| {
        let mut record = table.message(message);
        change(&mut record);
        table.set_message(message, &record);
    });
}

#[test]
fn logging_assigns_the_known_word() {
    let mut house = two_deliveries();
    house.lend(|table| table.set_known(1, 1, 0, 40));
    assert_eq!(house.say("L 1 1"), "done");
    assert_eq!(house.table().known(1).word(1, 0), 2);
}

#[test]
fn a_checkpoint_with_nothing_to_log_leaves_the_known_word() {
    let mut house = two_deliveries();
    house.go_on("C 1");
    house.lend(|table| table.set_known(1, 1, 0, 40));
    let before = house.words.clone();
    assert_eq!(house.say("C 1"), "done");
    assert!(house.words == before, "repeating it changes nothing");
}

#[test]
fn telling_keeps_the_larger_word() {
    let mut house = House::after("O 2 2");
    house.lend(|table| {
        for (incarnation, own, theirs) in [(0, 5, 9), (7, 6, 2), (15, 3, 0)] {
            table.set_known(0, 0, incarnation, own);
            table.set_known(1, 0, incarnation, theirs);
        }
    });
    assert_eq!(house.say("T 0 1"), "done");
    let known = house.table().known(1);
    assert_eq!(
        [0, 7, 15].map(|incarnation| known.word(0, incarnation)),
        [9, 6, 3]
    );
}

/// "On a crash, the cause of each lost interval becomes released again, or dropped if its vector is
/// condemned to that controller by its ends after the crash."
mod lost_causes {
    use super::*;

    fn states<const N: usize>(house: &House, messages: [u32; N]) -> [u32; N] {
        messages.map(|message| house.table().message(message).state)
    }

    #[test]
    fn are_released_again_whatever_their_state_and_receiving_controller() {
        for (from, receiver) in (state::HELD..=state::DROPPED).flat_map(|s| [(s, 0), (s, 1)]) {
            let mut house = two_deliveries();
            // Still held, they would be dropped as sent from lost work.
            for message in [1, 2] {
                set_message(&mut house, message, |record| {
                    record.state = from;
                    record.sender = 1;
                    record.receiver = receiver;
                    record.number = 64;
                });
            }
            assert_eq!(house.say("X 1"), "crashed 1 0 1 2 0");
            let released = [state::RELEASED; 2];
            assert_eq!(states(&house, [1, 2]), released, "from state {from}");
        }
    }

    #[test]
    fn are_delivered_again() {
        let mut house = two_deliveries();
        house.go_on("L 1 1");
        assert_eq!(house.say("X 1"), "crashed 1 0 2 1 1");
        // The first delivery was logged, and stays.
        assert_eq!(states(&house, [1, 2]), [state::DELIVERED, state::RELEASED]);
        assert_eq!(house.say("D 1"), "refused 7");
        assert_eq!(house.say("R 2"), "refused 7");
        assert_eq!(house.say("D 2"), "delivered 2 1 4");
        let newest = house.table().newest(1);
        assert_eq!((newest.cause, newest.flag), (2, 0));
        // Lost once more, it is offered once more.
        assert_eq!(house.say("X 1"), "crashed 1 1 3 1 2");
        assert_eq!(house.say("D 2"), "delivered 2 2 5");
        assert_eq!(house.say("D 2"), "refused 7");
    }

    /// The own end word is written first: the last cause rests on the first interval that is lost.
    #[test]
    fn that_rest_on_what_was_just_lost_are_dropped() {
        let mut house = House::after("O 3 3");
        assert_eq!(bring(&mut house, 0, 1), "delivered 1 0 2");
        assert_eq!(bring(&mut house, 1, 2), "delivered 2 0 2");
        assert_eq!(bring(&mut house, 2, 1), "delivered 3 0 3");
        assert_eq!(house.table().message(3).vector[1], Pair::new(0, 2));
        assert_eq!(house.say("X 1"), "crashed 1 0 1 2 0");
        assert_eq!(
            states(&house, [1, 2, 3]),
            [state::RELEASED, state::DELIVERED, state::DROPPED]
        );
        assert_eq!(house.say("D 3"), "refused 7");
        assert_eq!(house.say("D 1"), "delivered 1 1 3");
    }

    #[test]
    fn are_judged_by_the_end_word_of_the_crash() {
        // The number kept is 2; another end word may stand there before.
        for before in [0, 1, 64] {
            for (pair, state) in [
                (Pair::new(0, 3), state::DROPPED),
                (Pair::new(0, 2), state::RELEASED),
                (Pair::new(1, 3), state::RELEASED),
            ] {
                let mut house = two_deliveries();
                house.go_on("L 1 1");
                house.lend(|table| table.set_end(1, 1, 0, before));
                set_message(&mut house, 2, |record| record.vector[1] = pair);
                assert_eq!(house.say("X 1"), "crashed 1 0 2 1 1");
                assert_eq!(states(&house, [2]), [state], "{pair:?} over {before}");
                assert_eq!(house.table().ends(1).word(1, 0), 2);
            }
        }
    }

    #[test]
    fn are_judged_by_crashes_that_their_controller_heard_before() {
        for (holder, pair, state) in [
            (1, Pair::new(3, 5), state::DROPPED),
            (1, Pair::new(3, 4), state::RELEASED),
            (1, Pair::new(2, 5), state::RELEASED),
            (0, Pair::new(3, 5), state::RELEASED),
        ] {
            let mut house = two_deliveries();
            house.lend(|table| table.set_end(holder, 0, 3, 4));
            set_message(&mut house, 1, |record| record.vector[0] = pair);
            assert_eq!(house.say("X 1"), "crashed 1 0 1 2 0");
            assert_eq!(
                states(&house, [1, 2]),
                [state, state::RELEASED],
                "{pair:?}, an end that {holder} has heard"
            );
        }
    }
}

/// "State 4 isn't given any more; a table that has it stays in form."
#[test]
fn a_lost_message_stays_lost_as_long_as_its_interval_stays() {
    let mut house = two_deliveries();
    house.go_on("L 1 1\nS 0 1 7");
    for message in [1, 3] {
        set_message(&mut house, message, |record| record.state = state::LOST);
    }
    // One of them is the cause of a kept interval, the other of none.
    for line in ["R 1", "D 1", "R 3", "D 3"] {
        assert_eq!(house.say(line), "refused 7", "{line}");
    }
    house.go_on("K 0 1\nS 1 0 7\nR 4\nD 4\nT 0 1\nX 1\nC 1\nD 2\nL 1 1");
    assert_eq!(house.say("H 0 1 0"), "rolled 0 1 1 0 1 0");
    for message in [1, 3] {
        assert_eq!(house.table().message(message).state, state::LOST);
    }
}

#[test]
fn held_messages_are_dropped_by_number_alone() {
    let mut house = House::after("O 2 2\nS 1 0 7\nS 1 0 7\nS 0 1 7");
    let named = [(1, 9, 1), (2, 3, 2), (3, 0, 2)];
    for (message, incarnation, number) in named {
        set_message(&mut house, message, |record| {
            record.incarnation = incarnation;
            record.number = number;
        });
    }
    assert_eq!(house.say("X 1"), "crashed 1 0 1 0 0");
    let states = [1, 2, 3].map(|message| house.table().message(message).state);
    assert_eq!(states, [state::HELD, state::DROPPED, state::HELD]);
}

#[test]
fn a_delivery_is_condemned_before_it_is_filtered() {
    let mut house = House::after("O 2 2\nS 0 1 7\nR 1");
    set_message(&mut house, 1, |record| record.vector[0] = Pair::new(2, 5));
    house.lend(|table| {
        table.set_known(1, 0, 2, 64);
        table.set_end(1, 0, 2, 4);
    });
    assert_eq!(house.say("D 1"), "dropped 1 0 2");
    assert_eq!(house.table().message(1).state, state::DROPPED);
}

#[test]
fn a_message_to_oneself_is_in_form_and_delivered() {
    let mut house = House::after("O 2 2\nS 0 1 7");
    set_message(&mut house, 1, |record| {
        record.receiver = 0;
        record.vector[0] = Pair::new(9, 9);
    });
    assert_eq!(house.say("R 1"), "released 1 1");
    assert_eq!(house.say("D 1"), "delivered 1 0 2");
    assert_eq!(house.table().newest(0).vector[0], Pair::new(0, 2));
}

#[test]
fn a_place_and_its_controller_may_differ_in_incarnation() {
    let mut house = House::after("O 2 2");
    house.lend(|table| {
        let newest = Place {
            incarnation: 9,
            ..table.newest(0)
        };
        table.set_place(0, 0, &newest);
        let counts = Controller {
            incarnation: 4,
            ..table.controller(0)
        };
        table.set_controller(0, counts);
    });
    // A message is from the interval; a delivery and a crash go by the controller.
    assert_eq!(house.say("S 0 1 7"), "sent 1");
    let message = house.table().message(1);
    assert_eq!((message.incarnation, message.number), (9, 1));
    assert_eq!(bring(&mut house, 1, 0), "delivered 2 4 2");
    assert_eq!(house.say("X 0"), "crashed 0 4 1 1 0");
    assert_eq!(house.table().newest(0).incarnation, 5);
    assert!(in_form(&house.words));
}

/// As [`two_deliveries`], where place 2 of controller 1 is condemned once a crash of 0 is heard.
fn condemned_place() -> House {
    let mut house = two_deliveries();
    house.lend(|table| {
        table.set_end(0, 0, 3, 4);
        let mut newest = table.newest(1);
        newest.vector[0] = Pair::new(3, 5);
        table.set_place(1, 2, &newest);
    });
    house
}

#[test]
fn a_hearing_logs_what_is_kept_and_starts_anew() {
    let mut house = condemned_place();
    house.lend(|table| table.set_known(1, 1, 0, 40));
    assert_eq!(house.say("H 1 0 3"), "rolled 1 2 1 1 0 3");
    let table = house.table();
    assert_eq!(table.known(1).word(1, 0), 2);
    assert_eq!(table.known(1).word(1, 1), 3);
    assert_eq!(table.ends(1).word(0, 3), 4);
    assert_eq!(table.known(1).word(0, 3), 4);
    assert_eq!(table.ends(1).word(1, 0), 0, "a rollback is no crash");
    let counts = Controller {
        degree: 2,
        incarnation: 1,
        live: 3,
        stable: 3,
    };
    assert_eq!(table.controller(1), counts);
    // The kept vector is that of place 1, its own pair replaced.
    let mut vector = [Pair::EMPTY; 8];
    vector[1] = Pair::new(1, 3);
    assert_eq!(table.newest(1).vector, vector);
}

#[test]
fn a_hearing_with_nothing_to_log_leaves_the_own_known_word() {
    let mut house = condemned_place();
    house.go_on("L 1 2");
    house.lend(|table| table.set_known(1, 1, 0, 40));
    assert_eq!(house.say("H 1 0 3"), "rolled 1 2 1 1 0 3");
    assert_eq!(house.table().known(1).word(1, 0), 40);
}

#[test]
fn a_hearing_only_raises_the_known_word() {
    let mut house = condemned_place();
    house.lend(|table| table.set_known(1, 0, 3, 50));
    assert_eq!(house.say("H 1 0 3"), "rolled 1 2 1 1 0 3");
    assert_eq!(house.table().known(1).word(0, 3), 50);
}

#[test]
fn an_undone_cause_is_dropped_or_released_by_its_own_vector() {
    for (pair, state) in [
        (Pair::new(3, 5), state::DROPPED),
        (Pair::new(3, 4), state::RELEASED),
        (Pair::EMPTY, state::RELEASED),
    ] {
        let mut house = condemned_place();
        set_message(&mut house, 2, |record| {
            record.state = state::LOST;
            record.vector[0] = pair;
        });
        assert_eq!(house.say("H 1 0 3"), "rolled 1 2 1 1 0 3");
        assert_eq!(house.table().message(2).state, state, "{pair:?}");
        assert_eq!(house.table().message(1).state, state::DELIVERED);
    }
}

#[test]
fn place_0_is_never_undone() {
    let mut house = House::after("O 2 2");
    house.lend(|table| {
        table.set_end(0, 0, 3, 4);
        let mut first = table.place(1, 0);
        first.vector[0] = Pair::new(3, 5);
        table.set_place(1, 0, &first);
    });
    assert_eq!(house.say("H 1 0 3"), "heard 1");
}

#[test]
fn older_ends_condemn_at_a_new_hearing() {
    let mut house = condemned_place();
    house.lend(|table| table.set_end(0, 0, 7, 1));
    house.go_on("H 1 0 7");
    assert_eq!(
        house.table().controller(1).live,
        3,
        "nothing of incarnation 7"
    );
    // An end word that stood there before, unheeded, is heeded now.
    let mut house = condemned_place();
    house.lend(|table| {
        table.set_end(1, 0, 3, 4);
        table.set_end(0, 0, 7, 1);
    });
    assert_eq!(house.say("H 1 0 7"), "rolled 1 2 1 1 0 7");
}

/// Each vector that a step stores is filtered for the one who stores it: of two pairs the one that is
/// known stable goes, and the other stays.
mod filtering {
    use super::*;

    const STABLE: Pair = Pair::new(2, 6);
    const VOLATILE: Pair = Pair::new(2, 7);

    /// Controller 0, who knows owner 2 stable up to (2,6) and nothing of owner 3.
    fn knowing() -> House {
        let mut house = House::after("O 4 4");
        house.lend(|table| table.set_known(0, 2, 2, 6));
        house
    }

    fn set_newest(house: &mut House, controller: usize, pairs: [Pair; 2]) {
        house.lend(|table| {
            let mut record = table.newest(controller);
            [record.vector[2], record.vector[3]] = pairs;
            table.set_place(controller, record.number as usize - 1, &record);
        });
    }

    fn stored(house: &House) -> [Pair; 2] {
        let vector = house.table().newest(0).vector;
        [vector[2], vector[3]]
    }

    #[test]
    fn a_sent_message() {
        for (pair, kept) in [(STABLE, Pair::EMPTY), (VOLATILE, VOLATILE)] {
            let mut house = knowing();
            set_newest(&mut house, 0, [pair, STABLE]);
            assert_eq!(house.say("S 0 1 7"), "sent 1");
            let vector = house.table().message(1).vector;
            // The own pair (0,1) is stable, and known so to its owner.
            let expected = [Pair::EMPTY, Pair::EMPTY, kept, STABLE];
            assert_eq!(vector[..4], expected);
        }
    }

    #[test]
    fn a_released_message() {
        for (pair, kept, mask) in [(STABLE, Pair::EMPTY, 8), (VOLATILE, VOLATILE, 12)] {
            let mut house = knowing();
            house.go_on("S 0 1 7");
            set_message(&mut house, 1, |record| {
                [record.vector[2], record.vector[3]] = [pair, STABLE];
            });
            assert_eq!(house.say("R 1"), format!("released 1 {mask}"));
            let vector = house.table().message(1).vector;
            assert_eq!([vector[2], vector[3]], [kept, STABLE]);
        }
    }

    #[test]
    fn both_vectors_of_a_delivery() {
        for pairs in [[STABLE, VOLATILE], [VOLATILE, STABLE]] {
            let mut house = knowing();
            house.lend(|table| table.set_known(0, 3, 2, 6));
            house.go_on("S 1 0 7\nR 1");
            let kept = pairs.map(|pair| if pair == STABLE { Pair::EMPTY } else { pair });
            let mut receiving = house.clone();
            set_newest(&mut receiving, 0, pairs);
            assert_eq!(receiving.say("D 1"), "delivered 1 0 2");
            assert_eq!(stored(&receiving), kept, "the receiver's");
            set_message(&mut house, 1, |record| {
                [record.vector[2], record.vector[3]] = pairs;
            });
            assert_eq!(house.say("D 1"), "delivered 1 0 2");
            assert_eq!(stored(&house), kept, "the message's");
        }
    }

    #[test]
    fn the_kept_vector_of_a_new_start() {
        let mut house = knowing();
        set_newest(&mut house, 0, [STABLE, VOLATILE]);
        assert_eq!(house.say("X 0"), "crashed 0 0 1 0 0");
        assert_eq!(stored(&house), [Pair::EMPTY, VOLATILE]);
        // The kept interval itself is not written.
        let kept = house.table().place(0, 0).vector;
        assert_eq!([kept[2], kept[3]], [STABLE, VOLATILE]);
    }

    #[test]
    fn a_rollback_filters_by_what_it_just_heard() {
        let mut house = knowing();
        set_newest(&mut house, 0, [VOLATILE, VOLATILE]);
        bring(&mut house, 1, 0);
        // Place 1 rests on (2,8) of controller 2, whose crash kept number 7.
        set_newest(&mut house, 0, [Pair::new(2, 8), VOLATILE]);
        house.lend(|table| table.set_end(2, 2, 2, 7));
        assert_eq!(house.say("H 0 2 2"), "rolled 0 1 1 0 2 2");
        assert_eq!(stored(&house), [Pair::EMPTY, VOLATILE]);
    }
}
