//! The desk and its ledger: what goes out, what is held back, and what is written down of it.

mod common;

use common::{bring, House};
use reference::ledger::{words_of, Entry, ENTRIES};
use reference::table::{state, Message, DESK};
use reference::vector::{Pair, Vector};

/// A ledger with these pairs of message number and payload.
fn ledger_of(entries: &[(u32, u32)]) -> Vec<u32> {
    let entries: Vec<Entry> = entries
        .iter()
        .map(|&(message, payload)| Entry { message, payload })
        .collect();
    words_of(&entries)
}

fn set_message(house: &mut House, message: u32, change: impl Fn(&mut Message)) {
    house.lend(|table| {
        let mut record = table.message(message);
        change(&mut record);
        table.set_message(message, &record);
    });
}

fn state_of(house: &House, message: u32) -> u32 {
    house.table().message(message).state
}

/// Controller 1 has an interval that isn't stable, and has sent message 2 to the desk from it.
fn volatile_reading() -> House {
    let mut house = House::after("O 2 2");
    bring(&mut house, 0, 1);
    assert_eq!(house.say("S 1 8 9"), "sent 2");
    house
}

/// "Receiver 8 is the desk", in houses of every size; and "the answer to publishing is `released m 0`".
#[test]
fn a_reading_goes_out_with_mask_0_at_any_degree() {
    for n in 1..=8 {
        for degree in 0..=n {
            let mut house = House::after(&format!("O {n} {degree}"));
            assert_eq!(house.say("S 0 8 7"), "sent 1");
            let sent = house.table().message(1);
            assert_eq!((sent.state, sent.receiver), (state::HELD, DESK));
            assert_eq!(house.ledger, ledger_of(&[]));
            assert_eq!(house.say("R 1"), "released 1 0");
            let published = Message {
                state: state::PUBLISHED,
                ..sent
            };
            assert_eq!(house.table().message(1), published);
            assert_eq!(house.ledger, ledger_of(&[(1, 7)]));
        }
    }
}

/// "A message to the desk is released only with mask 0, at any K."
#[test]
fn a_reading_that_could_be_revoked_is_held_at_any_degree() {
    for degree in 0..=2 {
        let mut house = volatile_reading();
        house.go_on(&format!("K 1 {degree}"));
        let before = house.clone();
        assert_eq!(house.say("R 2"), "held 2 2");
        assert!(house.words == before.words && house.ledger == before.ledger);
    }
    let mut house = volatile_reading();
    house.go_on("L 1 1");
    assert_eq!(house.say("R 2"), "released 2 0");
    assert_eq!(house.ledger, ledger_of(&[(2, 9)]));
}

#[test]
fn a_reading_waits_for_word_of_what_others_have_logged() {
    let mut house = House::after("O 3 3");
    bring(&mut house, 0, 1);
    bring(&mut house, 1, 2);
    house.go_on("S 2 8 5");
    assert_eq!(house.say("R 3"), "held 3 6");
    house.go_on("C 2\nC 1");
    assert_eq!(house.say("R 3"), "held 3 2");
    house.go_on("T 1 2");
    assert_eq!(house.say("R 3"), "released 3 0");
    assert_eq!(house.ledger, ledger_of(&[(3, 5)]));
}

/// "The filtered vector is stored", and it is empty.
#[test]
fn a_published_vector_is_empty() {
    let mut house = House::after("O 3 0\nS 0 8 7");
    set_message(&mut house, 1, |record| record.vector[2] = Pair::new(4, 9));
    house.lend(|table| table.set_known(0, 2, 4, 8));
    assert_eq!(house.say("R 1"), "held 1 4");
    house.lend(|table| table.set_known(0, 2, 4, 9));
    assert_eq!(house.say("R 1"), "released 1 0");
    let record = house.table().message(1);
    assert_eq!(record.state, state::PUBLISHED);
    assert_eq!(record.vector, Vector::default());
}

/// "In the order of publishing", which need not be that of sending.
#[test]
fn entries_stand_in_the_order_of_publishing() {
    let mut house = House::after("O 2 2\nS 0 8 70\nS 1 8 71\nS 0 1 72\nS 1 8 4294967295");
    house.go_on("R 4\nR 1\nR 3\nR 2");
    let entries = [(4, u32::MAX), (1, 70), (2, 71)];
    assert_eq!(house.ledger, ledger_of(&entries));
    assert_eq!(house.ledger[..8], [3, 4, u32::MAX, 1, 70, 2, 71, 0]);
    assert_eq!(state_of(&house, 3), state::RELEASED);
}

#[test]
fn what_is_for_the_desk_is_never_delivered() {
    let mut house = volatile_reading();
    assert_eq!(house.say("D 2"), "refused 7");
    house.go_on("C 1\nR 2");
    for line in ["D 2", "R 2"] {
        assert_eq!(house.say(line), "refused 7", "{line}");
    }
    set_message(&mut house, 2, |record| record.state = state::DROPPED);
    for line in ["D 2", "R 2"] {
        assert_eq!(house.say(line), "refused 7", "{line}");
    }
}

#[test]
fn a_published_reading_stays_published() {
    let mut house = volatile_reading();
    house.go_on("C 1\nR 2\nT 1 0");
    let ledger = house.ledger.clone();
    house.go_on("S 0 1 4\nR 3\nD 3\nX 1\nX 0\nH 1 0 0\nH 0 1 0\nX 1\nH 0 1 1");
    assert_eq!(state_of(&house, 2), state::PUBLISHED);
    assert!(house.ledger == ledger);
}

/// "Held messages from c with sending number above k become dropped", and so never go out.
#[test]
fn a_held_reading_is_dropped_with_its_sending_interval() {
    let mut house = volatile_reading();
    assert_eq!(house.say("X 1"), "crashed 1 0 1 1 0");
    assert_eq!(state_of(&house, 2), state::DROPPED);
    assert_eq!(house.say("R 2"), "refused 7");

    let mut house = House::after("O 3 3");
    bring(&mut house, 0, 1);
    bring(&mut house, 1, 2);
    house.go_on("S 2 8 5\nS 1 8 6\nX 1");
    assert_eq!(state_of(&house, 3), state::HELD);
    assert_eq!(state_of(&house, 4), state::DROPPED);
    assert_eq!(house.say("H 2 1 0"), "rolled 2 1 1 0 1 0");
    assert_eq!(state_of(&house, 3), state::DROPPED);
    assert_eq!(house.ledger, ledger_of(&[]));
}

/// "An opening that is done clears the ledger", whatever stood in it.
#[test]
fn an_opening_clears_the_ledger() {
    let mut house = House::after("O 2 2\nS 0 8 7\nR 1");
    assert_eq!(house.say("O 2 3"), "refused 5");
    assert_eq!(house.ledger, ledger_of(&[(1, 7)]));
    assert_eq!(house.say("O 2 2"), "done");
    assert_eq!(house.ledger, ledger_of(&[]));
    for word in [1, 128, 129, u32::MAX] {
        house.ledger.fill(word);
        assert_eq!(house.say("O 1 0"), "done");
        assert_eq!(house.ledger, ledger_of(&[]));
    }
}

/// All 128 messages of a house may be for the desk; the ledger has room for them, and for no more.
#[test]
fn a_house_can_fill_the_ledger() {
    let mut house = House::after("O 1 0");
    for message in 1..=128 {
        let payload = 1_000 - message;
        assert_eq!(
            house.say(&format!("S 0 8 {payload}")),
            format!("sent {message}")
        );
        let released = format!("released {message} 0");
        assert_eq!(house.say(&format!("R {message}")), released);
    }
    let entries: Vec<(u32, u32)> = (1..=128)
        .map(|message| (message, 1_000 - message))
        .collect();
    assert_eq!(house.ledger, ledger_of(&entries));
    assert_eq!(house.say("S 0 8 7"), "refused 11");
    assert_eq!(house.say("R 129"), "refused 4");
}

/// "18 when publishing would carry the count past 128." Only a lent ledger is full while a message is
/// held.
#[test]
fn the_129th_entry_is_refused() {
    let mut house = House::after("O 1 0\nS 0 8 7\nS 0 8 8");
    house.ledger = words_of(&[Entry::default(); ENTRIES as usize - 1]);
    assert_eq!(house.say("R 2"), "released 2 0");
    assert_eq!(house.ledger[0], 128);
    assert_eq!(house.ledger[255..], [2, 8]);
    assert_eq!(house.say("R 1"), "refused 18");
    assert_eq!(state_of(&house, 1), state::HELD);
    // With room again, it goes out.
    house.ledger = ledger_of(&[]);
    assert_eq!(house.say("R 1"), "released 1 0");
}

#[test]
fn a_full_ledger_holds_up_only_the_desk() {
    let mut house = volatile_reading();
    house.go_on("S 0 1 3");
    house.ledger = words_of(&[Entry::default(); ENTRIES as usize]);
    assert_eq!(house.say("R 2"), "held 2 2");
    assert_eq!(house.say("R 3"), "released 3 0");
    assert_eq!(house.say("D 3"), "delivered 3 0 3");
}

/// Entries before the count are free; a release leaves them and writes the next one.
#[test]
fn entries_before_the_count_are_free() {
    let mut house = House::after("O 1 0\nS 0 8 7");
    let foreign = [(0, 0), (u32::MAX, u32::MAX), (1, 7), (1, 7)];
    house.ledger = ledger_of(&foreign);
    assert_eq!(house.say("R 1"), "released 1 0");
    let entries = [&foreign[..], &[(1, 7)]].concat();
    assert_eq!(house.ledger, ledger_of(&entries));
}

/// "14 when the ledger's length is not 257, its count is above 128, or a pair past the count is not 0",
/// for every release, whomever the message is for.
mod ledgers_refused {
    use super::*;

    /// Message 1 is for the desk and message 2 for a controller; both would be let out.
    fn ready() -> House {
        House::after("O 2 2\nS 0 8 7\nS 0 1 7")
    }

    fn expect_refused(ledger: &[u32], why: &str) {
        for line in ["R 1", "R 2"] {
            let mut house = ready();
            house.ledger = ledger.to_vec();
            assert_eq!(house.say(line), "refused 14", "{line} with {why}");
        }
    }

    #[test]
    fn of_another_length() {
        for length in [0, 1, 256, 258, 385] {
            expect_refused(&vec![0; length], "a wrong length");
        }
        let mut house = ready();
        house.ledger = vec![0; 257];
        house.go_on("R 1\nR 2");
    }

    #[test]
    fn with_a_count_above_128() {
        for count in [129, 256, u32::MAX] {
            for word in [0, 5] {
                let mut ledger = vec![word; 257];
                ledger[0] = count;
                expect_refused(&ledger, "a count too high");
            }
        }
    }

    #[test]
    fn with_a_word_past_the_count() {
        for count in [0, 1, 64, 127] {
            for position in [1 + 2 * count, 2 + 2 * count, 255, 256] {
                let mut ledger = ledger_of(&vec![(3, 4); count]);
                ledger[position] = 1;
                expect_refused(&ledger, "a word past the count");
                ledger[position] = 0;
                let mut house = ready();
                house.ledger = ledger;
                house.go_on("R 1\nR 2");
            }
        }
    }
}

/// No step but a release and an opening looks at the ledger.
#[test]
fn other_steps_go_on_with_any_ledger() {
    for ledger in [vec![], vec![9; 257], vec![u32::MAX; 300]] {
        let mut house = House::after("O 2 2\nS 0 1 7\nR 1");
        house.ledger = ledger;
        house.go_on("K 0 1\nS 1 8 7\nD 1\nL 1 1\nC 1\nT 1 0\nX 1\nH 0 1 0");
        assert_eq!(house.say("R 2"), "refused 14");
    }
}

/// "A message for receiver 8 .. is never changed as a cause", though a lent table may name it as one.
mod as_a_cause {
    use super::*;

    /// Controller 1 has two intervals that a crash of its own, or the hearing of a crash of 0, removes.
    /// Their causes are messages 1 and 2.
    fn two_causes() -> House {
        let mut house = House::after("O 2 2");
        bring(&mut house, 0, 1);
        bring(&mut house, 0, 1);
        house.lend(|table| {
            table.set_end(0, 0, 3, 4);
            let mut place = table.place(1, 1);
            place.vector[0] = Pair::new(3, 5);
            table.set_place(1, 1, &place);
        });
        house
    }

    const REMOVING: [(&str, &str); 2] = [
        ("X 1", "crashed 1 0 1 2 0"),
        ("H 1 0 3", "rolled 1 1 2 0 0 3"),
    ];

    #[test]
    fn it_stays_whether_condemned_or_not() {
        for (line, answer) in REMOVING {
            for from in [state::HELD, state::DROPPED, state::PUBLISHED] {
                for pair in [Pair::EMPTY, Pair::new(3, 5)] {
                    let mut house = two_causes();
                    set_message(&mut house, 1, |record| {
                        record.receiver = DESK;
                        record.state = from;
                        record.vector[0] = pair;
                    });
                    let before = house.table().message(1);
                    assert_eq!(house.say(line), answer);
                    assert_eq!(house.table().message(1), before, "{line}, state {from}");
                    assert_eq!(state_of(&house, 2), state::RELEASED);
                }
            }
        }
    }

    /// Starting anew drops it all the same, if it is held and was sent from there.
    #[test]
    fn held_and_sent_from_a_removed_interval_it_is_dropped() {
        for (line, answer) in REMOVING {
            for (sender, number, state) in [
                (1, 2, state::DROPPED),
                (1, 64, state::DROPPED),
                (1, 1, state::HELD),
                (0, 2, state::HELD),
            ] {
                let mut house = two_causes();
                set_message(&mut house, 1, |record| {
                    record.receiver = DESK;
                    record.state = state::HELD;
                    record.sender = sender;
                    record.number = number;
                });
                assert_eq!(house.say(line), answer);
                assert_eq!(state_of(&house, 1), state, "{line}, {sender} {number}");
            }
        }
    }

    /// Published, it stays so even if a lent table says that it was sent from there.
    #[test]
    fn published_it_is_not_dropped() {
        for (line, answer) in REMOVING {
            let mut house = two_causes();
            set_message(&mut house, 1, |record| {
                record.receiver = DESK;
                record.state = state::PUBLISHED;
                record.sender = 1;
                record.number = 64;
            });
            assert_eq!(house.say(line), answer);
            assert_eq!(state_of(&house, 1), state::PUBLISHED);
        }
    }
}
