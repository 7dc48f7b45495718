//! The gap: which intervals are checkpointed as they begin, and what such a checkpoint writes.

mod common;

use common::{bring, House};
use reference::machine::Command;
use reference::table::{is_checkpoint, state, Place};
use reference::vector::Pair;

/// The numbers of a controller's flagged places.
fn flagged(house: &House, controller: usize) -> Vec<u32> {
    let table = house.table();
    let places = 0..table.controller(controller).live as usize;
    let places = places.map(|place| table.place(controller, place));
    let flagged = places.filter(|record| record.flag == 1);
    flagged.map(|record| record.number).collect()
}

/// Live and stable count of a controller.
fn counts(house: &House, controller: usize) -> (u32, u32) {
    let counts = house.table().controller(controller);
    (counts.live, counts.stable)
}

/// What a controller knows of its own incarnation to be stable.
fn own_known(house: &House, controller: usize, incarnation: u32) -> u32 {
    let known = house.table().known(controller);
    known.word(controller, incarnation)
}

/// Flags or unflags a place by hand.
fn set_flag(house: &mut House, controller: usize, place: usize, flag: u32) {
    house.lend(|table| {
        let record = Place {
            flag,
            ..table.place(controller, place)
        };
        table.set_place(controller, place, &record);
    });
}

/// A house of two with this gap.
fn opened(gap: u32) -> House {
    let mut house = House::after("O 2 2");
    house.set_gap(gap);
    house
}

/// So many messages from 0 that 1 takes.
fn bring_many(house: &mut House, messages: u32) {
    (0..messages).for_each(|_| assert!(bring(house, 0, 1).starts_with("delivered")));
}

/// "0 means off and is the value at opening."
#[test]
fn an_opening_turns_it_off() {
    let mut house = House::after("O 2 2");
    assert_eq!(house.table().gap(), 0);
    house.set_gap(1);
    house.go_on("O 2 2");
    assert_eq!(house.table().gap(), 0);
    bring_many(&mut house, 3);
    assert_eq!((flagged(&house, 1), counts(&house, 1)), (vec![1], (4, 1)));
    // Whatever stood there.
    house.words[11] = 99;
    house.go_on("O 2 2");
    assert_eq!(house.table().gap(), 0);
}

/// "A Q above 64 is refused with 5", and a refused opening leaves it.
#[test]
fn it_is_at_most_64() {
    let mut house = opened(64);
    for gap in [65, 66, 128, u32::MAX] {
        assert_eq!(house.answer(Command::SetGap { gap }), "refused 5", "{gap}");
    }
    assert_eq!(house.say("O 9 0"), "refused 5");
    assert_eq!(house.table().gap(), 64);
    house.set_gap(0);
    house.set_gap(63);
}

/// The length and the form come before it, and the ledger is not looked at.
#[test]
fn only_the_table_is_looked_at_before_it() {
    for gap in [0, 1, 65] {
        let mut house = House::after("O 2 2");
        house.ledger = vec![9; 3];
        let expected = if gap > 64 { "refused 5" } else { "done" };
        assert_eq!(house.answer(Command::SetGap { gap }), expected);
        house.words[2] = 1;
        assert_eq!(house.answer(Command::SetGap { gap }), "refused 2");
        house.words.push(0);
        assert_eq!(house.answer(Command::SetGap { gap }), "refused 1");
    }
    // A gap that is too wide already is out of form, and only an opening mends that.
    let mut house = House::after("O 2 2");
    house.words[11] = 65;
    assert_eq!(house.answer(Command::SetGap { gap: 3 }), "refused 2");
    assert_eq!(house.say("C 0"), "refused 2");
    house.go_on("O 2 2");
    house.set_gap(3);
}

/// With a gap of 3 number 4 stands 3 above number 1, and number 3 doesn't.
#[test]
fn a_delivery_at_the_gap_is_checkpointed() {
    let mut house = opened(3);
    bring_many(&mut house, 2);
    assert_eq!((flagged(&house, 1), counts(&house, 1)), (vec![1], (3, 1)));
    assert_eq!(own_known(&house, 1, 0), 1);
    assert_eq!(bring(&mut house, 0, 1), "delivered 3 0 4");
    assert_eq!(flagged(&house, 1), [1, 4]);
    // It logs the two before it, and itself.
    assert_eq!((counts(&house, 1), own_known(&house, 1, 0)), ((4, 4), 4));
    let newest = house.table().newest(1);
    assert_eq!((newest.cause, newest.vector[1]), (3, Pair::new(0, 4)));
    assert_eq!(house.table().message(3).state, state::DELIVERED);
    // Nothing of it is lost, and nothing is replayed.
    assert_eq!(house.say("X 1"), "crashed 1 0 4 0 0");
    // Others are not concerned.
    assert_eq!((flagged(&house, 0), counts(&house, 0)), (vec![1], (1, 1)));
}

/// The table after a forced delivery is the one that a checkpoint right after it leaves.
#[test]
fn a_forced_checkpoint_is_a_checkpoint() {
    for logged in ["", "L 1 1", "L 1 2"] {
        let mut house = opened(3);
        bring_many(&mut house, 2);
        house.go_on(logged);
        let mut other = house.clone();
        other.set_gap(0);
        bring_many(&mut house, 1);
        bring_many(&mut other, 1);
        assert_ne!(house.words[12..], other.words[12..]);
        other.go_on("C 1");
        other.set_gap(3);
        assert!(house.words == other.words, "after {logged:?}");
    }
}

/// Whether the newest interval of each of these is a checkpoint: of both controllers, and of three that
/// aren't there.
fn at_checkpoint(house: &House) -> [bool; 5] {
    [0, 1, 2, 8, u32::MAX].map(|controller| is_checkpoint(&house.words, controller))
}

/// With a gap of 2 numbers 3 and 5 are. A step takes the one at number 4, so that 5 is spared and 6 is one.
#[test]
fn whether_the_newest_is_a_checkpoint_can_be_asked() {
    let told = |at| [true, at, false, false, false];
    let mut house = opened(2);
    for at in [true, false, true, false] {
        assert_eq!(at_checkpoint(&house), told(at));
        bring_many(&mut house, 1);
    }
    assert_eq!(at_checkpoint(&house), told(true));
    let mut house = opened(2);
    bring_many(&mut house, 3);
    house.go_on("C 1");
    for at in [true, false, true] {
        assert_eq!(at_checkpoint(&house), told(at));
        bring_many(&mut house, 1);
    }
    // A start may be one too: number 8 stands two above number 6.
    assert!(house.say("X 1").starts_with("crashed"));
    assert_eq!(at_checkpoint(&house), told(false));
    assert!(house.say("X 1").starts_with("crashed"));
    assert_eq!(at_checkpoint(&house), told(true));
    // Words that are no house have none.
    house.words.push(0);
    assert_eq!(at_checkpoint(&house), [false; 5]);
    house.words.pop();
    house.words[2] = 1;
    assert_eq!(at_checkpoint(&house), [false; 5]);
}

/// What rests on a forced checkpoint rests on stable work: it may go out to the desk at once.
#[test]
fn what_is_forced_is_stable_for_all_rules() {
    let mut house = opened(1);
    assert_eq!(bring(&mut house, 0, 1), "delivered 1 0 2");
    house.go_on("S 1 8 24");
    assert_eq!(house.say("R 2"), "released 2 0");
    assert_eq!(house.say("L 1 1"), "refused 8");
    house.go_on("K 1 0\nS 1 0 7");
    assert_eq!(house.say("R 3"), "released 3 0");
}

/// With a gap of 1 every interval is a checkpoint, of whatever cause.
#[test]
fn the_narrowest_gap_leaves_nothing_to_replay() {
    let mut house = opened(1);
    bring_many(&mut house, 2);
    assert_eq!(house.say("X 1"), "crashed 1 0 3 0 0");
    assert_eq!(house.say("X 1"), "crashed 1 1 4 0 0");
    bring_many(&mut house, 1);
    assert_eq!(flagged(&house, 1), [1, 2, 3, 4, 5, 6]);
    assert_eq!(counts(&house, 1), (6, 6));
}

/// A gap of 2: the first crash's start is number 2, one above the latest flagged one; the second's is number 3.
#[test]
fn the_start_after_a_crash_counts() {
    let mut house = opened(2);
    assert_eq!(house.say("X 1"), "crashed 1 0 1 0 0");
    assert_eq!(flagged(&house, 1), [1]);
    assert_eq!(house.say("X 1"), "crashed 1 1 2 0 1");
    assert_eq!(flagged(&house, 1), [1, 3]);
    assert_eq!((counts(&house, 1), own_known(&house, 1, 2)), ((3, 3), 3));
    let start = house.table().newest(1);
    assert_eq!((start.incarnation, start.cause), (2, 0));
    assert_eq!(house.say("X 1"), "crashed 1 2 3 0 0");
    assert_eq!(house.say("X 1"), "crashed 1 3 4 0 1");
}

/// Controller 1 has five live intervals, the last two of which rest on work of 0 that is lost.
fn to_be_rolled_back(gap: u32) -> House {
    let mut house = House::after("O 3 3");
    (0..2).for_each(|_| drop(bring(&mut house, 2, 1)));
    assert_eq!(bring(&mut house, 2, 0), "delivered 3 0 2");
    (0..2).for_each(|_| drop(bring(&mut house, 0, 1)));
    house.set_gap(gap);
    assert!(house.say("X 0").starts_with("crashed 0 0 1 1"));
    house
}

/// Numbers 2 and 3 are kept, so that the start is number 4, 3 above the only flagged one.
#[test]
fn the_start_after_a_rollback_counts() {
    for (gap, expected) in [(2, true), (3, true), (4, false), (0, false)] {
        let mut house = to_be_rolled_back(gap);
        assert_eq!(house.say("H 1 0 0"), "rolled 1 3 2 2 0 0");
        let start = house.table().newest(1);
        assert_eq!((start.number, start.incarnation, start.cause), (4, 1, 0));
        assert_eq!(start.flag == 1, expected, "a gap of {gap}");
        assert_eq!((counts(&house, 1), own_known(&house, 1, 1)), ((4, 4), 4));
    }
}

/// "The latest flagged one on its chain": what was undone is no longer on it.
#[test]
fn flags_of_undone_intervals_do_not_count() {
    let mut house = to_be_rolled_back(3);
    house.go_on("C 1");
    assert_eq!(flagged(&house, 1), [1, 5]);
    assert_eq!(house.say("H 1 0 0"), "rolled 1 3 2 2 0 0");
    assert_eq!(flagged(&house, 1), [1, 4]);
    // One that is kept does.
    let mut house = to_be_rolled_back(3);
    set_flag(&mut house, 1, 1, 1);
    assert_eq!(house.say("H 1 0 0"), "rolled 1 3 2 1 0 0");
    assert_eq!(flagged(&house, 1), [1, 2]);
}

/// A flag that a lent table has above the stable count is lost with its interval.
#[test]
fn flags_of_lost_intervals_do_not_count() {
    let mut house = opened(0);
    bring_many(&mut house, 3);
    set_flag(&mut house, 1, 3, 1);
    house.set_gap(1);
    assert_eq!(house.say("X 1"), "crashed 1 0 1 3 0");
    assert_eq!(flagged(&house, 1), [1, 2]);
}

/// "Flagged places count whether stable or not."
#[test]
fn flags_count_whether_stable_or_not() {
    for (place, forced) in [(2, false), (1, true), (0, true)] {
        let mut house = opened(0);
        bring_many(&mut house, 2);
        set_flag(&mut house, 1, place, 1);
        house.set_gap(2);
        assert_eq!(counts(&house, 1), (3, 1), "place {place} isn't stable");
        bring_many(&mut house, 1);
        assert_eq!(house.table().newest(1).flag == 1, forced, "place {place}");
        let stable = if forced { 4 } else { 1 };
        assert_eq!(counts(&house, 1), (4, stable), "place {place}");
    }
}

/// A lower gap touches only intervals that begin later; that one may stand far above the gap.
#[test]
fn a_lowered_gap_is_made_up_for_by_the_next_interval() {
    let mut house = opened(10);
    bring_many(&mut house, 5);
    house.set_gap(2);
    assert_eq!((flagged(&house, 1), counts(&house, 1)), (vec![1], (6, 1)));
    bring_many(&mut house, 1);
    assert_eq!(
        (flagged(&house, 1), counts(&house, 1)),
        (vec![1, 7], (7, 7))
    );
}

#[test]
fn a_raised_gap_spares_the_next_intervals() {
    let mut house = opened(2);
    bring_many(&mut house, 3);
    assert_eq!(flagged(&house, 1), [1, 3]);
    house.set_gap(4);
    bring_many(&mut house, 2);
    assert_eq!(
        (flagged(&house, 1), counts(&house, 1)),
        (vec![1, 3], (6, 3))
    );
    bring_many(&mut house, 1);
    assert_eq!(
        (flagged(&house, 1), counts(&house, 1)),
        (vec![1, 3, 7], (7, 7))
    );
}

/// The widest two: number 64 stands 63 above number 1, and nothing stands 64 above it.
#[test]
fn the_widest_gaps() {
    for (gap, expected) in [(62, vec![1, 63]), (63, vec![1, 64]), (64, vec![1])] {
        let mut house = opened(gap);
        bring_many(&mut house, 63);
        assert_eq!(flagged(&house, 1), expected, "a gap of {gap}");
        let stable = expected[expected.len() - 1];
        assert_eq!(counts(&house, 1), (64, stable), "a gap of {gap}");
    }
}

/// A message that waits, is dropped or finds no place begins nothing, and forces nothing.
#[test]
fn what_begins_no_interval_forces_nothing() {
    let mut house = opened(0);
    bring_many(&mut house, 63);
    house.go_on("S 0 1 7\nR 64");
    house.set_gap(1);
    assert_eq!(house.say("D 64"), "refused 12");
    let mut house = opened(1);
    house.go_on("S 0 1 7\nR 1");
    house.lend(|table| {
        let mut message = table.message(1);
        message.vector[0] = Pair::new(1, 3);
        table.set_message(1, &message);
        let mut newest = table.newest(1);
        newest.vector[0] = Pair::new(0, 9);
        table.set_place(1, 0, &newest);
    });
    let before = house.words.clone();
    assert_eq!(house.say("D 1"), "waits 1");
    assert!(house.words == before);
    house.lend(|table| table.set_end(1, 0, 1, 2));
    assert_eq!(house.say("D 1"), "dropped 1 0 1");
    assert_eq!((flagged(&house, 1), counts(&house, 1)), (vec![1], (1, 1)));
}

/// As by L: the known word is assigned, also where a lent table has a higher one, and it is that of the
/// controller's incarnation, whatever the places have.
#[test]
fn a_forced_checkpoint_assigns_the_known_word() {
    let mut house = opened(2);
    bring_many(&mut house, 1);
    house.lend(|table| {
        table.set_known(1, 1, 0, 40);
        table.set_known(1, 1, 3, 50);
        let counts = table.controller(1);
        table.set_controller(
            1,
            reference::table::Controller {
                incarnation: 3,
                ..counts
            },
        );
    });
    assert_eq!(bring(&mut house, 0, 1), "delivered 2 3 3");
    assert_eq!([own_known(&house, 1, 0), own_known(&house, 1, 3)], [40, 3]);
    assert_eq!(
        (flagged(&house, 1), counts(&house, 1)),
        (vec![1, 3], (3, 3))
    );
}
