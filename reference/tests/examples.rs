//! The numbered examples.

mod common;

use common::{bring, House};
use reference::table::{state, Message};
use reference::vector::{filtered, is_pair_condemned, mask, merged, Pair, Row, Vector};

const OWNER: usize = 2;

fn row(incarnation: u32, word: u32) -> Row {
    let mut row = Row::default();
    row.set(OWNER, incarnation, word);
    row
}

fn vector(pair: Pair) -> Vector {
    let mut vector = Vector::default();
    vector[OWNER] = pair;
    vector
}

/// 1 to 3: "Pair (0,4), end 4 in incarnation 0: not condemned. Pair (0,5), same end: condemned. Pair
/// (1,5), same end: not condemned."
#[test]
fn ends_condemn_what_exceeds_them_in_their_incarnation() {
    let ends = row(0, 4);
    let condemned = |pair| is_pair_condemned(pair, OWNER, &ends);
    assert!(!condemned(Pair::new(0, 4)));
    assert!(condemned(Pair::new(0, 5)));
    assert!(!condemned(Pair::new(1, 5)));
}

/// 4: "Pair (0,2), known 2: empty after filtering; (0,3) stays."
#[test]
fn filtering_empties_what_is_known_stable() {
    let known = row(0, 2);
    assert_eq!(
        filtered(&vector(Pair::new(0, 2)), &known),
        Vector::default()
    );
    let above = vector(Pair::new(0, 3));
    assert_eq!(filtered(&above, &known), above);
}

/// 5: "Mask 6 with K 1 is held; with K 2 released."
#[test]
fn more_than_k_ones_are_held() {
    let mut house = House::after("O 3 1");
    bring(&mut house, 0, 1);
    bring(&mut house, 1, 2);
    assert_eq!(house.say("S 2 0 5"), "sent 3");
    let before = house.words.clone();
    assert_eq!(house.say("R 3"), "held 3 6");
    assert!(house.words == before);
    assert_eq!(house.say("K 2 2"), "done");
    assert_eq!(house.say("R 3"), "released 3 6");
    assert_eq!(mask(&house.table().message(3).vector), 6);
}

/// 6: "Mask 0 with K 0 is released."
#[test]
fn no_ones_are_released_at_any_degree() {
    let mut house = House::after("O 2 0\nS 0 1 7");
    assert_eq!(house.say("R 1"), "released 1 0");
}

/// A house where controller 0 depends on (0,9) of the owner, and a released message on (1,3).
fn two_incarnations() -> House {
    let mut house = House::after("O 3 3\nS 1 0 5\nR 1");
    house.lend(|table| {
        let mut newest = table.place(0, 0);
        newest.vector[OWNER] = Pair::new(0, 9);
        table.set_place(0, 0, &newest);
        let message = Message {
            vector: vector(Pair::new(1, 3)),
            ..table.message(1)
        };
        table.set_message(1, &message);
    });
    house
}

/// 7: "Pairs (0,9) and (1,3) of one owner, neither known stable: waits."
#[test]
fn pairs_of_two_incarnations_wait() {
    let (ours, theirs) = (vector(Pair::new(0, 9)), vector(Pair::new(1, 3)));
    assert_eq!(merged(0, &ours, &theirs), None);
    let mut house = two_incarnations();
    let before = house.words.clone();
    assert_eq!(house.say("D 1"), "waits 1");
    assert!(house.words == before);
}

/// 8: "The same with (0,9) known stable: merged pair (1,3)."
#[test]
fn a_pair_known_stable_gives_way() {
    let mut house = two_incarnations();
    house.lend(|table| table.set_known(0, OWNER, 0, 9));
    assert_eq!(house.say("D 1"), "delivered 1 0 2");
    let newest = house.table().newest(0);
    assert_eq!(newest.vector[OWNER], Pair::new(1, 3));
    assert_eq!(newest.vector[0], Pair::new(0, 2));
    assert_eq!((newest.cause, newest.flag), (1, 0));
    assert_eq!(house.table().message(1).state, state::DELIVERED);
}

/// 9: "k 5, flagged numbers 1 and 4: replayed 1."
#[test]
fn replay_starts_at_the_latest_checkpoint() {
    let mut house = House::after("O 2 2");
    (2..=4).for_each(|_| drop(bring(&mut house, 0, 1)));
    assert_eq!(house.say("C 1"), "done");
    assert_eq!(bring(&mut house, 0, 1), "delivered 4 0 5");
    assert_eq!(house.say("L 1 1"), "done");
    assert_eq!(house.say("X 1"), "crashed 1 0 5 0 1");
}

/// 10: "Log 0 refused 8; log of exactly live minus stable is done."
#[test]
fn a_log_counts_what_is_not_stable() {
    let mut house = House::after("O 2 2");
    (2..=4).for_each(|_| drop(bring(&mut house, 0, 1)));
    assert_eq!(house.say("L 1 0"), "refused 8");
    assert_eq!(house.say("L 1 4"), "refused 8");
    assert_eq!(house.say("L 1 3"), "done");
    assert_eq!(house.table().controller(1).stable, 4);
    assert_eq!(house.table().known(1).word(1, 0), 4);
}

/// 11: "128th send done, 129th refused 11."
#[test]
fn messages_run_out() {
    let mut house = House::after("O 2 2");
    for message in 1..=128 {
        assert_eq!(house.say("S 0 1 7"), format!("sent {message}"));
    }
    assert_eq!(house.say("S 0 1 7"), "refused 11");
}
