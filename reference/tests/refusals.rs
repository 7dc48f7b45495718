//! Every refusal of a step with a letter, and which is given where several apply: the lowest number, but for
//! the ledger's two.
//! [`House::say`] sees to it that no refusal changes a word.

mod common;

use common::{bring, House};
use reference::ledger::{self, words_of, Entry};
use reference::machine::{step, Answer, Command};
use reference::refusal::{self, Refusal};
use reference::table::{in_form, state, Controller, WORDS};
use reference::vector::Pair;

fn expect(house: &mut House, refusal: Refusal, lines: &[&str]) {
    for line in lines {
        assert_eq!(house.say(line), format!("refused {refusal}"), "{line}");
    }
}

/// One line of each letter, with numbers that are refused for many reasons at once.
const SENSELESS: [&str; 9] = [
    "K 9 9", "S 9 9 9", "R 0", "D 0", "L 9 0", "C 9", "T 9 9", "X 9", "H 9 9 99",
];

#[test]
fn length_comes_before_all() {
    for length in [0, 1, WORDS - 1, WORDS + 1] {
        for ledger in [vec![0; ledger::WORDS], vec![], vec![9; ledger::WORDS]] {
            let mut house = House::of(vec![9; length]);
            house.ledger = ledger;
            expect(&mut house, refusal::LENGTH, &["O 1 0", "O 0 9"]);
            expect(&mut house, refusal::LENGTH, &SENSELESS);
        }
    }
}

#[test]
fn form_comes_next_and_opening_does_not_look_at_it() {
    let mut house = House::of(vec![0; WORDS]);
    expect(&mut house, refusal::FORM, &SENSELESS);
    expect(&mut house, refusal::DEGREE, &["O 0 0", "O 9 0", "O 3 4"]);
    let mut house = House::after("O 3 3");
    house.words[2] = 1;
    expect(&mut house, refusal::FORM, &SENSELESS);
    assert_eq!(house.say("O 2 1"), "done");
    assert!(in_form(&house.words));
}

/// Ledgers that a release refuses.
fn unsound_ledgers() -> [Vec<u32>; 4] {
    let mut past_the_count = vec![0; ledger::WORDS];
    past_the_count[256] = 1;
    let mut count_too_high = vec![0; ledger::WORDS];
    count_too_high[0] = 129;
    [vec![], vec![0; 258], past_the_count, count_too_high]
}

/// "It stands directly after 2, at release": the form comes before it, and messages, their states and a
/// mask that isn't 0 after it.
#[test]
fn the_ledger_comes_next_at_release() {
    for ledger in unsound_ledgers() {
        let mut house = House::after("O 2 2");
        bring(&mut house, 0, 1);
        // Message 2 would be held, and 3 released.
        house.go_on("S 1 8 7\nS 1 0 7");
        house.ledger = ledger;
        expect(
            &mut house,
            refusal::LEDGER,
            &["R 0", "R 1", "R 2", "R 3", "R 4", "R 4294967295"],
        );
        house.words[2] = 1;
        expect(&mut house, refusal::FORM, &["R 0", "R 1", "R 2", "R 3"]);
        house.words.pop();
        expect(&mut house, refusal::LENGTH, &["R 0", "R 1", "R 2", "R 3"]);
    }
}

/// "For the length only, directly after 1 at opening", and so before 5.
#[test]
fn the_length_of_the_ledger_comes_next_at_opening() {
    let mut house = House::after("O 2 2");
    for length in [0, 1, 256, 258] {
        house.ledger = vec![7; length];
        expect(
            &mut house,
            refusal::LEDGER,
            &["O 1 0", "O 0 0", "O 9 9", "O 3 4"],
        );
    }
    house.words.pop();
    expect(&mut house, refusal::LENGTH, &["O 1 0", "O 9 9"]);
    for mut ledger in unsound_ledgers() {
        ledger.resize(ledger::WORDS, 9);
        let mut house = House::of(vec![9; WORDS]);
        house.ledger = ledger;
        expect(&mut house, refusal::DEGREE, &["O 0 0", "O 3 4"]);
        assert_eq!(house.say("O 3 3"), "done");
    }
}

/// "18 .. stands last at release": 4 and 7 come before it, and so does `held`.
#[test]
fn a_full_ledger_comes_last_at_release() {
    let mut house = House::after("O 2 2\nS 0 8 7\nR 1");
    bring(&mut house, 0, 1);
    house.go_on("S 1 8 7\nS 0 8 7");
    house.ledger = words_of(&[Entry::default(); 128]);
    expect(&mut house, refusal::MESSAGE, &["R 0", "R 5"]);
    expect(&mut house, refusal::STATE, &["R 1", "R 2"]);
    assert_eq!(house.say("R 3"), "held 3 2");
    expect(&mut house, refusal::LEDGER_USED_UP, &["R 4"]);
    // Before it stands the ledger that isn't sound.
    house.ledger[0] = 129;
    expect(&mut house, refusal::LEDGER, &["R 4"]);
}

/// "Sends may name receiver 8", and no other past the last controller; nobody else is named so.
#[test]
fn the_desk_is_no_controller() {
    for n in 1..=8 {
        let mut house = House::after(&format!("O {n} 0"));
        for receiver in (n..=7).chain([9, 10, 128, u32::MAX]) {
            let line = format!("S 0 {receiver} 7");
            expect(&mut house, refusal::CONTROLLER, &[&line]);
        }
        expect(
            &mut house,
            refusal::CONTROLLER,
            &["K 8 0", "S 8 0 7", "S 8 8 7", "L 8 1", "C 8", "X 8"],
        );
        expect(
            &mut house,
            refusal::CONTROLLER,
            &["T 0 8", "T 8 0", "T 8 8", "H 8 0 0", "H 0 8 0"],
        );
        assert_eq!(house.say("S 0 8 7"), "sent 1");
    }
    // The messages are used up by readings as by any others.
    let mut house = House::after("O 1 0");
    (0..128).for_each(|_| drop(house.say("S 0 8 7")));
    expect(&mut house, refusal::MESSAGES_USED_UP, &["S 0 8 7"]);
    expect(&mut house, refusal::CONTROLLER, &["S 0 1 7", "S 8 8 7"]);
}

#[test]
fn controllers_come_before_what_is_asked_of_them() {
    let mut house = House::after("O 3 3");
    expect(
        &mut house,
        refusal::CONTROLLER,
        &["K 3 4", "S 3 3 0", "S 0 3 0", "S 3 0 0"],
    );
    expect(
        &mut house,
        refusal::CONTROLLER,
        &["L 3 0", "C 3", "T 3 3", "T 0 3", "T 3 0"],
    );
    expect(
        &mut house,
        refusal::CONTROLLER,
        &["X 3", "H 3 0 99", "H 0 3 99", "X 4294967295"],
    );
    // Also before the messages that are used up.
    (0..128).for_each(|_| drop(house.say("S 0 1 7")));
    expect(&mut house, refusal::CONTROLLER, &["S 0 3 7"]);
}

#[test]
fn messages_come_before_their_states() {
    let mut house = House::after("O 3 3");
    expect(&mut house, refusal::MESSAGE, &["R 0", "D 0", "R 1", "D 1"]);
    house.go_on("S 0 1 7");
    expect(
        &mut house,
        refusal::MESSAGE,
        &["R 0", "R 2", "D 2", "D 129", "R 4294967295"],
    );
}

#[test]
fn degrees_and_sizes() {
    let mut house = House::after("O 3 3");
    expect(
        &mut house,
        refusal::DEGREE,
        &["O 0 0", "O 9 0", "O 8 9", "O 3 4"],
    );
    expect(
        &mut house,
        refusal::DEGREE,
        &["K 0 4", "K 2 4294967295", "O 4294967295 0"],
    );
    assert_eq!(house.say("K 0 3"), "done");
    assert_eq!(house.say("O 8 8"), "done");
}

#[test]
fn the_two_controllers_differ() {
    let mut house = House::after("O 3 3");
    expect(&mut house, refusal::SAME_CONTROLLER, &["S 2 2 7", "T 1 1"]);
    // Also before the messages that are used up.
    (0..128).for_each(|_| drop(house.say("S 0 1 7")));
    expect(&mut house, refusal::SAME_CONTROLLER, &["S 2 2 7"]);
    expect(&mut house, refusal::MESSAGES_USED_UP, &["S 0 1 7"]);
}

#[test]
fn states_of_messages() {
    let mut house = House::after("O 2 2\nS 0 1 7");
    expect(&mut house, refusal::STATE, &["D 1"]);
    house.go_on("R 1");
    expect(&mut house, refusal::STATE, &["R 1"]);
    house.go_on("D 1");
    expect(&mut house, refusal::STATE, &["R 1", "D 1"]);
    house.go_on("X 1");
    expect(&mut house, refusal::STATE, &["R 1"]);
    house.go_on("D 1");
    for state in [state::LOST, state::DROPPED] {
        house.lend(|table| table.set_state(1, state));
        expect(&mut house, refusal::STATE, &["R 1", "D 1"]);
    }
}

#[test]
fn a_state_comes_before_a_full_chain() {
    let mut house = full_chain();
    expect(&mut house, refusal::STATE, &["D 1", "R 1"]);
}

#[test]
fn log_counts() {
    let mut house = House::after("O 2 2");
    expect(
        &mut house,
        refusal::LOG_COUNT,
        &["L 0 0", "L 0 1", "L 0 4294967295"],
    );
    bring(&mut house, 0, 1);
    expect(&mut house, refusal::LOG_COUNT, &["L 1 0", "L 1 2"]);
    assert_eq!(house.say("L 1 1"), "done");
    expect(&mut house, refusal::LOG_COUNT, &["L 1 1"]);
}

#[test]
fn crashes_that_never_were() {
    let mut house = House::after("O 2 2\nX 1");
    expect(
        &mut house,
        refusal::NO_SUCH_CRASH,
        &["H 0 1 1", "H 0 1 15", "H 0 1 16"],
    );
    expect(
        &mut house,
        refusal::NO_SUCH_CRASH,
        &["H 0 0 0", "H 1 0 0", "H 1 1 16"],
    );
    expect(&mut house, refusal::NO_SUCH_CRASH, &["H 0 1 4294967295"]);
    // Before the question whether it was heard: the hearer may hold an end word that the owner doesn't.
    house.lend(|table| table.set_end(0, 1, 5, 3));
    expect(&mut house, refusal::NO_SUCH_CRASH, &["H 0 1 5"]);
}

#[test]
fn crashes_already_heard() {
    let mut house = House::after("O 2 2\nX 1");
    expect(&mut house, refusal::ALREADY_HEARD, &["H 1 1 0"]);
    assert_eq!(house.say("H 0 1 0"), "heard 0");
    expect(&mut house, refusal::ALREADY_HEARD, &["H 0 1 0"]);
}

/// Controller 1 has 64 live intervals, of which only the first is stable.
fn full_chain() -> House {
    let mut house = House::after("O 3 3");
    (2..=64).for_each(|_| drop(bring(&mut house, 0, 1)));
    assert_eq!(house.table().controller(1).live, 64);
    house
}

#[test]
fn a_full_chain_takes_no_delivery() {
    let mut house = full_chain();
    house.go_on("S 0 1 7\nR 64");
    expect(&mut house, refusal::PLACES_USED_UP, &["D 64"]);
    house.go_on("L 1 63");
    expect(&mut house, refusal::PLACES_USED_UP, &["X 1"]);
}

#[test]
fn a_full_chain_still_drops_and_waits() {
    let mut house = full_chain();
    house.go_on("S 0 1 7\nR 64");
    house.lend(|table| {
        let mut message = table.message(64);
        message.vector[2] = Pair::new(1, 3);
        table.set_message(64, &message);
        let mut newest = table.newest(1);
        newest.vector[2] = Pair::new(0, 9);
        table.set_place(1, 63, &newest);
    });
    assert_eq!(house.say("D 64"), "waits 64");
    house.lend(|table| table.set_end(1, 2, 1, 2));
    assert_eq!(house.say("D 64"), "dropped 64 2 1");
    assert_eq!(house.table().message(64).state, state::DROPPED);
}

/// Puts a controller into its last incarnation.
fn wear_out(house: &mut House, controller: usize) {
    house.lend(|table| {
        let counts = Controller {
            incarnation: 15,
            ..table.controller(controller)
        };
        table.set_controller(controller, counts);
    });
}

#[test]
fn incarnations_run_out_by_crashing() {
    let mut house = House::after("O 2 2");
    for incarnation in 0..15 {
        let kept = incarnation + 1;
        let crashed = format!("crashed 0 {incarnation} {kept} 0 {incarnation}");
        assert_eq!(house.say("X 0"), crashed);
    }
    expect(&mut house, refusal::INCARNATIONS_USED_UP, &["X 0"]);
}

#[test]
fn a_crash_with_both_used_up_is_refused_for_places() {
    let mut house = full_chain();
    house.go_on("L 1 63");
    wear_out(&mut house, 1);
    expect(&mut house, refusal::PLACES_USED_UP, &["X 1"]);
}

#[test]
fn a_hearing_that_must_undo_needs_an_incarnation() {
    let mut house = House::after("O 3 3");
    bring(&mut house, 0, 1);
    bring(&mut house, 1, 2);
    house.go_on("X 1");
    wear_out(&mut house, 2);
    wear_out(&mut house, 0);
    expect(&mut house, refusal::INCARNATIONS_USED_UP, &["H 2 1 0"]);
    assert_eq!(house.table().ends(2).word(1, 0), 0);
    // One that needn't undo is heard, and then heard already.
    assert_eq!(house.say("H 0 1 0"), "heard 0");
    expect(&mut house, refusal::ALREADY_HEARD, &["H 0 1 0"]);
}

#[test]
fn a_refusal_is_a_number() {
    let mut words = vec![0; WORDS];
    let answer = step(&mut words, &mut [], Command::Crash { controller: 0 });
    assert_eq!(
        answer,
        Answer::Refused {
            number: refusal::FORM
        }
    );
}
