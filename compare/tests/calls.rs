//! The C interface itself: letters that are no steps, value buffers of another length, numbers that
//! aren't looked at, what stands in the values, and that nothing else is written. The call for a list of
//! steps, the one that sets the gap, the one for a set and the dispatcher have their own tests.

mod called;
mod margins;

use called::{houses, letters_of_no_step, listed, with_idle_numbers, Call, LETTERS};
use compare::agreement::Lent;
use compare::effort;
use goulvizad::raw::returned::{DONE, REFUSED, UNKNOWN_LETTER, WRONG_VALUES};
use goulvizad::raw::{call, VALUE_WORDS};
use margins::{inner, within_margins, UNTOUCHED};
use reference::generate::{in_form_table, senseless, sound_ledger, Profile, Random, Walk};
use reference::machine::step;
use reference::table::WORDS;
use reference::{ledger, refusal};
use std::collections::BTreeSet;

/// A call with what is lent and this value buffer; returns its number.
fn called(lent: &mut Lent, asked: Call, values: &mut [u32]) -> u32 {
    let Lent { table, ledger } = lent;
    call(table, ledger, asked.letter, asked.numbers, values)
}

/// A call that must give this number and change nothing.
fn assert_rejected(lent: &Lent, asked: Call, values: usize, number: u32) {
    let mut after = lent.clone();
    let mut values = vec![UNTOUCHED; values];
    let given = called(&mut after, asked, &mut values);
    let label = || format!("{asked:?} with {} values: {given}", values.len());
    assert_eq!(given, number, "{}", label());
    assert!(after.table == lent.table, "{}: wrote to the table", label());
    assert!(
        after.ledger == lent.ledger,
        "{}: wrote to the ledger",
        label()
    );
    let untouched = values.iter().all(|&value| value == UNTOUCHED);
    assert!(untouched, "{}: wrote to the values", label());
}

#[test]
fn other_letters_are_unknown() {
    let letters = letters_of_no_step();
    assert!(letters.len() > 1_400);
    for lent in houses() {
        for &letter in &letters {
            let asked = Call::new(letter, &[1, 0, 1]);
            assert_rejected(&lent, asked, VALUE_WORDS, UNKNOWN_LETTER);
        }
    }
}

#[test]
fn other_value_buffers_are_rejected() {
    let mut random = Random::new(3);
    let lengths = (0..=8).chain([10, 100, ledger::WORDS, WORDS]);
    for lent in houses() {
        for values in lengths.clone().filter(|&values| values != VALUE_WORDS) {
            for _ in 0..20 {
                let asked = senseless(&mut random).into();
                assert_rejected(&lent, asked, values, WRONG_VALUES);
            }
            // The buffer is looked at before the letter.
            for &letter in LETTERS.iter().chain(b"Qo\0") {
                let asked = Call::new(letter.into(), &[1, 0, 0]);
                assert_rejected(&lent, asked, values, WRONG_VALUES);
            }
        }
    }
}

/// What is no call of a step is told before the lengths of the table and of the ledger are looked at.
#[test]
fn calls_of_no_step_come_before_the_refusals() {
    let mut random = Random::new(6);
    for (table, ledger, number) in [
        (0, 0, refusal::LENGTH),
        (1, 1, refusal::LENGTH),
        (WORDS - 1, ledger::WORDS, refusal::LENGTH),
        (WORDS + 1, ledger::WORDS - 1, refusal::LENGTH),
        (2 * WORDS, ledger::WORDS + 1, refusal::LENGTH),
        (ledger::WORDS, WORDS, refusal::LENGTH),
        (WORDS, 0, refusal::LEDGER),
        (WORDS, ledger::WORDS - 1, refusal::LEDGER),
        (WORDS, ledger::WORDS + 1, refusal::LEDGER),
    ] {
        let mut noise = |length| (0..length).map(|_| random.word()).collect();
        let (table, ledger) = (noise(table), noise(ledger));
        let lent = Lent { table, ledger };
        let opening = Call::new(b'O'.into(), &[9, 0, 0]);
        let refused = (REFUSED, [number, 0, 0, 0, 0, 0]);
        assert_eq!(told(&mut lent.clone(), opening), refused);
        for &letter in LETTERS {
            let asked = Call::new(letter.into(), &[1, 0, 0]);
            assert_eq!(told(&mut lent.clone(), asked).0, REFUSED, "{asked:?}");
            assert_rejected(&lent, asked, VALUE_WORDS - 1, WRONG_VALUES);
        }
        let unknown = Call::new(b'Q'.into(), &[1, 0, 0]);
        assert_rejected(&lent, unknown, VALUE_WORDS, UNKNOWN_LETTER);
        assert_rejected(&lent, unknown, VALUE_WORDS + 1, WRONG_VALUES);
    }
}

/// One call, and the number and values that it gives.
fn told(lent: &mut Lent, asked: Call) -> (u32, [u32; VALUE_WORDS]) {
    let mut values = [UNTOUCHED; VALUE_WORDS];
    let number = called(lent, asked, &mut values);
    (number, values)
}

/// No step has a fourth number: whatever stands there, the answer and every word are the same.
#[test]
fn the_fourth_number_is_not_looked_at() {
    let mut random = Random::new(7);
    let mut accepted = BTreeSet::new();
    for profile in Profile::LETTERED {
        for seed in 0..effort(6) {
            let walk = Walk::new(seed, profile);
            let mut lent = Lent::by(&walk);
            let mut other = lent.clone();
            for (command, _) in walk {
                let mut asked = Call::from(command);
                let answer = told(&mut lent, asked);
                asked.numbers[3] = random.word();
                assert_eq!(told(&mut other, asked), answer, "{asked:?}");
                assert!(lent == other, "{asked:?}");
                accepted.extend((answer.0 != REFUSED).then_some(asked.letter));
            }
        }
    }
    assert_eq!(accepted.len(), LETTERS.len());
}

/// Values are those of the answer's line, then zeros; numbers that a step hasn't are not looked at.
#[test]
fn values_are_those_of_the_line() {
    let mut random = Random::new(4);
    let mut numbers = BTreeSet::new();
    for profile in Profile::LETTERED {
        for seed in 0..effort(12) {
            let mut walk = Walk::new(seed, profile);
            let mut lent = Lent::by(&walk);
            while let Some((command, answer)) = walk.next() {
                let asked = with_idle_numbers(&mut random, command);
                let (number, values) = told(&mut lent, asked);
                assert_eq!((number, values), listed(answer), "{asked:?}");
                assert!(lent == Lent::by(&walk), "{asked:?}");
                numbers.insert(number);
            }
        }
    }
    assert!(numbers.into_iter().eq(DONE..=REFUSED));
}

/// A table, a ledger and values lent out of larger buffers: what stands beside them stays.
#[test]
fn nothing_beside_the_buffers_is_written() {
    let mut random = Random::new(5);
    for _ in 0..effort(200) {
        let command = senseless(&mut random);
        let (mut table, mut ledger) = (in_form_table(&mut random), sound_ledger(&mut random));
        let [mut lent_table, mut lent_ledger] =
            [&table, &ledger].map(|words| within_margins(words));
        let mut lent_values = within_margins(&[UNTOUCHED; VALUE_WORDS]);
        let asked = Call::from(command);
        let number = call(
            inner(&mut lent_table),
            inner(&mut lent_ledger),
            asked.letter,
            asked.numbers,
            inner(&mut lent_values),
        );
        let listed = listed(step(&mut table, &mut ledger, command));
        assert_eq!(number, listed.0, "{command:?}");
        assert!(lent_values == within_margins(&listed.1), "{command:?}");
        assert!(lent_table == within_margins(&table), "{command:?}");
        assert!(lent_ledger == within_margins(&ledger), "{command:?}");
    }
}
