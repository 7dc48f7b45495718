//! When a table is in form and a ledger sound, said a second time: word by word, by position alone.

mod common;

use common::House;
use reference::generate::{
    damaged, damaged_gap, damaged_ledger, damaged_served, dispatch_table, gapped_table,
    in_form_table, noise, sound_ledger, wrong_length, Profile, Random, Walk,
};
use reference::ledger::is_sound;
use reference::machine::{step, Answer, Command};
use reference::refusal;
use reference::table::{in_form, WORDS};
use std::collections::BTreeSet;
use std::ops::RangeInclusive;

/// The words that a position may hold, given the others; but which states go with which receiver is
/// said apart.
fn range(words: &[u32], position: usize) -> RangeInclusive<u32> {
    let n = words[0];
    let is_controller = |c: usize| (c as u32) < n;
    let only_for = |used: bool, range| if used { range } else { 0..=0 };
    match position {
        0 => 1..=8,
        1 => 0..=128,
        11 => 0..=64,
        12 => 0..=7,
        2..=15 => 0..=0,
        16..=47 => {
            let (c, field) = ((position - 16) / 4, (position - 16) % 4);
            let live = words[16 + 4 * c + 2];
            let ranges = [0..=n, 0..=15, 1..=64, 1..=live];
            only_for(is_controller(c), ranges[field].clone())
        }
        48..=2_095 => {
            let offset = (position - 48) % 1_024;
            let (holder, owner) = (offset / 128, offset / 16 % 8);
            only_for(is_controller(holder) && is_controller(owner), 0..=64)
        }
        2_096..=12_335 => {
            let offset = position - 2_096;
            let (c, place, field) = (offset / 1_280, offset / 20 % 64, offset % 20);
            let live = words[16 + 4 * c + 2];
            let used = is_controller(c) && (place as u32) < live;
            only_for(used, place_range(words, position, place as u32, field))
        }
        _ => {
            let offset = position - 12_336;
            let (record, field) = (offset / 22, offset % 22);
            let used = (record as u32) < words[1];
            only_for(used, message_range(words, position, field))
        }
    }
}

fn place_range(words: &[u32], position: usize, place: u32, field: usize) -> RangeInclusive<u32> {
    match field {
        0 => 0..=15,
        1 => place + 1..=place + 1,
        2 => 0..=words[1],
        3 => u32::from(place == 0)..=1,
        _ => pair_range(words, position, field - 4),
    }
}

fn message_range(words: &[u32], position: usize, field: usize) -> RangeInclusive<u32> {
    match field {
        0 => 1..=6,
        1 => 0..=words[0].wrapping_sub(1),
        2 => 0..=8,
        3 => 0..=15,
        4 => 1..=64,
        5 => 0..=u32::MAX,
        _ => pair_range(words, position, field - 6),
    }
}

/// A pair is incarnation and number, and an empty number has incarnation 0.
fn pair_range(words: &[u32], position: usize, field: usize) -> RangeInclusive<u32> {
    let owned = ((field / 2) as u32) < words[0];
    let is_incarnation = field.is_multiple_of(2);
    if !owned || is_incarnation && words[position + 1] == 0 {
        0..=0
    } else if is_incarnation {
        0..=15
    } else {
        0..=64
    }
}

/// The states that a message for this receiver may have: "1, 5 or 6" for the desk, "1 to 5" for a
/// controller.
fn states(n: u32, receiver: u32) -> &'static [u32] {
    match receiver {
        8 => &[1, 5, 6],
        _ if receiver < n => &[1, 2, 3, 4, 5],
        _ => &[],
    }
}

/// Whether the message at a record has a state that goes with its receiver.
fn state_fits(words: &[u32], record: usize) -> bool {
    let message = &words[12_336 + 22 * record..];
    states(words[0], message[2]).contains(&message[0])
}

fn in_form_by_position(words: &[u32]) -> bool {
    words.len() == WORDS
        && (0..WORDS).all(|position| range(words, position).contains(&words[position]))
        && (0..words[1] as usize).all(|record| state_fits(words, record))
}

#[test]
fn random_tables_in_form() {
    let mut random = Random::new(1);
    for _ in 0..300 {
        let words = in_form_table(&mut random);
        assert!(in_form(&words) && in_form_by_position(&words));
    }
}

#[test]
fn one_damaged_word() {
    let mut random = Random::new(2);
    let mut spoilt = 0;
    for _ in 0..3_000 {
        let (words, position) = damaged(&mut random);
        let expected = in_form_by_position(&words);
        assert_eq!(in_form(&words), expected, "word {position}");
        spoilt += usize::from(!expected);
    }
    assert!((500..2_500).contains(&spoilt), "{spoilt} of 3000 damaged");
}

/// "Kept in word 11 of the table, in form up to 64." The other words that are 0 stay so.
#[test]
fn gaps() {
    let mut random = Random::new(7);
    for _ in 0..200 {
        let words = gapped_table(&mut random);
        assert!(in_form(&words) && in_form_by_position(&words));
        let words = damaged_gap(&mut random);
        assert!(!in_form(&words) && !in_form_by_position(&words));
    }
    let mut house = House::after("O 3 1");
    for (gap, expected) in [
        (0, true),
        (1, true),
        (64, true),
        (65, false),
        (u32::MAX, false),
    ] {
        house.words[11] = gap;
        assert_eq!(in_form(&house.words), expected, "a gap of {gap}");
    }
    house.words[11] = 5;
    for other in (2..=10).chain(13..=15) {
        let mut words = house.words.clone();
        words[other] = 5;
        assert!(!in_form(&words), "word {other}");
    }
}

/// "Word 12 is in form up to 7", whatever n is.
#[test]
fn controllers_last_served() {
    let mut random = Random::new(8);
    for _ in 0..200 {
        let words = dispatch_table(&mut random);
        assert!(in_form(&words) && in_form_by_position(&words));
        let words = damaged_served(&mut random);
        assert!(!in_form(&words) && !in_form_by_position(&words));
    }
    for n in 1..=8 {
        let mut house = House::after(&format!("O {n} 0"));
        for word in (0..=20).chain([64, 128, u32::MAX]) {
            house.words[12] = word;
            assert_eq!(in_form(&house.words), word <= 7, "{word} of {n}");
        }
    }
}

/// Every receiver with every state, in houses of every size.
#[test]
fn the_receiver_decides_the_states() {
    for n in 1..=8 {
        let mut house = House::after(&format!("O {n} 0\nS 0 8 7"));
        for receiver in 0..=10 {
            for state in 0..=8 {
                house.words[12_336] = state;
                house.words[12_338] = receiver;
                let expected = states(n, receiver).contains(&state);
                assert_eq!(in_form(&house.words), expected, "{n} {receiver} {state}");
            }
        }
    }
}

/// The generator of damage comes across all that is out of form about receivers and states.
#[test]
fn damaged_receivers_and_states() {
    let mut random = Random::new(4);
    let mut seen = BTreeSet::new();
    for _ in 0..2_000 {
        let (words, position) = damaged(&mut random);
        let record = position.saturating_sub(12_336) / 22;
        if position >= 12_336 && record < words[1] as usize && !state_fits(&words, record) {
            let message = &words[12_336 + 22 * record..];
            let kind = match (message[2], message[0]) {
                (8, state @ 2..=4) => format!("state {state} for the desk"),
                (8, _) => "no state for the desk".to_owned(),
                (9.., _) => "above the desk".to_owned(),
                (receiver, _) if receiver >= words[0] => "between n and the desk".to_owned(),
                (_, 6) => "published elsewhere".to_owned(),
                _ => "no state for a controller".to_owned(),
            };
            seen.insert(kind);
        }
    }
    let kinds = [
        "above the desk",
        "between n and the desk",
        "no state for a controller",
        "no state for the desk",
        "published elsewhere",
        "state 2 for the desk",
        "state 3 for the desk",
        "state 4 for the desk",
    ];
    assert!(seen.iter().eq(&kinds), "{seen:?}");
}

/// Every word of a house, just outside of its range on both sides.
#[test]
fn every_word_has_its_range() {
    let walk = || {
        let mut walk = Walk::new(5, &Profile::CRASHES);
        walk.by_ref().for_each(drop);
        walk.table().to_vec()
    };
    let mut words = walk();
    for position in 0..WORDS {
        let word = words[position];
        let allowed = range(&words, position);
        for outside in [
            allowed.start().checked_sub(1),
            allowed.end().checked_add(1),
            allowed.end().checked_add(1_000_000),
        ] {
            words[position] = outside.unwrap_or(word);
            assert_eq!(in_form(&words), outside.is_none(), "word {position}");
        }
        words[position] = word;
    }
    assert!(in_form(&words));
}

fn sound_by_position(words: &[u32]) -> bool {
    let used = |position: usize| (position as u32) <= 2 * words[0];
    words.len() == 257
        && words[0] <= 128
        && (1..257).all(|position| used(position) || words[position] == 0)
}

/// Sound ledgers, damaged ones, and sound ones with another word somewhere.
#[test]
fn ledgers() {
    let mut random = Random::new(6);
    let (mut sound, mut unsound) = (0, 0);
    for round in 0..3_000 {
        let words = match round % 3 {
            0 => sound_ledger(&mut random),
            1 => damaged_ledger(&mut random),
            _ => {
                let mut words = sound_ledger(&mut random);
                let position = random.index(words.len());
                let word = random.pick(&[0, 1, words[0], words[0] + 1]);
                words[if random.chance(30) { 0 } else { position }] = word.unwrap_or(0);
                words
            }
        };
        let expected = sound_by_position(&words);
        assert_eq!(is_sound(&words), expected, "{words:?}");
        *(if expected { &mut sound } else { &mut unsound }) += 1;
    }
    assert!(sound > 1_200 && unsound > 1_200, "{sound} {unsound}");
}

#[test]
fn noise_and_other_lengths_are_refused_and_left_alone() {
    let mut random = Random::new(3);
    for round in 0..200 {
        let (mut words, number) = if round % 2 == 0 {
            (noise(&mut random), refusal::FORM)
        } else {
            (wrong_length(&mut random), refusal::LENGTH)
        };
        assert!(!in_form(&words));
        let before = words.clone();
        let answer = step(&mut words, &mut [], Command::Checkpoint { controller: 0 });
        assert_eq!(answer, Answer::Refused { number });
        assert!(words == before);
    }
}
