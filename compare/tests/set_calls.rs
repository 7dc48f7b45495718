//! The call that releases a set beside the calls of single releases: a set of one is its release, a set that goes
//! leaves what its releases leave one by one, and nothing else is written.

mod margins;
mod set_told;

use compare::agreement::Lent;
use compare::effort;
use compare::inputs::{any_ledger, Tables};
use goulvizad::raw::returned::{HELD, RELEASED, SET_HELD, SET_RELEASED, WRONG_VALUES};
use goulvizad::raw::{call, release_set, VALUE_WORDS};
use margins::{inner, within_margins};
use reference::generate::{noise, set, set_table, wrong_length, Profile, Random, Walk};
use reference::ledger;
use reference::machine::Messages;
use reference::table::WORDS;
use set_told::{told, Told, UNTOUCHED};

/// A single release.
fn released(lent: &mut Lent, message: u32) -> Told {
    let mut values = [UNTOUCHED; VALUE_WORDS];
    let Lent { table, ledger } = lent;
    let letter = u32::from(b'R');
    let number = call(table, ledger, letter, [message, 0, 0, 0], &mut values);
    (number, values)
}

/// Houses that lists lead to, and lent ones with lent ledgers, damaged ones too.
fn houses() -> impl Iterator<Item = Lent> {
    let walked = [&Profile::SETS, &Profile::REELS].into_iter();
    let walked = walked.flat_map(|profile| {
        (0..effort(10)).map(move |seed| {
            let mut walk = Walk::new(seed, profile);
            walk.by_ref().for_each(drop);
            Lent::by(&walk)
        })
    });
    let lent = Tables::FOR_SETS.into_iter().flat_map(|tables| {
        let tables = tables.with_steps().step_by(20);
        tables.map(|(lent, _)| lent)
    });
    walked.chain(lent)
}

/// The answer to a set of one as its release would give it.
fn as_release(message: u32, told: Told) -> Told {
    let mask = told.1[0];
    match told.0 {
        SET_RELEASED => (RELEASED, [message, mask, 0, 0, 0, 0]),
        SET_HELD => (HELD, [message, mask, 0, 0, 0, 0]),
        _ => told,
    }
}

/// Of every message, and of some that aren't there: the same refusals, the same mask and the same words.
#[test]
fn a_set_of_one_is_its_release() {
    let (mut let_out, mut held) = (0, 0);
    for lent in houses() {
        let sent = lent.table.get(1).map_or(0, |&sent| sent.min(128));
        for message in (0..=sent + 1).chain([128, 129, u32::MAX]) {
            let (mut by_set, mut by_release) = (lent.clone(), lent.clone());
            let told = told(&mut by_set, &[message]);
            let expected = released(&mut by_release, message);
            assert_eq!(as_release(message, told), expected, "{message}");
            assert!(by_set == by_release, "{message}");
            let_out += u32::from(told.0 == SET_RELEASED);
            held += u32::from(told.0 == SET_HELD);
        }
    }
    assert!(let_out > 2_000 && held > 1_000, "{let_out}, {held}");
}

/// Where a set goes each of its messages goes by itself, and the masks are those that it joins. Where it doesn't,
/// no word changes.
#[test]
fn a_set_that_goes_leaves_what_its_releases_leave() {
    let mut random = Random::new(1);
    let mut let_out = 0;
    for lent in houses() {
        for _ in 0..30 {
            let messages = set(&mut random, &lent.table);
            let mut by_set = lent.clone();
            let (number, values) = told(&mut by_set, &messages);
            if number != SET_RELEASED {
                assert!(by_set == lent, "{messages:?}");
                continue;
            }
            let (mut one_by_one, mut union) = (lent.clone(), 0);
            for &message in messages.iter() {
                let (number, values) = released(&mut one_by_one, message);
                assert_eq!((number, values[0]), (RELEASED, message), "{messages:?}");
                union |= values[1];
            }
            assert_eq!(values, [union, 0, 0, 0, 0, 0], "{messages:?}");
            assert!(by_set == one_by_one, "{messages:?}");
            let_out += 1;
        }
    }
    assert!(let_out > 1_000, "{let_out}");
}

/// A value buffer of another length is told first, whatever else is lent and named, and nothing is written.
#[test]
fn other_value_buffers_are_rejected() {
    let mut random = Random::new(2);
    let mut walk = Walk::new(3, &Profile::SETS);
    walk.by_ref().for_each(drop);
    let house = Lent::by(&walk);
    let lent = [
        (noise(&mut random), vec![0; ledger::WORDS]),
        (house.table.clone(), vec![UNTOUCHED; 9]),
        (house.table, house.ledger),
        (vec![0; 7], vec![]),
        (vec![], vec![]),
    ];
    for (table, ledger) in lent {
        let before = Lent { table, ledger };
        let lengths = (0..=8).chain([100, ledger::WORDS, WORDS]);
        for length in lengths.filter(|&length| length != VALUE_WORDS) {
            for messages in [
                &[][..],
                &[1],
                &[1, 1],
                &[0, 5, 9],
                &[1; 17],
                &[u32::MAX; 100],
            ] {
                let (mut after, mut values) = (before.clone(), vec![UNTOUCHED; length]);
                let Lent { table, ledger } = &mut after;
                let number = release_set(table, ledger, messages, &mut values);
                assert_eq!(number, WRONG_VALUES, "{length} values");
                assert!(after == before, "{length} values: words changed");
                assert!(values.iter().all(|&value| value == UNTOUCHED));
            }
        }
    }
}

/// All buffers lent out of larger ones: what stands beside them stays, and so do the messages.
#[test]
fn nothing_beside_the_buffers_is_written() {
    let mut random = Random::new(3);
    let mut let_out = 0;
    for _ in 0..effort(400) {
        let table = match random.below(4) {
            0 => wrong_length(&mut random),
            _ => set_table(&mut random),
        };
        let ledger = any_ledger(&mut random);
        let messages: Messages = set(&mut random, &table);
        let [mut lent_table, mut lent_ledger, mut lent_messages] =
            [&table[..], &ledger, &messages].map(within_margins);
        let mut lent_values = within_margins(&[UNTOUCHED; VALUE_WORDS]);
        let number = release_set(
            inner(&mut lent_table),
            inner(&mut lent_ledger),
            inner(&mut lent_messages),
            inner(&mut lent_values),
        );
        let mut lent = Lent { table, ledger };
        let (expected, values) = told(&mut lent, &messages);
        assert_eq!(number, expected, "{messages:?}");
        assert!(lent_values == within_margins(&values), "{messages:?}");
        assert!(lent_table == within_margins(&lent.table), "{messages:?}");
        assert!(lent_ledger == within_margins(&lent.ledger), "{messages:?}");
        assert!(lent_messages == within_margins(&messages), "{messages:?}");
        let_out += u32::from(number == SET_RELEASED);
    }
    assert!(let_out > 50, "{let_out}");
}
