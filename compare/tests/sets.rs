//! Sets of messages: of every size and with every fault, alone and together; with readings beside ledgers of
//! little room; and that a set goes whole or not at all, by the union of its masks alone.

mod set_told;

use compare::agreement::{on_lent, on_lent_with, Lent};
use compare::effort;
use compare::inputs::Tables;
use goulvizad::raw::returned::{REFUSED, SET_HELD, SET_RELEASED};
use reference::generate::Random;
use reference::ledger::{self, words_of, Entry, ENTRIES};
use reference::machine::{Answer, Command, Fault, Messages};
use reference::refusal::{self, Refusal};
use reference::table::{self, state, Message, Table, DESK, WORDS};
use reference::vector::Pair;
use set_told::{told, UNTOUCHED};
use std::ops::RangeInclusive;

/// The messages of [`house`]: one that was delivered; one of controller 1, which that one could revoke; some of
/// controller 0 for a controller and some for the desk, which nobody could; some of controller 1 for the desk,
/// which it could revoke. The next number is that of no message.
const DELIVERED: u32 = 1;
const FOREIGN: u32 = 2;
const INSIDE: RangeInclusive<u32> = 3..=22;
const READINGS: RangeInclusive<u32> = 23..=42;
const AT_RISK: RangeInclusive<u32> = 43..=46;
const ABSENT: u32 = 47;

/// A house of three controllers with degree 3.
fn house() -> Lent {
    let mut lent = Lent {
        table: vec![0; WORDS],
        ledger: vec![0; ledger::WORDS],
    };
    let send = |sender, receiver, payload| Command::Send {
        sender,
        receiver,
        payload,
    };
    let mut commands = vec![
        Command::Open { n: 3, degree: 3 },
        send(0, 1, 0),
        Command::Release { message: DELIVERED },
        Command::Deliver { message: DELIVERED },
        send(1, 0, 0),
    ];
    commands.extend(INSIDE.map(|payload| send(0, 1 + payload % 2, payload)));
    commands.extend(READINGS.map(|payload| send(0, DESK, 1_000 - payload)));
    commands.extend(AT_RISK.map(|payload| send(1, DESK, payload)));
    for command in commands {
        let answer = lent.step(command);
        assert!(!matches!(answer, Answer::Refused { .. }), "{command:?}");
    }
    assert_eq!(lent.table[1], ABSENT - 1);
    lent
}

/// A sound ledger with so many pairs.
fn with_entries(count: u32) -> Vec<u32> {
    let entry = Entry {
        message: UNTOUCHED,
        payload: UNTOUCHED,
    };
    words_of(&vec![entry; count as usize])
}

/// One call that must give this, and change no word unless it lets the set out. A list that the reference takes
/// has the same answer there, and leaves the same.
fn expect(lent: &Lent, messages: &[u32], number: u32, value: u32) -> Lent {
    let mut after = lent.clone();
    let given = told(&mut after, messages);
    assert_eq!(given, (number, [value, 0, 0, 0, 0, 0]), "{messages:?}");
    assert!(number == SET_RELEASED || after == *lent, "{messages:?}");
    if messages.len() <= Messages::MOST {
        let messages = Messages::of(messages);
        let agreed = on_lent(lent, Command::ReleaseSet { messages });
        let (answer, left) = agreed.unwrap_or_else(|parted| panic!("{messages:?}: {parted:?}"));
        assert_eq!(numbered(answer), (number, value), "{messages:?}");
        assert!(left == after, "{messages:?}");
    }
    after
}

fn numbered(answer: Answer) -> (u32, u32) {
    match answer {
        Answer::SetReleased { mask } => (SET_RELEASED, mask),
        Answer::SetHeld { mask } => (SET_HELD, mask),
        Answer::Refused { number } => (REFUSED, number),
        other => panic!("{other:?} to a set"),
    }
}

fn refused(lent: &Lent, messages: &[u32], number: Refusal) {
    expect(lent, messages, REFUSED, number);
}

fn states<'a>(lent: &'a Lent, messages: &'a [u32]) -> impl Iterator<Item = u32> + 'a {
    let table = Table::new(&lent.table[..]).expect("a table of its length");
    messages.iter().map(move |&m| table.message(m).state)
}

/// Up to 16 go, of all sizes; none and more than 16 don't.
#[test]
fn sizes() {
    let house = house();
    for messages in [INSIDE, READINGS] {
        let all: Vec<u32> = messages.collect();
        let let_out = if all.contains(READINGS.start()) {
            state::PUBLISHED
        } else {
            state::RELEASED
        };
        for size in 1..=16 {
            let after = expect(&house, &all[..size], SET_RELEASED, 0);
            assert!(states(&after, &all[..size]).all(|state| state == let_out));
            assert!(states(&after, &all[size..]).all(|state| state == state::HELD));
        }
        for size in 17..=all.len() {
            refused(&house, &all[..size], refusal::SAME_CONTROLLER);
        }
    }
    refused(&house, &[], refusal::SAME_CONTROLLER);
}

/// Lists far longer than a set: one message that isn't there comes first, wherever it stands.
#[test]
fn long_lists() {
    let house = house();
    for length in [17, 21, 64, 128, 129, 256, 1_000, 70_000] {
        let mut list: Vec<u32> = (1..ABSENT).cycle().take(length).collect();
        refused(&house, &list, refusal::SAME_CONTROLLER);
        for position in [0, length / 2, length - 1] {
            for absent in [0, ABSENT, 128, 129, u32::MAX] {
                let there = std::mem::replace(&mut list[position], absent);
                refused(&house, &list, refusal::MESSAGE);
                list[position] = there;
            }
        }
    }
}

/// Each position of a set of each size, and each two of them.
#[test]
fn one_wrong_message_at_each_position() {
    let house = house();
    let all: Vec<u32> = INSIDE.collect();
    for size in 1..=16 {
        for position in 0..size {
            let mut list = all[..size].to_vec();
            for absent in [0, ABSENT, u32::MAX] {
                list[position] = absent;
                refused(&house, &list, refusal::MESSAGE);
            }
            list[position] = DELIVERED;
            refused(&house, &list, refusal::STATE);
            if size > 1 {
                list[position] = FOREIGN;
                refused(&house, &list, refusal::SENDERS);
            }
            for other in (0..size).filter(|&other| other != position) {
                list[position] = list[other];
                refused(&house, &list, refusal::SAME_CONTROLLER);
            }
        }
    }
}

/// What can be wrong with a set, in the order in which it is told.
const WRONG: [Refusal; 9] = [
    refusal::LENGTH,
    refusal::FORM,
    refusal::LEDGER,
    refusal::MESSAGE,
    refusal::SAME_CONTROLLER,
    refusal::SAME_CONTROLLER,
    refusal::STATE,
    refusal::SENDERS,
    refusal::LEDGER_USED_UP,
];

/// The house and a list with these faults: of the two with one number the first is a list too long, and the
/// second a message named twice.
fn with_faults(random: &mut Random, house: &Lent, faults: [bool; WRONG.len()]) -> (Lent, Vec<u32>) {
    let [length, form, ledger, absent, too_long, doubled, not_held, senders, full] = faults;
    let mut lent = house.clone();
    if form {
        lent.table[2] = 1;
    }
    if length {
        lent.table.pop();
    }
    if full {
        lent.ledger = with_entries(ENTRIES);
    }
    if ledger {
        lent.ledger[0] = ENTRIES + 1;
    }
    let mut list = vec![if full {
        *READINGS.start()
    } else {
        *INSIDE.start()
    }];
    list.extend(absent.then_some(ABSENT));
    list.extend(not_held.then_some(DELIVERED));
    list.extend(senders.then_some(FOREIGN));
    list.extend(doubled.then_some(list[0]));
    if too_long {
        let missing = 17 - list.len();
        list.extend(INSIDE.skip(1).take(missing));
    }
    for last in (1..list.len()).rev() {
        list.swap(last, random.index(last + 1));
    }
    (lent, list)
}

/// All that can be wrong, each with each other and all together, in any order of the list.
#[test]
fn refusals_come_in_their_order() {
    let (mut random, house) = (Random::new(1), house());
    for bits in 0..1 << WRONG.len() {
        let faults = std::array::from_fn(|fault| bits >> fault & 1 == 1);
        let first = WRONG.iter().zip(faults).find(|(_, wrong)| *wrong);
        for _ in 0..3 {
            let (lent, list) = with_faults(&mut random, &house, faults);
            match first {
                Some((&number, _)) => refused(&lent, &list, number),
                None => drop(expect(&lent, &list, SET_RELEASED, 0)),
            }
        }
    }
}

/// A set that would stay held is refused for all that is wrong but a full ledger.
#[test]
fn a_held_set_needs_no_room() {
    let mut lent = house();
    let at_risk: Vec<u32> = AT_RISK.collect();
    for count in 112..=ENTRIES {
        lent.ledger = with_entries(count);
        for size in 1..=at_risk.len() {
            expect(&lent, &at_risk[..size], SET_HELD, 2);
        }
    }
    lent.ledger[0] = ENTRIES + 1;
    refused(&lent, &at_risk, refusal::LEDGER);
}

/// Every number of readings among 16 messages, beside ledgers with room for all, for some or for none.
#[test]
fn readings_need_room_for_all_of_them() {
    let mut lent = house();
    for count in 112..=ENTRIES {
        lent.ledger = with_entries(count);
        for readings in 0..=16 {
            let inside = INSIDE.take(16 - readings as usize);
            let mut list: Vec<u32> = READINGS.take(readings as usize).chain(inside).collect();
            list.rotate_left(readings as usize / 2);
            if readings > 0 && count + readings > ENTRIES {
                refused(&lent, &list, refusal::LEDGER_USED_UP);
                continue;
            }
            let after = expect(&lent, &list, SET_RELEASED, 0);
            let mut expected = lent.ledger.clone();
            let published = list.iter().filter(|m| READINGS.contains(m));
            for (pair, &message) in expected[1..]
                .chunks_mut(2)
                .skip(count as usize)
                .zip(published)
            {
                pair.copy_from_slice(&[message, 1_000 - message]);
            }
            expected[0] = count + readings;
            assert_eq!(after.ledger, expected, "{count} and {readings}");
        }
    }
}

/// A house of n in which controller 0 has sent a message from work of each of these masks' owners, as no list of
/// steps leads to; some are for the desk.
fn with_masks(n: u32, degree: u32, masks: &[(u32, bool)]) -> Lent {
    let mut lent = Lent {
        table: vec![0; WORDS],
        ledger: vec![0; ledger::WORDS],
    };
    lent.step(Command::Open { n, degree });
    let mut table = Table::new(&mut lent.table[..]).expect("a table of its length");
    table.set_sent(masks.len() as u32);
    for (message, &(mask, for_desk)) in (1..).zip(masks) {
        let mut record = Message {
            state: state::HELD,
            receiver: if for_desk { DESK } else { n - 1 },
            number: 1,
            ..Message::default()
        };
        for owner in (0..n as usize).filter(|owner| mask >> owner & 1 == 1) {
            record.vector[owner] = Pair::new(3, 9);
        }
        table.set_message(message, &record);
    }
    assert!(table::in_form(&lent.table));
    lent
}

/// What must come of all these messages as a set.
fn expect_by_union(n: u32, degree: u32, masks: &[(u32, bool)]) -> u32 {
    let lent = with_masks(n, degree, masks);
    let list: Vec<u32> = (1..=masks.len() as u32).collect();
    let union = masks.iter().fold(0, |union, (mask, _)| union | mask);
    let for_desk = masks.iter().any(|&(_, for_desk)| for_desk);
    let most = if for_desk { 0 } else { degree };
    let number = if union.count_ones() <= most {
        SET_RELEASED
    } else {
        SET_HELD
    };
    expect(&lent, &list, number, union);
    number
}

/// Messages that name one controller each, and every degree: each is within it, and the union decides alone.
#[test]
fn the_union_decides_where_each_mask_would_pass() {
    for n in 1..=8 {
        for degree in 0..=n {
            for named in 0..=n {
                let mut masks = vec![(0, false)];
                masks.extend((0..named).map(|owner| (1 << owner, false)));
                let number = expect_by_union(n, degree, &masks);
                assert_eq!(number == SET_RELEASED, named <= degree);
                masks.push((0, true));
                let number = expect_by_union(n, degree, &masks);
                assert_eq!(number == SET_RELEASED, named == 0);
            }
        }
    }
}

/// Any masks, overlapping or not.
#[test]
fn the_union_of_any_masks() {
    let mut random = Random::new(2);
    let mut released = 0;
    for _ in 0..effort(3_000) {
        let n = random.within(1..=8);
        let few = random.below(1 << n);
        let size = random.within(1..=16);
        let masks: Vec<(u32, bool)> = (0..size)
            .map(|_| (random.below(1 << n) & few, random.chance(3)))
            .collect();
        let number = expect_by_union(n, random.within(0..=n), &masks);
        released += u32::from(number == SET_RELEASED);
    }
    assert!(released > 500, "{released}");
}

/// The comparison can fail: a machine with any planted fault that concerns sets does something else with one of the
/// random sets on lent tables.
#[test]
fn every_planted_fault_of_sets_is_found() {
    let mut left: Vec<Fault> = Fault::PLANTED.to_vec();
    left.retain(|fault| fault.needs_a_set());
    assert_eq!(left.len(), 17);
    for (lent, steps) in Tables::SETS.with_steps() {
        for command in steps {
            left.retain(|&fault| on_lent_with(fault, &lent, command).is_ok());
        }
        if left.is_empty() {
            return;
        }
    }
    panic!("not found: {left:?}");
}
