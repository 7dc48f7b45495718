//! The dispatcher through its own call: whom it serves on whatever is lent, that a call is the delivery of its message
//! and word 12, what idle says, that nobody is starved with other steps between the calls, and what it returns, refuses
//! and writes.

mod margins;

use compare::agreement::{on_lent, on_lent_with, Lent};
use compare::effort;
use compare::inputs::Tables;
use goulvizad::raw::returned::{DELIVERED, DROPPED, IDLE, REFUSED, WAITS, WRONG_VALUES};
use goulvizad::raw::{call, dispatch, SERVED_WORD, VALUE_WORDS};
use margins::{inner, within_margins, UNTOUCHED};
use reference::dispatched::{offered, Rounds};
use reference::generate::{
    damaged_served, dispatch_table, gap, named, noise, senseless, set, sound_ledger, Profile,
    Random, Walk,
};
use reference::ledger;
use reference::machine::{Answer, Command, Fault};
use reference::refusal;
use reference::table::{self, state, Message, Table, LAST_SERVED, WORDS};

/// The number and the values of an answer.
type Told = (u32, [u32; VALUE_WORDS]);

/// One call on a table.
fn told(table: &mut [u32]) -> Told {
    let mut values = [UNTOUCHED; VALUE_WORDS];
    let number = dispatch(table, &mut values);
    (number, values)
}

fn refused(number: u32) -> Told {
    (REFUSED, [number, 0, 0, 0, 0, 0])
}

/// The delivery of a message by its number.
fn delivered(table: &mut [u32], message: u32) -> Told {
    let mut values = [UNTOUCHED; VALUE_WORDS];
    let letter = u32::from(b'D');
    let number = call(table, &mut [], letter, [message, 0, 0, 0], &mut values);
    (number, values)
}

/// One step that both machines do alike: its answer, and what it leaves.
fn alike(lent: &Lent, command: Command) -> (Answer, Lent) {
    let agreed = on_lent(lent, command);
    agreed.unwrap_or_else(|difference| panic!("{command:?}: {difference:?}"))
}

/// Houses that lists lead to, and lent ones with any controller as the one last served.
fn houses() -> impl Iterator<Item = Lent> {
    let walked = [&Profile::DISPATCH, &Profile::CROWDED].into_iter();
    let walked = walked.flat_map(|profile| {
        (0..effort(40)).map(move |seed| {
            let mut walk = Walk::new(seed, profile);
            walk.by_ref()
                .take(60 + 10 * (seed % 40) as usize)
                .for_each(drop);
            Lent::by(&walk)
        })
    });
    let lent = Tables::DISPATCH.with_steps().step_by(10);
    walked.chain(lent.map(|(lent, _)| lent))
}

/// Called until it is idle. Each call is the delivery of the message that it names, of which word 12 then has the
/// receiver, and that alone.
#[test]
fn a_call_is_the_delivery_of_its_message() {
    let (mut served, mut dropped) = (0, 0);
    for mut lent in houses() {
        loop {
            let (answer, after) = alike(&lent, Command::Dispatch);
            let given = told(&mut lent.table.clone());
            let message = match answer {
                Answer::Delivered { message, .. } | Answer::Dropped { message, .. } => message,
                _ => {
                    assert_eq!((answer, given), (Answer::Idle, (IDLE, [0; VALUE_WORDS])));
                    assert!(after == lent);
                    break;
                }
            };
            let mut by_number = lent.table.clone();
            assert_eq!(delivered(&mut by_number, message), given);
            let table = Table::new(&lent.table[..]).expect("a table of its length");
            by_number[SERVED_WORD] = table.message(message).receiver;
            assert!(after.table == by_number, "{answer:?}");
            served += 1;
            dropped += u32::from(given.0 == DROPPED);
            lent = after;
        }
    }
    assert!(served > 3_000 && dropped > 300, "{served} {dropped}");
}

/// Where it is idle each released message waits or gets 12, if somebody asks for its delivery; and nothing else is
/// released.
#[test]
fn idle_says_that_nothing_can_go() {
    let (mut waiting, mut full, mut none) = (0, 0, 0);
    for mut lent in houses() {
        while told(&mut lent.table).0 != IDLE {}
        let table = Table::new(&lent.table[..]).expect("a table of its length");
        let released = (0..table.n()).flat_map(|c| table.released_for(c));
        let released: Vec<u32> = released.collect();
        none += u32::from(released.is_empty());
        for message in released {
            let given = delivered(&mut lent.table.clone(), message);
            waiting += u32::from(given.0 == WAITS);
            full += u32::from(given == refused(refusal::PLACES_USED_UP));
            let stuck = given.0 == WAITS || given == refused(refusal::PLACES_USED_UP);
            assert!(stuck, "message {message}: {given:?}");
        }
    }
    let seen = [waiting, full, none];
    assert!(seen.iter().all(|&count| count > 50), "{seen:?}");
}

/// A house of n with a message released for each controller, and with this word.
fn with_word(n: u32, word: u32) -> Lent {
    let mut lent = Lent {
        table: vec![0; WORDS],
        ledger: vec![0; ledger::WORDS],
    };
    lent.step(Command::Open { n, degree: 0 });
    let mut table = Table::new(&mut lent.table[..]).expect("a table of its length");
    table.set_sent(n);
    for receiver in 0..n {
        let message = Message {
            state: state::RELEASED,
            receiver,
            number: 1,
            ..Message::default()
        };
        table.set_message(n - receiver, &message);
    }
    table.set_served(word);
    lent
}

/// Every word up to 7 in a house of every size, and some above, which are refused.
#[test]
fn every_word_at_every_size() {
    for n in 1..=8 {
        for word in (0..=20).chain([64, 128, u32::MAX]) {
            let mut lent = with_word(n, word);
            assert_eq!(table::in_form(&lent.table), word <= LAST_SERVED);
            if word > LAST_SERVED {
                let before = lent.table.clone();
                assert_eq!(told(&mut lent.table), refused(refusal::FORM));
                assert!(lent.table == before, "{word} of {n}");
                continue;
            }
            for turn in 1..=n {
                let c = (word + turn) % n;
                let (_, after) = alike(&lent, Command::Dispatch);
                let given = told(&mut lent.table);
                assert_eq!(given, (DELIVERED, [n - c, 0, 2, 0, 0, 0]), "{word} of {n}");
                assert_eq!(lent.table[SERVED_WORD], c, "{word} of {n}");
                assert!(lent == after);
            }
            assert_eq!(told(&mut lent.table), (IDLE, [0; VALUE_WORDS]));
        }
    }
}

/// An opening puts the last controller there, whatever stood in the table. No other step writes it.
#[test]
fn openings_and_calls_alone_write_the_word() {
    for n in 1..=8 {
        let mut lent = Lent {
            table: vec![UNTOUCHED; WORDS],
            ledger: vec![0; ledger::WORDS],
        };
        lent.step(Command::Open { n, degree: 0 });
        assert_eq!(lent.table[SERVED_WORD], n - 1);
    }
    let mut random = Random::new(1);
    for _ in 0..effort(300) {
        let (table, ledger) = (dispatch_table(&mut random), sound_ledger(&mut random));
        let mut lent = Lent { table, ledger };
        let word = lent.table[SERVED_WORD];
        for _ in 0..20 {
            lent.step(other_step(&mut random, &lent.table));
            assert_eq!(lent.table[SERVED_WORD], word);
        }
    }
}

/// A step that is neither an opening nor a call, on a table of any content.
fn other_step(random: &mut Random, words: &[u32]) -> Command {
    let messages = set(random, words);
    let mut steps = named(random, words);
    steps.extend([
        Command::ReleaseSet { messages },
        Command::SetGap { gap: gap(random) },
        senseless(random),
    ]);
    steps.retain(|step| !matches!(step, Command::Open { .. }));
    let chosen = random.pick(&steps);
    chosen.unwrap_or(Command::Crash { controller: 0 })
}

/// Who has a message that would be delivered or dropped before each of n calls running is served in one of them, with
/// other steps between the calls, crashes too; by the answers of the proved machine, beside which the other does the same.
#[test]
fn nobody_is_starved() {
    let mut random = Random::new(2);
    let (mut calls, mut at_last, mut others) = (0, 0, 0);
    for mut lent in houses().chain(houses()) {
        let mut rounds = Rounds::default();
        let between = [0, 30, 60][random.index(3)];
        for _ in 0..60 {
            let command = if random.chance(between) {
                others += 1;
                other_step(&mut random, &lent.table)
            } else {
                calls += 1;
                Command::Dispatch
            };
            let (answer, after) = alike(&lent, command);
            let fair = rounds.feed(&lent.table, command, answer);
            assert!(fair.is_ok(), "{fair:?}");
            at_last += u32::from(fair == Ok(true));
            lent = after;
        }
    }
    let seen = [calls, at_last, others];
    assert!(
        calls > 20_000 && at_last > 800 && others > 10_000,
        "{seen:?}"
    );
}

/// In n − 1 calls one can be left out: who was served last, where all others have messages, too.
#[test]
fn one_call_less_is_not_enough() {
    for n in 2..=8 {
        let mut lent = with_word(n, n - 1);
        for call in 1..=n {
            let mut offered = offered(&lent.table).into_iter();
            let has = offered.any(|offered| offered.receiver == n - 1 && offered.fate.is_taken());
            assert!(has, "call {call} of {n}");
            assert_eq!(told(&mut lent.table).0, DELIVERED);
            assert_eq!(lent.table[SERVED_WORD] == n - 1, call == n);
        }
    }
}

/// A value buffer of another length is told first, whatever the table, and nothing is written.
#[test]
fn other_value_buffers_are_rejected() {
    let mut random = Random::new(3);
    let tables = [
        with_word(3, 2).table,
        with_word(3, 8).table,
        noise(&mut random),
        vec![0; 7],
        vec![],
    ];
    for before in tables {
        let lengths = (0..=8).chain([100, ledger::WORDS, WORDS]);
        for length in lengths.filter(|&length| length != VALUE_WORDS) {
            let (mut table, mut values) = (before.clone(), vec![UNTOUCHED; length]);
            let number = dispatch(&mut table, &mut values);
            assert_eq!(number, WRONG_VALUES, "{length} values");
            assert!(table == before, "{length} values: wrote to the table");
            assert!(values.iter().all(|&value| value == UNTOUCHED));
        }
    }
}

/// The length comes first, then the form, and nothing after it. A refusal changes no word.
#[test]
fn length_and_form_are_its_only_refusals() {
    let (house, unformed) = (with_word(3, 2).table, with_word(3, 8).table);
    let mut longer = unformed.clone();
    longer.push(0);
    for (before, number) in [
        (&longer[..], refusal::LENGTH),
        (&house[1..], refusal::LENGTH),
        (&[], refusal::LENGTH),
        (&unformed, refusal::FORM),
        (&[0; WORDS], refusal::FORM),
        (&[UNTOUCHED; WORDS], refusal::FORM),
    ] {
        let mut table = before.to_vec();
        assert_eq!(told(&mut table), refused(number));
        assert!(table == before);
    }
    for tables in Tables::TO_DISPATCH {
        for (lent, _) in tables.with_steps() {
            let given = told(&mut lent.table.clone());
            let expected = match (lent.table.len(), table::in_form(&lent.table)) {
                (WORDS, true) => None,
                (WORDS, false) => Some(refusal::FORM),
                _ => Some(refusal::LENGTH),
            };
            match expected {
                Some(number) => assert_eq!(given, refused(number)),
                None => assert!([DELIVERED, DROPPED, IDLE].contains(&given.0), "{given:?}"),
            }
        }
    }
}

/// A table and values lent out of larger buffers: what stands beside them stays.
#[test]
fn nothing_beside_the_buffers_is_written() {
    let mut random = Random::new(4);
    let mut served = 0;
    for _ in 0..effort(300) {
        let mut table = match random.below(4) {
            0 => damaged_served(&mut random),
            _ => dispatch_table(&mut random),
        };
        let mut lent_table = within_margins(&table);
        let mut lent_values = within_margins(&[UNTOUCHED; VALUE_WORDS]);
        let number = dispatch(inner(&mut lent_table), inner(&mut lent_values));
        let (expected, values) = told(&mut table);
        assert_eq!(number, expected);
        assert!(lent_values == within_margins(&values));
        assert!(lent_table == within_margins(&table));
        served += u32::from(number == DELIVERED || number == DROPPED);
    }
    assert!(served > 80, "{served}");
}

/// The comparison can fail: a machine with any planted fault that concerns the dispatcher does something else in one of
/// the steps on these tables.
#[test]
fn every_planted_fault_of_the_dispatcher_is_found() {
    let mut left: Vec<Fault> = Fault::PLANTED.to_vec();
    left.retain(|fault| fault.needs_the_dispatcher());
    assert_eq!(left.len(), 17);
    let tables = Tables::TO_DISPATCH.into_iter();
    for (lent, steps) in tables.flat_map(Tables::with_steps) {
        for command in steps {
            left.retain(|&fault| on_lent_with(fault, &lent, command).is_ok());
        }
    }
    assert!(left.is_empty(), "not found: {left:?}");
}
