//! The gap through its own call: what it returns and writes, what comes before what, and for every gap which
//! intervals of a long chain are checkpointed as they begin.

mod margins;

use compare::agreement::{on_lent, Lent};
use compare::{effort, in_form, is_checkpoint};
use goulvizad::raw::returned::{DONE, REFUSED, WRONG_VALUES};
use goulvizad::raw::{set_gap, SERVED_WORD, VALUE_WORDS};
use margins::{inner, within_margins, UNTOUCHED};
use reference::generate::{damaged_gap, gap, gapped_table, noise, Profile, Random, Walk};
use reference::machine::{Answer, Command};
use reference::table::{self, Table, LAST_GAP, LAST_INCARNATION, LAST_NUMBER, WORDS};
use reference::{ledger, refusal};

/// The position of the gap.
const GAP: usize = 11;

/// A house in which much has been done.
fn house() -> Vec<u32> {
    let mut walk = Walk::new(3, &Profile::CEILING);
    walk.by_ref().for_each(drop);
    walk.table().to_vec()
}

/// Gaps on both sides of every edge.
fn gaps() -> impl Iterator<Item = u32> {
    (0..=70).chain([127, 128, 1 << 16, 1 << 31, u32::MAX - 1, u32::MAX])
}

/// One call: its number and its values.
fn told(table: &mut [u32], gap: u32) -> (u32, [u32; VALUE_WORDS]) {
    let mut values = [UNTOUCHED; VALUE_WORDS];
    let number = set_gap(table, gap, &mut values);
    (number, values)
}

fn refused(number: u32) -> (u32, [u32; VALUE_WORDS]) {
    (REFUSED, [number, 0, 0, 0, 0, 0])
}

/// Up to 64 it is done without values, and word 11 alone is written; above, it is refused and nothing is.
#[test]
fn a_gap_is_kept_in_its_word() {
    let house = house();
    for gap in gaps() {
        let (mut table, mut expected) = (house.clone(), house.clone());
        let answer = told(&mut table, gap);
        if gap <= LAST_GAP {
            expected[GAP] = gap;
            assert_eq!(answer, (DONE, [0; VALUE_WORDS]), "a gap of {gap}");
        } else {
            assert_eq!(answer, refused(refusal::DEGREE), "a gap of {gap}");
        }
        assert!(table == expected, "a gap of {gap}");
    }
}

/// A value buffer of another length is told first, whatever the table and the gap, and nothing is written.
#[test]
fn other_value_buffers_are_rejected() {
    let mut random = Random::new(1);
    let tables = [
        house(),
        noise(&mut random),
        vec![0; WORDS],
        vec![0; 7],
        vec![],
    ];
    for before in tables {
        for length in (0..=8).chain([100, ledger::WORDS, WORDS]) {
            if length == VALUE_WORDS {
                continue;
            }
            for gap in [0, 3, LAST_GAP, LAST_GAP + 1, u32::MAX] {
                let (mut table, mut values) = (before.clone(), vec![UNTOUCHED; length]);
                let number = set_gap(&mut table, gap, &mut values);
                assert_eq!(number, WRONG_VALUES, "{length} values");
                assert!(table == before, "{length} values: wrote to the table");
                assert!(values.iter().all(|&value| value == UNTOUCHED));
            }
        }
    }
}

/// The table's length comes first, then its form, then the gap itself. A refusal changes no word.
#[test]
fn refusals_come_in_their_order() {
    let house = house();
    let mut too_wide = house.clone();
    too_wide[GAP] = LAST_GAP + 1;
    let mut longer = too_wide.clone();
    longer.push(0);
    for (before, first) in [
        (&longer[..], Some(refusal::LENGTH)),
        (&house[1..], Some(refusal::LENGTH)),
        (&[], Some(refusal::LENGTH)),
        (&too_wide, Some(refusal::FORM)),
        (&[0; WORDS], Some(refusal::FORM)),
        (&house, None),
    ] {
        for gap in gaps() {
            let mut table = before.to_vec();
            let own = (gap > LAST_GAP).then_some(refusal::DEGREE);
            let expected = match first.or(own) {
                Some(number) => refused(number),
                None => (DONE, [0; VALUE_WORDS]),
            };
            assert_eq!(told(&mut table, gap), expected, "a gap of {gap}");
            assert!(table == before || expected.0 == DONE, "a gap of {gap}");
        }
    }
}

/// A table and values lent out of larger buffers: what stands beside them stays.
#[test]
fn nothing_beside_the_buffers_is_written() {
    let mut random = Random::new(2);
    for _ in 0..effort(200) {
        let gap = gap(&mut random);
        let mut table = match random.below(3) {
            0 => damaged_gap(&mut random),
            _ => gapped_table(&mut random),
        };
        let mut lent_table = within_margins(&table);
        let mut lent_values = within_margins(&[UNTOUCHED; VALUE_WORDS]);
        let number = set_gap(inner(&mut lent_table), gap, inner(&mut lent_values));
        let (expected, values) = told(&mut table, gap);
        assert_eq!(number, expected, "a gap of {gap}");
        assert!(lent_values == within_margins(&values), "a gap of {gap}");
        assert!(lent_table == within_margins(&table), "a gap of {gap}");
    }
}

/// Each value of each word of the head that has no meaning, and of the gap. The controller last served has its own
/// test.
#[test]
fn the_gap_alone_may_be_other_than_0() {
    let mut house = house();
    for position in (2..16).filter(|&position| position != SERVED_WORD) {
        let word = house[position];
        for other in gaps() {
            house[position] = other;
            let most = if position == GAP { LAST_GAP } else { 0 };
            let formed = [in_form(&house), table::in_form(&house)];
            assert_eq!(formed, [other <= most; 2], "{other} as word {position}");
        }
        house[position] = word;
    }
}

/// A house of two that is opened and given a gap by both machines in step.
fn opened(gap: u32) -> Lent {
    let mut lent = Lent {
        table: vec![UNTOUCHED; WORDS],
        ledger: vec![0; ledger::WORDS],
    };
    go_on(&mut lent, Command::Open { n: 2, degree: 2 });
    assert_eq!(lent.table[GAP], 0, "an opening turns the gap off");
    go_on(&mut lent, Command::SetGap { gap });
    lent
}

/// One step that both machines do alike: its answer, and what it leaves.
fn alike(lent: &Lent, command: Command) -> (Answer, Lent) {
    let agreed = on_lent(lent, command);
    agreed.unwrap_or_else(|difference| panic!("{command:?}: {difference:?}"))
}

/// One step that both machines do alike, and don't refuse.
fn go_on(lent: &mut Lent, command: Command) -> Answer {
    let (answer, after) = alike(lent, command);
    assert!(!matches!(answer, Answer::Refused { .. }), "{command:?}");
    *lent = after;
    answer
}

fn bring(lent: &mut Lent, message: u32) {
    let sending = Command::Send {
        sender: 0,
        receiver: 1,
        payload: message,
    };
    go_on(lent, sending);
    go_on(lent, Command::Release { message });
    go_on(lent, Command::Deliver { message });
}

/// The numbers of controller 1's flagged places, and its stable count. Whether the newest of them is the
/// newest of all can be asked for.
fn checkpoints(lent: &Lent) -> (Vec<u32>, u32) {
    let table = Table::new(&lent.table[..]).expect("a table of its length");
    let counts = table.controller(1);
    let places = (0..counts.live as usize).map(|place| table.place(1, place));
    let flagged = places.filter(|record| record.flag == 1);
    let flagged: Vec<u32> = flagged.map(|record| record.number).collect();
    let newest = flagged.last() == Some(&counts.live);
    assert_eq!(is_checkpoint(&lent.table, 1), newest, "{flagged:?}");
    (flagged, counts.stable)
}

/// The numbers up to the last that are checkpoints by the gap alone: 1, and each that is the gap above it.
fn spaced(gap: u32, last: u32) -> Vec<u32> {
    match gap {
        0 => vec![1],
        _ => (1..=last).step_by(gap as usize).collect(),
    }
}

/// Every gap on a chain of 64 intervals, by deliveries: only what is forced is stable. The widest gap forces
/// nothing. Where the last interval is forced all 64 are stable, and there alone a crash is refused.
#[test]
fn every_gap_on_a_chain_of_deliveries() {
    let full = Answer::Refused {
        number: refusal::PLACES_USED_UP,
    };
    for gap in 0..=LAST_GAP {
        let mut lent = opened(gap);
        for message in 1..LAST_NUMBER {
            bring(&mut lent, message);
            let flagged = spaced(gap, message + 1);
            let stable = flagged[flagged.len() - 1];
            assert_eq!(checkpoints(&lent), (flagged, stable), "a gap of {gap}");
        }
        let (flagged, stable) = checkpoints(&lent);
        assert!(gap < LAST_GAP || flagged == [1], "a gap of {gap}");
        let (crashed, _) = alike(&lent, Command::Crash { controller: 1 });
        assert_eq!(crashed == full, stable == LAST_NUMBER, "a gap of {gap}");
    }
}

/// Every gap on a chain of crashes' starts, which are stable anyway: what is replayed is less than the gap.
#[test]
fn every_gap_on_a_chain_of_crashes() {
    let crash = Command::Crash { controller: 1 };
    for gap in 0..=LAST_INCARNATION + 2 {
        let mut lent = opened(gap);
        for incarnation in 0..LAST_INCARNATION {
            let flagged = spaced(gap, incarnation + 1);
            let latest = flagged[flagged.len() - 1];
            assert_eq!(checkpoints(&lent), (flagged, incarnation + 1));
            let expected = Answer::Crashed {
                controller: 1,
                incarnation,
                kept: incarnation + 1,
                lost: 0,
                replayed: incarnation + 1 - latest,
            };
            assert_eq!(go_on(&mut lent, crash), expected, "a gap of {gap}");
        }
    }
}

/// Gaps of up to 10 on the start after a rollback to each of the numbers 1 to 7, of a chain of nine.
#[test]
fn gaps_on_the_start_after_a_rollback() {
    for kept in 1..8 {
        for gap in 0..=10 {
            let mut lent = opened(0);
            let lost = kept;
            (1..kept).for_each(|message| bring(&mut lent, message));
            // What 0 sends from here on rests on work that it loses.
            let sending = Command::Send {
                sender: 1,
                receiver: 0,
                payload: 0,
            };
            for command in [
                sending,
                Command::Release { message: lost },
                Command::Deliver { message: lost },
            ] {
                go_on(&mut lent, command);
            }
            (lost + 1..=9).for_each(|message| bring(&mut lent, message));
            go_on(&mut lent, Command::SetGap { gap });
            go_on(&mut lent, Command::Crash { controller: 0 });
            let hearing = Command::Hear {
                hearer: 1,
                crashed: 0,
                incarnation: 0,
            };
            let rolled = go_on(&mut lent, hearing);
            let replayed = kept - 1;
            assert!(
                matches!(rolled, Answer::Rolled { kept: k, replayed: r, .. } if (k, r) == (kept, replayed)),
                "{rolled:?}"
            );
            let forced = gap != 0 && kept >= gap;
            let flagged = if forced { vec![1, kept + 1] } else { vec![1] };
            assert_eq!(checkpoints(&lent), (flagged, kept + 1), "{kept}, {gap}");
        }
    }
}
