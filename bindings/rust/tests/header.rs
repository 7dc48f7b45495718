//! Every number, length, letter and call of `include/goulvizad.h` is the one that is used here.

use goulvizad::raw::{
    returned, ANSWER_WORDS, LEDGER_WORDS, SERVED_WORD, SET_MOST, STEP_WORDS, TABLE_WORDS,
    VALUE_WORDS,
};
use goulvizad::{Refusal, Step, DESK};
use std::fs;
use std::path::Path;

/// The entries of the header's enums, by their names without the prefix. The refusals come last, in the
/// order in which they are given.
const NAMED: [(&str, u32); 32] = [
    ("DONE", returned::DONE),
    ("SENT", returned::SENT),
    ("RELEASED", returned::RELEASED),
    ("HELD", returned::HELD),
    ("DELIVERED", returned::DELIVERED),
    ("DROPPED", returned::DROPPED),
    ("WAITS", returned::WAITS),
    ("CRASHED", returned::CRASHED),
    ("HEARD", returned::HEARD),
    ("ROLLED", returned::ROLLED),
    ("REFUSED", returned::REFUSED),
    ("SET_RELEASED", returned::SET_RELEASED),
    ("SET_HELD", returned::SET_HELD),
    ("IDLE", returned::IDLE),
    ("UNKNOWN_LETTER", returned::UNKNOWN_LETTER),
    ("WRONG_VALUES", returned::WRONG_VALUES),
    ("LENGTH", Refusal::Length as u32),
    ("FORM", Refusal::Form as u32),
    ("LEDGER", Refusal::Ledger as u32),
    ("CONTROLLER", Refusal::Controller as u32),
    ("MESSAGE", Refusal::Message as u32),
    ("DEGREE", Refusal::Degree as u32),
    ("SAME_CONTROLLER", Refusal::SameController as u32),
    ("STATE", Refusal::State as u32),
    ("SENDERS", Refusal::Senders as u32),
    ("LOG_COUNT", Refusal::LogCount as u32),
    ("NO_SUCH_CRASH", Refusal::NoSuchCrash as u32),
    ("ALREADY_HEARD", Refusal::AlreadyHeard as u32),
    ("MESSAGES_USED_UP", Refusal::MessagesUsedUp as u32),
    ("PLACES_USED_UP", Refusal::PlacesUsedUp as u32),
    ("INCARNATIONS_USED_UP", Refusal::IncarnationsUsedUp as u32),
    ("LEDGER_USED_UP", Refusal::LedgerUsedUp as u32),
];

/// What the header defines: the lengths of the buffers, of a step and of an answer, the most messages of a
/// set, the receiver that is no controller, and the word of the controller last served.
const DEFINED: [(&str, u32); 8] = [
    ("TABLE_WORDS", TABLE_WORDS as u32),
    ("LEDGER_WORDS", LEDGER_WORDS as u32),
    ("VALUE_WORDS", VALUE_WORDS as u32),
    ("STEP_WORDS", STEP_WORDS as u32),
    ("ANSWER_WORDS", ANSWER_WORDS as u32),
    ("SET_MOST", SET_MOST as u32),
    ("DESK", DESK),
    ("SERVED_WORD", SERVED_WORD as u32),
];

/// The calls that `raw.rs` declares.
const CALLS: [&str; 7] = [
    "uint32_t goulvizad_step(uint32_t *table, size_t table_words, uint32_t *ledger, \
     size_t ledger_words, uint32_t letter, uint32_t a, uint32_t b, uint32_t c, uint32_t d, \
     uint32_t *values, size_t values_words)",
    "uint32_t goulvizad_run(uint32_t *table, size_t table_words, uint32_t *ledger, \
     size_t ledger_words, const uint32_t *steps, size_t steps_words, uint32_t *answers, \
     size_t answers_words)",
    "uint32_t goulvizad_in_form(const uint32_t *table, size_t table_words)",
    "uint32_t goulvizad_is_checkpoint(const uint32_t *table, size_t table_words, \
     uint32_t controller)",
    "uint32_t goulvizad_set_gap(uint32_t *table, size_t table_words, uint32_t gap, \
     uint32_t *values, size_t values_words)",
    "uint32_t goulvizad_release_set(uint32_t *table, size_t table_words, uint32_t *ledger, \
     size_t ledger_words, const uint32_t *messages, size_t message_count, uint32_t *values, \
     size_t values_words)",
    "uint32_t goulvizad_dispatch(uint32_t *table, size_t table_words, uint32_t *values, \
     size_t values_words)",
];

/// One step of each kind, with its numbers in the order of the names that the header has for them.
const STEPS: [(Step, &[&str]); 10] = [
    (Step::Open { n: 1, degree: 2 }, &["n", "degree"]),
    (
        Step::SetDegree {
            controller: 1,
            degree: 2,
        },
        &["controller", "degree"],
    ),
    (
        Step::Send {
            sender: 1,
            receiver: 2,
            payload: 3,
        },
        &["sender", "receiver", "payload"],
    ),
    (Step::Release { message: 1 }, &["message"]),
    (Step::Deliver { message: 1 }, &["message"]),
    (
        Step::Log {
            controller: 1,
            count: 2,
        },
        &["controller", "count"],
    ),
    (Step::Checkpoint { controller: 1 }, &["controller"]),
    (
        Step::Tell {
            owner: 1,
            holder: 2,
        },
        &["owner", "holder"],
    ),
    (Step::Crash { controller: 1 }, &["controller"]),
    (
        Step::Hear {
            hearer: 1,
            crashed: 2,
            incarnation: 3,
        },
        &["hearer", "crashed", "incarnation"],
    ),
];

fn header() -> String {
    let header = Path::new(env!("CARGO_MANIFEST_DIR")).join("../../include/goulvizad.h");
    fs::read_to_string(header).expect("the header of the repository")
}

/// What stands in the lines with this beginning: a name, the text between, and the digits after it.
fn numbers(header: &str, beginning: &str, between: &str) -> Vec<(String, u32)> {
    let named = |line: &str| {
        let line = line.trim().strip_prefix(beginning)?;
        let (name, rest) = line.split_once(between)?;
        let digits = rest.split(|byte: char| !byte.is_ascii_digit()).next()?;
        Some((name.to_owned(), digits.parse().ok()?))
    };
    header.lines().filter_map(named).collect()
}

#[test]
fn the_header_has_the_same_numbers() {
    let named = NAMED.map(|(name, number)| (name.to_owned(), number));
    assert_eq!(numbers(&header(), "GOULVIZAD_", " = "), named);
    let refusals = NAMED[NAMED.len() - Refusal::ALL.len()..].iter();
    let refusals = refusals.map(|&(_, number)| Refusal::from_number(number));
    assert!(refusals.eq(Refusal::ALL.map(Some)));
}

#[test]
fn the_header_has_the_same_lengths_and_the_same_desk() {
    let defined = DEFINED.map(|(name, number)| (name.to_owned(), number));
    assert_eq!(numbers(&header(), "#define GOULVIZAD_", " "), defined);
}

#[test]
fn the_header_has_the_same_steps() {
    let header = header();
    let mut rows = header.lines().filter(|line| line.starts_with(" *   '"));
    for (step, names) in STEPS {
        let (letter, numbers) = step.lettered();
        let row = rows.next().expect("a row of the header's table of steps");
        let words: Vec<&str> = row.split_whitespace().skip(1).collect();
        assert_eq!(words[0], format!("'{}'", char::from(letter)), "{row}");
        assert_eq!(words[1..][..names.len()], *names, "{row}");
        let expected = [1, 2, 3, 4].map(|k| if k <= names.len() as u32 { k } else { 0 });
        assert_eq!(numbers, expected, "{row}");
    }
    assert_eq!(rows.next(), None);
}

#[test]
fn the_header_declares_the_same_calls() {
    let header = header();
    let declarations = header.split("\n\n").filter_map(|part| {
        let start = part.find("uint32_t goulvizad_")?;
        let words: Vec<&str> = part[start..].split_whitespace().collect();
        Some(words.join(" "))
    });
    let calls = CALLS.map(|call| format!("{call};"));
    assert!(declarations.eq(calls));
}
