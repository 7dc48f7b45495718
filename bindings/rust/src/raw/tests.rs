//! Buffers as C may lend them and Rust may not: null, with length 0.

use super::*;
use crate::Refusal;
use std::ptr::null_mut;

const UNTOUCHED: u32 = 0xA5A5_A5A5;

/// A slice of Rust never has a null pointer; one of C may, with length 0: that is None.
type Lent<'a> = Option<&'a mut [u32]>;

fn parts(buffer: Lent) -> (*mut u32, usize) {
    buffer.map_or((null_mut(), 0), |words| (words.as_mut_ptr(), words.len()))
}

/// A call with the numbers 1, 0, 0, 0.
fn lent(table: Lent, ledger: Lent, letter: u8, values: Lent) -> u32 {
    let (table, table_words) = parts(table);
    let (ledger, ledger_words) = parts(ledger);
    let (values, values_words) = parts(values);
    // SAFETY: the pointers are those of slices, with their lengths, or null with length 0: no word
    // is behind such a one.
    #[allow(unsafe_code)]
    unsafe {
        goulvizad_step(
            table,
            table_words,
            ledger,
            ledger_words,
            letter.into(),
            1,
            0,
            0,
            0,
            values,
            values_words,
        )
    }
}

#[test]
fn a_null_table_of_no_words_is_refused() {
    let mut ledger = [UNTOUCHED; LEDGER_WORDS];
    let mut values = [UNTOUCHED; VALUE_WORDS];
    let opened = lent(None, Some(&mut ledger), b'O', Some(&mut values));
    assert_eq!(opened, returned::REFUSED);
    assert_eq!(values, [Refusal::Length.number(), 0, 0, 0, 0, 0]);
    let unknown = lent(None, Some(&mut ledger), b'Q', Some(&mut values));
    assert_eq!(unknown, returned::UNKNOWN_LETTER);
    assert_eq!(ledger, [UNTOUCHED; LEDGER_WORDS]);
    // SAFETY: no word is behind a pointer with length 0.
    #[allow(unsafe_code)]
    let asked = unsafe {
        [
            goulvizad_in_form(null_mut(), 0),
            goulvizad_is_checkpoint(null_mut(), 0, 0),
        ]
    };
    assert_eq!(asked, [0; 2]);
}

/// Openings and releases look at the ledger; for all other steps it may be none.
#[test]
fn a_null_ledger_of_no_words_is_refused_where_it_is_looked_at() {
    let mut table = vec![0; TABLE_WORDS];
    let mut values = [UNTOUCHED; VALUE_WORDS];
    let (mut ledger, open) = ([UNTOUCHED; LEDGER_WORDS], u32::from(b'O'));
    let opened = call(&mut table, &mut ledger, open, [2, 0, 0, 0], &mut values);
    assert_eq!(opened, returned::DONE);
    assert_eq!(ledger, [0; LEDGER_WORDS]);
    let mut without = |letter| {
        let number = lent(Some(&mut table), None, letter, Some(&mut values));
        (number, values[0])
    };
    let refused = |refusal: Refusal| (returned::REFUSED, refusal.number());
    assert_eq!(without(b'O'), refused(Refusal::Ledger));
    assert_eq!(without(b'R'), refused(Refusal::Ledger));
    assert_eq!(without(b'K'), (returned::DONE, 0));
    assert_eq!(without(b'S'), (returned::SENT, 1));
    assert_eq!(without(b'D'), refused(Refusal::State));
    assert_eq!(without(b'L'), refused(Refusal::LogCount));
    assert_eq!(without(b'C'), (returned::DONE, 0));
    assert_eq!(without(b'T'), (returned::DONE, 0));
    assert_eq!(without(b'X'), (returned::CRASHED, 1));
    assert_eq!(without(b'H'), refused(Refusal::NoSuchCrash));
}

/// A gap of 3, set with buffers that may be null.
fn gap_of_3(table: Lent, values: Lent) -> u32 {
    let (table, table_words) = parts(table);
    let (values, values_words) = parts(values);
    // SAFETY: as in `lent`.
    #[allow(unsafe_code)]
    unsafe {
        goulvizad_set_gap(table, table_words, 3, values, values_words)
    }
}

#[test]
fn a_gap_takes_null_buffers_of_no_words() {
    let mut table = vec![UNTOUCHED; TABLE_WORDS];
    let mut values = [UNTOUCHED; VALUE_WORDS];
    assert_eq!(gap_of_3(None, None), returned::WRONG_VALUES);
    assert_eq!(gap_of_3(Some(&mut table), None), returned::WRONG_VALUES);
    assert!(table.iter().all(|&word| word == UNTOUCHED));
    assert_eq!(gap_of_3(None, Some(&mut values)), returned::REFUSED);
    assert_eq!(values, [Refusal::Length.number(), 0, 0, 0, 0, 0]);
}

/// An empty list is done, whatever is lent; one with room for no answer isn't.
#[test]
fn a_list_takes_null_buffers_of_no_words() {
    let run = |steps: Lent, answers: Lent| {
        let (steps, steps_words) = parts(steps);
        let (answers, answers_words) = parts(answers);
        // SAFETY: as in `lent`.
        #[allow(unsafe_code)]
        unsafe {
            let none = null_mut();
            goulvizad_run(none, 0, none, 0, steps, steps_words, answers, answers_words)
        }
    };
    let mut steps = [u32::from(b'C'), 0, 0, 0, 0];
    let mut answers = [UNTOUCHED; ANSWER_WORDS];
    assert_eq!(run(None, None), returned::DONE);
    assert_eq!(run(Some(&mut steps), None), returned::WRONG_VALUES);
    assert_eq!(run(None, Some(&mut answers)), returned::WRONG_VALUES);
    assert_eq!(answers, [UNTOUCHED; ANSWER_WORDS]);
    assert_eq!(run(Some(&mut steps), Some(&mut answers)), returned::DONE);
    let refused = [returned::REFUSED, Refusal::Length.number(), 0, 0, 0, 0, 0];
    assert_eq!(answers, refused);
}

/// A set of these messages, or of none by a null pointer.
fn set(table: Lent, ledger: Lent, messages: Lent, values: Lent) -> u32 {
    let (table, table_words) = parts(table);
    let (ledger, ledger_words) = parts(ledger);
    let (messages, count) = parts(messages);
    let (values, values_words) = parts(values);
    // SAFETY: as in `lent`.
    #[allow(unsafe_code)]
    unsafe {
        goulvizad_release_set(
            table,
            table_words,
            ledger,
            ledger_words,
            messages,
            count,
            values,
            values_words,
        )
    }
}

#[test]
fn a_set_takes_null_buffers_of_no_words() {
    let (mut table, mut ledger) = (vec![0; TABLE_WORDS], [0; LEDGER_WORDS]);
    let mut values = [UNTOUCHED; VALUE_WORDS];
    let mut one = [1];
    assert_eq!(set(None, None, None, None), returned::WRONG_VALUES);
    let (open, send) = (u32::from(b'O'), u32::from(b'S'));
    call(&mut table, &mut ledger, open, [2, 0, 0, 0], &mut values);
    call(&mut table, &mut ledger, send, [0, 1, 7, 0], &mut values);
    let rejected = set(Some(&mut table), Some(&mut ledger), Some(&mut one), None);
    assert_eq!(rejected, returned::WRONG_VALUES);
    let mut refused = |table: Lent, ledger: Lent, messages: Lent| {
        let number = set(table, ledger, messages, Some(&mut values));
        assert_eq!(number, returned::REFUSED);
        assert_eq!(values[1..], [0; VALUE_WORDS - 1]);
        Refusal::from_number(values[0])
    };
    let (length, ledger_lacks) = (Some(Refusal::Length), Some(Refusal::Ledger));
    assert_eq!(refused(None, None, None), length);
    assert_eq!(
        refused(Some(&mut table), None, Some(&mut one)),
        ledger_lacks
    );
    let none = refused(Some(&mut table), Some(&mut ledger), None);
    assert_eq!(none, Some(Refusal::SameController));
    let number = release_set(&mut table, &mut ledger, &one, &mut values);
    assert_eq!((number, values), (returned::SET_RELEASED, [0; VALUE_WORDS]));
}

#[test]
fn the_dispatcher_takes_null_buffers_of_no_words() {
    let dispatch = |table: Lent, values: Lent| {
        let (table, table_words) = parts(table);
        let (values, values_words) = parts(values);
        // SAFETY: as in `lent`.
        #[allow(unsafe_code)]
        unsafe {
            goulvizad_dispatch(table, table_words, values, values_words)
        }
    };
    let mut table = vec![UNTOUCHED; TABLE_WORDS];
    let mut values = [UNTOUCHED; VALUE_WORDS];
    assert_eq!(dispatch(None, None), returned::WRONG_VALUES);
    assert_eq!(dispatch(Some(&mut table), None), returned::WRONG_VALUES);
    assert!(table.iter().all(|&word| word == UNTOUCHED));
    assert_eq!(dispatch(None, Some(&mut values)), returned::REFUSED);
    assert_eq!(values, [Refusal::Length.number(), 0, 0, 0, 0, 0]);
}

#[test]
fn a_null_value_buffer_of_no_words_is_rejected() {
    let mut table = vec![UNTOUCHED; TABLE_WORDS];
    let mut ledger = [UNTOUCHED; LEDGER_WORDS];
    let number = lent(Some(&mut table), Some(&mut ledger), b'O', None);
    assert_eq!(number, returned::WRONG_VALUES);
    assert!(table.iter().chain(&ledger).all(|&word| word == UNTOUCHED));
    assert_eq!(lent(None, None, b'O', None), returned::WRONG_VALUES);
}
