//! The C interface as it is, numbers in and numbers out. All functions are safe, since a slice carries its
//! length; [`step`](crate::step()), [`run`](crate::run()), [`set_gap`](crate::set_gap()),
//! [`release_set`](crate::release_set()), [`dispatch`](crate::dispatch()), [`in_form`](crate::in_form()) and
//! [`is_checkpoint`](crate::is_checkpoint()) stand on them.

/// The words of a table.
pub const TABLE_WORDS: usize = 15_152;

/// The words of a ledger.
pub const LEDGER_WORDS: usize = 257;

/// The words of a value buffer.
pub const VALUE_WORDS: usize = 6;

/// The words of a step in a list: its letter, and four numbers.
pub const STEP_WORDS: usize = 5;

/// The words of an answer to a list: its number, and the values.
pub const ANSWER_WORDS: usize = 7;

/// The most messages of a set.
pub const SET_MOST: usize = 16;

/// The word of a table that has the controller which the dispatcher served last.
pub const SERVED_WORD: usize = 12;

/// What [`in_form`] returns for a table in form; otherwise it is 0.
pub const FORMED: u32 = 1;

/// What [`is_checkpoint`] returns for a controller whose newest interval is one; otherwise it is 0.
pub const CHECKPOINT: u32 = 1;

/// What [`call`], [`set_gap`], [`release_set`] and [`dispatch`] return, by the names of the header, and the values
/// that they write. [`run`] writes both for each of its steps.
pub mod returned {
    /// No values.
    pub const DONE: u32 = 0;
    /// The message.
    pub const SENT: u32 = 1;
    /// The message and the mask.
    pub const RELEASED: u32 = 2;
    /// The message and the mask.
    pub const HELD: u32 = 3;
    /// The message, and the incarnation and number of the new interval.
    pub const DELIVERED: u32 = 4;
    /// The message.
    pub const DROPPED: u32 = 5;
    /// The message.
    pub const WAITS: u32 = 6;
    /// The controller, the ended incarnation, the number kept, how many were lost and are replayed.
    pub const CRASHED: u32 = 7;
    /// The hearer.
    pub const HEARD: u32 = 8;
    /// The hearer, the number kept, how many were undone and are replayed.
    pub const ROLLED: u32 = 9;
    /// The number of the [`Refusal`](crate::Refusal).
    pub const REFUSED: u32 = 10;
    /// The mask, to a set.
    pub const SET_RELEASED: u32 = 11;
    /// The mask, to a set.
    pub const SET_HELD: u32 = 12;
    /// No values, to the dispatcher.
    pub const IDLE: u32 = 13;
    /// No answer: the letter, or one of a list, is no step's. Nothing is written.
    pub const UNKNOWN_LETTER: u32 = 100;
    /// No answer: the value buffer hasn't [`VALUE_WORDS`](super::VALUE_WORDS) words, or the words of a list
    /// are not those of as many steps as answers. This is looked at first, and nothing is written.
    pub const WRONG_VALUES: u32 = 101;
}

#[link(name = "goulvizad", kind = "static")]
extern "C" {
    fn goulvizad_step(
        table: *mut u32,
        table_words: usize,
        ledger: *mut u32,
        ledger_words: usize,
        letter: u32,
        a: u32,
        b: u32,
        c: u32,
        d: u32,
        values: *mut u32,
        values_words: usize,
    ) -> u32;
    fn goulvizad_run(
        table: *mut u32,
        table_words: usize,
        ledger: *mut u32,
        ledger_words: usize,
        steps: *const u32,
        steps_words: usize,
        answers: *mut u32,
        answers_words: usize,
    ) -> u32;
    fn goulvizad_release_set(
        table: *mut u32,
        table_words: usize,
        ledger: *mut u32,
        ledger_words: usize,
        messages: *const u32,
        message_count: usize,
        values: *mut u32,
        values_words: usize,
    ) -> u32;
    fn goulvizad_in_form(table: *const u32, table_words: usize) -> u32;
    fn goulvizad_is_checkpoint(table: *const u32, table_words: usize, controller: u32) -> u32;
    fn goulvizad_set_gap(
        table: *mut u32,
        table_words: usize,
        gap: u32,
        values: *mut u32,
        values_words: usize,
    ) -> u32;
    fn goulvizad_dispatch(
        table: *mut u32,
        table_words: usize,
        values: *mut u32,
        values_words: usize,
    ) -> u32;
}

/// One call with any letter, any numbers and buffers of any length: what it returns is in
/// [`returned`].
///
/// ```
/// use goulvizad::raw::{call, returned, LEDGER_WORDS, TABLE_WORDS, VALUE_WORDS};
///
/// let (mut table, mut ledger) = (vec![0; TABLE_WORDS], [0; LEDGER_WORDS]);
/// let mut values = [0; VALUE_WORDS];
/// let mut called = |letter| call(&mut table, &mut ledger, letter, [3, 1, 0, 0], &mut values);
/// assert_eq!(called(u32::from(b'O')), returned::DONE);
/// assert_eq!(called(u32::from(b'Q')), returned::UNKNOWN_LETTER);
/// ```
#[inline]
pub fn call(
    table: &mut [u32],
    ledger: &mut [u32],
    letter: u32,
    numbers: [u32; 4],
    values: &mut [u32],
) -> u32 {
    let [a, b, c, d] = numbers;
    // SAFETY: the pointers come with the lengths of their slices, so all the words that the call may
    // touch are initialised, aligned and writable. The slices are borrowed mutably until it returns,
    // so they don't overlap and nobody else reads or writes them meanwhile. It keeps no pointer.
    #[allow(unsafe_code)]
    unsafe {
        goulvizad_step(
            table.as_mut_ptr(),
            table.len(),
            ledger.as_mut_ptr(),
            ledger.len(),
            letter,
            a,
            b,
            c,
            d,
            values.as_mut_ptr(),
            values.len(),
        )
    }
}

/// One call for a list of steps, [`STEP_WORDS`] each, with [`ANSWER_WORDS`] for each answer:
/// [`DONE`](returned::DONE), or [`WRONG_VALUES`](returned::WRONG_VALUES) or
/// [`UNKNOWN_LETTER`](returned::UNKNOWN_LETTER), and then nothing is done.
///
/// ```
/// use goulvizad::raw::{returned, run, ANSWER_WORDS, LEDGER_WORDS, STEP_WORDS, TABLE_WORDS};
///
/// let (mut table, mut ledger) = (vec![0; TABLE_WORDS], [0; LEDGER_WORDS]);
/// let steps = [[u32::from(b'O'), 3, 1, 0, 0], [u32::from(b'X'), 2, 0, 0, 0]].concat();
/// let mut answers = [0; 2 * ANSWER_WORDS];
/// assert_eq!(run(&mut table, &mut ledger, &steps, &mut answers), returned::DONE);
/// assert_eq!(answers[ANSWER_WORDS..], [returned::CRASHED, 2, 0, 1, 0, 0, 0]);
/// let one = &steps[..STEP_WORDS];
/// assert_eq!(run(&mut table, &mut ledger, one, &mut answers), returned::WRONG_VALUES);
/// ```
pub fn run(table: &mut [u32], ledger: &mut [u32], steps: &[u32], answers: &mut [u32]) -> u32 {
    // SAFETY: as in `call`: the pointers come with the lengths of their slices, which are borrowed until
    // the call returns, all but the steps mutably, and the call doesn't write these. It keeps no pointer.
    #[allow(unsafe_code)]
    unsafe {
        goulvizad_run(
            table.as_mut_ptr(),
            table.len(),
            ledger.as_mut_ptr(),
            ledger.len(),
            steps.as_ptr(),
            steps.len(),
            answers.as_mut_ptr(),
            answers.len(),
        )
    }
}

/// Sets the gap of a table: [`DONE`](returned::DONE), [`REFUSED`](returned::REFUSED) or
/// [`WRONG_VALUES`](returned::WRONG_VALUES). It takes no ledger.
pub fn set_gap(table: &mut [u32], gap: u32, values: &mut [u32]) -> u32 {
    // SAFETY: as in `call`: the pointers come with the lengths of their slices, which are borrowed
    // mutably until the call returns. It keeps no pointer.
    #[allow(unsafe_code)]
    unsafe {
        goulvizad_set_gap(
            table.as_mut_ptr(),
            table.len(),
            gap,
            values.as_mut_ptr(),
            values.len(),
        )
    }
}

/// Releases a set of messages, a list of any length: [`SET_RELEASED`](returned::SET_RELEASED),
/// [`SET_HELD`](returned::SET_HELD), [`REFUSED`](returned::REFUSED) or
/// [`WRONG_VALUES`](returned::WRONG_VALUES).
pub fn release_set(
    table: &mut [u32],
    ledger: &mut [u32],
    messages: &[u32],
    values: &mut [u32],
) -> u32 {
    // SAFETY: as in `call`: the pointers come with the lengths of their slices, which are borrowed until
    // the call returns, all but the messages mutably, and the call doesn't write these. It keeps no pointer.
    #[allow(unsafe_code)]
    unsafe {
        goulvizad_release_set(
            table.as_mut_ptr(),
            table.len(),
            ledger.as_mut_ptr(),
            ledger.len(),
            messages.as_ptr(),
            messages.len(),
            values.as_mut_ptr(),
            values.len(),
        )
    }
}

/// Chooses the next delivery and does it: [`DELIVERED`](returned::DELIVERED), [`DROPPED`](returned::DROPPED),
/// [`IDLE`](returned::IDLE), [`REFUSED`](returned::REFUSED) or [`WRONG_VALUES`](returned::WRONG_VALUES). It takes
/// no ledger.
pub fn dispatch(table: &mut [u32], values: &mut [u32]) -> u32 {
    // SAFETY: as in `call`: the pointers come with the lengths of their slices, which are borrowed
    // mutably until the call returns. It keeps no pointer.
    #[allow(unsafe_code)]
    unsafe {
        goulvizad_dispatch(
            table.as_mut_ptr(),
            table.len(),
            values.as_mut_ptr(),
            values.len(),
        )
    }
}

/// [`FORMED`] where these are [`TABLE_WORDS`] words in form, else 0.
pub fn in_form(table: &[u32]) -> u32 {
    // SAFETY: the pointer comes with the length of its slice, so all the words that the call may read
    // are initialised and aligned. It is borrowed until the call returns, and the call writes nothing.
    #[allow(unsafe_code)]
    unsafe {
        goulvizad_in_form(table.as_ptr(), table.len())
    }
}

/// [`CHECKPOINT`] where the newest live interval of a controller is one, else 0: also where there is no such
/// controller, or these are no [`TABLE_WORDS`] words in form.
///
/// ```
/// use goulvizad::raw::{call, is_checkpoint, CHECKPOINT, LEDGER_WORDS, TABLE_WORDS, VALUE_WORDS};
///
/// let (mut table, mut ledger) = (vec![0; TABLE_WORDS], [0; LEDGER_WORDS]);
/// assert_eq!(is_checkpoint(&table, 0), 0);
/// call(&mut table, &mut ledger, u32::from(b'O'), [3, 1, 0, 0], &mut [0; VALUE_WORDS]);
/// assert_eq!(is_checkpoint(&table, 2), CHECKPOINT);
/// assert_eq!(is_checkpoint(&table, 3), 0);
/// ```
pub fn is_checkpoint(table: &[u32], controller: u32) -> u32 {
    // SAFETY: as in `in_form`: the pointer comes with the length of its slice, which is borrowed until the
    // call returns, and the call writes nothing.
    #[allow(unsafe_code)]
    unsafe {
        goulvizad_is_checkpoint(table.as_ptr(), table.len(), controller)
    }
}

#[cfg(test)]
mod tests;
