//! The proved house recovery machine for Rust programs: one step function over a table and a ledger,
//! by the C interface of its static library (`include/goulvizad.h`).
//!
//! A [`Table`] is a house that owns its words and its ledger. Words that live elsewhere, as in a mapped
//! file, are lent to [`step()`], [`set_gap()`], [`release_set()`] or [`dispatch()`] for one step at a time, or to
//! [`run()`] for a list of them. A [`Step`] has an [`Answer`] or a [`Refusal`], which changes no word. Nothing is
//! kept between calls, and different houses may be used from several threads at once.
//!
//! ```
//! use goulvizad::{Answer, Refusal, Step, Table};
//!
//! const ARM: u32 = 0;
//! const DRIVE: u32 = 1;
//! const CATALOGUE: u32 = 2;
//!
//! let mut table = Table::new();
//! table.step(Step::Open { n: 3, degree: 1 })?;
//! table.step(Step::Send { sender: ARM, receiver: DRIVE, payload: 7 })?;
//! table.step(Step::Release { message: 1 })?;
//! table.step(Step::Deliver { message: 1 })?;
//!
//! // What the drive sends now rests on work that it hasn't written to stable storage.
//! table.step(Step::Send { sender: DRIVE, receiver: CATALOGUE, payload: 9 })?;
//! let Answer::Released { mask, .. } = table.step(Step::Release { message: 2 })? else {
//!     panic!("one name is within the degree");
//! };
//! assert!(mask.controllers().eq([DRIVE]));
//! table.step(Step::Deliver { message: 2 })?;
//!
//! // It crashes, and what rests on the lost work is undone.
//! table.step(Step::Crash { controller: DRIVE })?;
//! let hearing = Step::Hear { hearer: CATALOGUE, crashed: DRIVE, incarnation: 0 };
//! let Answer::Rolled { undone, crashed, .. } = table.step(hearing)? else {
//!     panic!("the catalogue rests on it");
//! };
//! assert_eq!((undone, crashed), (1, DRIVE));
//! assert_eq!(table.step(hearing), Err(Refusal::AlreadyHeard));
//! # Ok::<(), Refusal>(())
//! ```
//!
//! A reading that leaves the house is sent to the [`DESK`]. It is held until nobody could revoke it,
//! and then it stands in the ledger, to be cited:
//!
//! ```
//! use goulvizad::{Answer, Citation, Refusal, Step, Table, DESK};
//!
//! const ARM: u32 = 0;
//! const BENCH: u32 = 1;
//!
//! let mut table = Table::new();
//! table.step(Step::Open { n: 2, degree: 2 })?;
//! table.step(Step::Send { sender: ARM, receiver: BENCH, payload: 7 })?;
//! table.step(Step::Release { message: 1 })?;
//! table.step(Step::Deliver { message: 1 })?;
//! table.step(Step::Send { sender: BENCH, receiver: DESK, payload: 24 })?;
//!
//! // The bench could still lose the work that the reading rests on, and the degree doesn't matter.
//! let reading = Step::Release { message: 2 };
//! assert!(matches!(table.step(reading)?, Answer::Held { .. }));
//! table.step(Step::Log { controller: BENCH, count: 1 })?;
//! assert!(matches!(table.step(reading)?, Answer::Released { .. }));
//! assert!(table.citations().eq([Citation { message: 2, payload: 24 }]));
//! # Ok::<(), Refusal>(())
//! ```
//!
//! Readings that belong together leave together: a set of messages ([`Table::release_set`]) goes whole or not
//! at all.
//!
//! ```
//! use goulvizad::{Answer, Citation, Refusal, Step, Table, DESK};
//!
//! const ARM: u32 = 0;
//! const BENCH: u32 = 1;
//! const CATALOGUE: u32 = 2;
//!
//! let mut table = Table::new();
//! table.step(Step::Open { n: 3, degree: 3 })?;
//! table.step(Step::Send { sender: ARM, receiver: BENCH, payload: 7 })?;
//! table.step(Step::Release { message: 1 })?;
//! table.step(Step::Deliver { message: 1 })?;
//! table.step(Step::Send { sender: BENCH, receiver: CATALOGUE, payload: 24 })?;
//! table.step(Step::Send { sender: BENCH, receiver: DESK, payload: 24 })?;
//!
//! // One of them is for the desk: both are held as long as anybody could revoke either.
//! assert!(matches!(table.release_set(&[2, 3])?, Answer::SetHeld { .. }));
//! table.step(Step::Log { controller: BENCH, count: 1 })?;
//! assert!(matches!(table.release_set(&[2, 3])?, Answer::SetReleased { .. }));
//! assert!(table.citations().eq([Citation { message: 3, payload: 24 }]));
//! # Ok::<(), Refusal>(())
//! ```
//!
//! How much a crash or a rollback has to replay can be known beforehand: a house whose first step after its
//! opening sets the gap to at least 1 ([`Table::set_gap`]), and in which the gap is never 0 again, replays
//! less than the largest gap set so far.
//!
//! ```
//! use goulvizad::{Answer, Refusal, Step, Table};
//!
//! const ARM: u32 = 0;
//! const DRIVE: u32 = 1;
//!
//! let mut table = Table::new();
//! table.step(Step::Open { n: 2, degree: 2 })?;
//! table.set_gap(2)?;
//! for message in 1..=4 {
//!     table.step(Step::Send { sender: ARM, receiver: DRIVE, payload: message })?;
//!     table.step(Step::Release { message })?;
//!     table.step(Step::Deliver { message })?;
//!     // Every second delivery is a checkpoint, without a step that takes it: it has to be written too.
//!     assert_eq!(table.is_checkpoint(DRIVE), message % 2 == 0);
//! }
//!
//! let crashed = table.step(Step::Crash { controller: DRIVE })?;
//! assert!(matches!(crashed, Answer::Crashed { kept: 5, lost: 0, replayed: 0, .. }));
//! # Ok::<(), Refusal>(())
//! ```

//! Which message is delivered next can be left to the machine ([`Table::dispatch`]). It goes round, so that nobody is
//! starved, and is idle once nothing is left that could go.
//!
//! ```
//! use goulvizad::{Answer, Refusal, Step, Table};
//!
//! const ARM: u32 = 0;
//! const DRIVE: u32 = 1;
//! const CATALOGUE: u32 = 2;
//!
//! let mut table = Table::new();
//! table.step(Step::Open { n: 3, degree: 3 })?;
//! for (message, receiver) in [(1, DRIVE), (2, DRIVE), (3, CATALOGUE)] {
//!     table.step(Step::Send { sender: ARM, receiver, payload: 7 })?;
//!     table.step(Step::Release { message })?;
//! }
//!
//! // The catalogue comes before the drive's second message.
//! let mut delivered = Vec::new();
//! while let Answer::Delivered { message, .. } = table.dispatch()? {
//!     delivered.push((message, table.served()));
//! }
//! assert_eq!(delivered, [(1, DRIVE), (3, CATALOGUE), (2, DRIVE)]);
//! assert_eq!(table.dispatch()?, Answer::Idle);
//! # Ok::<(), Refusal>(())
//! ```

#![deny(missing_docs)]

mod answer;
mod ledger;
pub mod raw;
mod refusal;
mod step;
mod table;

pub use answer::{Answer, Mask};
pub use ledger::{citations, Citation};
pub use raw::{LEDGER_WORDS, SERVED_WORD, SET_MOST, TABLE_WORDS};
pub use refusal::Refusal;
pub use step::{Step, DESK};
pub use table::Table;

/// Does one step on the lent words of a table and of its ledger, whatever their number and content. A
/// house begins with [`Step::Open`], on [`TABLE_WORDS`] and [`LEDGER_WORDS`] words with any content.
///
/// Only [`Step::Open`] and [`Step::Release`] look at the ledger, and a set; with all other steps it may be
/// empty.
///
/// ```
/// use goulvizad::{step, Answer, Refusal, Step, LEDGER_WORDS, TABLE_WORDS};
///
/// let (mut words, mut ledger) = (vec![0; TABLE_WORDS], [0; LEDGER_WORDS]);
/// let open = Step::Open { n: 3, degree: 1 };
/// assert_eq!(step(&mut words[1..], &mut ledger, open), Err(Refusal::Length));
/// assert_eq!(step(&mut words, &mut ledger[1..], open), Err(Refusal::Ledger));
/// assert_eq!(step(&mut words, &mut ledger, open), Ok(Answer::Done));
/// assert_eq!(step(&mut words, &mut [], Step::Checkpoint { controller: 0 }), Ok(Answer::Done));
/// ```
///
/// # Panics
/// If what comes back is no answer: the linked library is of another version then.
#[inline]
pub fn step(words: &mut [u32], ledger: &mut [u32], step: Step) -> Result<Answer, Refusal> {
    let (letter, numbers) = step.lettered();
    // No value is what stood here before, so a word that the call left out would be noticed.
    let mut values = [u32::MAX; raw::VALUE_WORDS];
    let number = raw::call(words, ledger, letter.into(), numbers, &mut values);
    answer::read(number, values)
        .unwrap_or_else(|| panic!("no answer to {step:?}: {number} with {values:?}"))
}

/// Does a list of steps on the lent words of a table and of its ledger, and gives what came of each: the
/// same as [`step()`] by [`step()`], refusals included, but the form of the table is looked at once for the
/// whole list.
///
/// ```
/// use goulvizad::{run, Answer, Refusal, Step, LEDGER_WORDS, TABLE_WORDS};
///
/// let (mut words, mut ledger) = (vec![0; TABLE_WORDS], [0; LEDGER_WORDS]);
/// let (open, checkpoint) = (Step::Open { n: 3, degree: 1 }, Step::Checkpoint { controller: 0 });
/// let answers = run(&mut words, &mut ledger, &[checkpoint, open, checkpoint]);
/// assert_eq!(answers, [Err(Refusal::Form), Ok(Answer::Done), Ok(Answer::Done)]);
/// ```
///
/// # Panics
/// If what comes back is no answer: the linked library is of another version then.
pub fn run(words: &mut [u32], ledger: &mut [u32], steps: &[Step]) -> Vec<Result<Answer, Refusal>> {
    let listed: Vec<u32> = steps.iter().flat_map(|step| step.listed()).collect();
    let mut answers = vec![u32::MAX; steps.len() * raw::ANSWER_WORDS];
    let number = raw::run(words, ledger, &listed, &mut answers);
    assert_eq!(number, raw::returned::DONE, "no answer to a list of steps");
    let answers = answers.chunks_exact(raw::ANSWER_WORDS).zip(steps);
    let answered = answers.map(|(words, step)| {
        answer::listed(words).unwrap_or_else(|| panic!("no answer to {step:?}: {words:?}"))
    });
    answered.collect()
}

/// Sets the gap of the house in the lent words, 0 to 64: how many numbers above its controller's latest live
/// checkpoint a new interval is checkpointed as it begins, which logs all before it, and itself. 0 turns it
/// off, as every opening does; 64 asks for no checkpoint, since numbers end there. Intervals that have begun
/// are left as they are. No ledger is looked at.
///
/// ```
/// use goulvizad::{set_gap, step, Answer, Refusal, Step, LEDGER_WORDS, TABLE_WORDS};
///
/// let (mut words, mut ledger) = (vec![0; TABLE_WORDS], [0; LEDGER_WORDS]);
/// assert_eq!(set_gap(&mut words, 3), Err(Refusal::Form));
/// let open = Step::Open { n: 3, degree: 1 };
/// assert_eq!(step(&mut words, &mut ledger, open), Ok(Answer::Done));
/// assert_eq!(set_gap(&mut words, 3), Ok(()));
/// assert_eq!(set_gap(&mut words, 65), Err(Refusal::Degree));
/// ```
///
/// # Panics
/// If what comes back is no answer: the linked library is of another version then.
pub fn set_gap(words: &mut [u32], gap: u32) -> Result<(), Refusal> {
    let mut values = [u32::MAX; raw::VALUE_WORDS];
    let number = raw::set_gap(words, gap, &mut values);
    match answer::read(number, values) {
        Some(Ok(Answer::Done)) => Ok(()),
        Some(Err(refusal)) => Err(refusal),
        _ => panic!("no answer to a gap of {gap}: {number} with {values:?}"),
    }
}

/// Releases a set of 1 to [`SET_MOST`] held messages of one sender in the lent words: all of them or none. They
/// go if no more controllers could revoke one of them than their sender's degree; if one is for the [`DESK`],
/// only if nobody could, whatever the degree. Messages to the [`DESK`] are published in the order given.
///
/// The answer is [`SetReleased`](Answer::SetReleased) or [`SetHeld`](Answer::SetHeld), with all those who could
/// revoke one of them. A set of one is released as by [`Step::Release`].
///
/// ```
/// use goulvizad::{release_set, step, Answer, Refusal, Step, LEDGER_WORDS, TABLE_WORDS};
///
/// let (mut words, mut ledger) = (vec![0; TABLE_WORDS], [0; LEDGER_WORDS]);
/// assert_eq!(release_set(&mut words, &mut ledger, &[1, 2]), Err(Refusal::Form));
/// step(&mut words, &mut ledger, Step::Open { n: 2, degree: 0 })?;
/// for (sender, receiver) in [(0, 1), (0, 1), (1, 0)] {
///     step(&mut words, &mut ledger, Step::Send { sender, receiver, payload: 7 })?;
/// }
/// let mut released = |messages: &[u32]| release_set(&mut words, &mut ledger, messages);
/// assert_eq!(released(&[1, 2, 4]), Err(Refusal::Message));
/// assert_eq!(released(&[1, 2, 1]), Err(Refusal::SameController));
/// assert_eq!(released(&[1, 2, 3]), Err(Refusal::Senders));
/// assert!(matches!(released(&[1, 2]), Ok(Answer::SetReleased { .. })));
/// assert_eq!(released(&[1, 2]), Err(Refusal::State));
/// # Ok::<(), Refusal>(())
/// ```
///
/// # Panics
/// If what comes back is no answer: the linked library is of another version then.
pub fn release_set(
    words: &mut [u32],
    ledger: &mut [u32],
    messages: &[u32],
) -> Result<Answer, Refusal> {
    let mut values = [u32::MAX; raw::VALUE_WORDS];
    let number = raw::release_set(words, ledger, messages, &mut values);
    match answer::read(number, values) {
        Some(answered @ (Ok(Answer::SetReleased { .. } | Answer::SetHeld { .. }) | Err(_))) => {
            answered
        }
        _ => panic!("no answer to a set {messages:?}: {number} with {values:?}"),
    }
}

/// Chooses the next delivery in the lent words and does it. It goes round the controllers, from the one after that
/// which it served last, and takes the first that has a released message which [`Step::Deliver`] would deliver or
/// drop, and of these messages the one with the lowest number. No ledger is looked at.
///
/// The answer is [`Delivered`](Answer::Delivered) or [`Dropped`](Answer::Dropped), as by [`Step::Deliver`], and
/// word [`SERVED_WORD`] has the controller that was served; or [`Idle`](Answer::Idle), where each released message
/// waits or its receiver has no place left. It is refused for the length and the form of the words alone.
///
/// A controller that has such a message before each of n calls running, of n controllers, is served in one of them,
/// whatever other steps but openings come between the calls.
///
/// ```
/// use goulvizad::{dispatch, step, Answer, Refusal, Step, LEDGER_WORDS, SERVED_WORD, TABLE_WORDS};
///
/// let (mut words, mut ledger) = (vec![0; TABLE_WORDS], [0; LEDGER_WORDS]);
/// assert_eq!(dispatch(&mut words), Err(Refusal::Form));
/// step(&mut words, &mut ledger, Step::Open { n: 2, degree: 0 })?;
/// step(&mut words, &mut ledger, Step::Send { sender: 0, receiver: 1, payload: 7 })?;
/// assert_eq!(dispatch(&mut words), Ok(Answer::Idle));
/// step(&mut words, &mut ledger, Step::Release { message: 1 })?;
/// assert!(matches!(dispatch(&mut words), Ok(Answer::Delivered { message: 1, .. })));
/// assert_eq!(words[SERVED_WORD], 1);
/// # Ok::<(), Refusal>(())
/// ```
///
/// # Panics
/// If what comes back is no answer: the linked library is of another version then.
pub fn dispatch(words: &mut [u32]) -> Result<Answer, Refusal> {
    let mut values = [u32::MAX; raw::VALUE_WORDS];
    let number = raw::dispatch(words, &mut values);
    match answer::read(number, values) {
        Some(
            answered @ (Ok(Answer::Delivered { .. } | Answer::Dropped { .. } | Answer::Idle)
            | Err(_)),
        ) => answered,
        _ => panic!("no answer to the dispatcher: {number} with {values:?}"),
    }
}

/// Whether these are [`TABLE_WORDS`] words, and in form as a house is: each in its range, and all that
/// is not in use 0.
pub fn in_form(words: &[u32]) -> bool {
    raw::in_form(words) == raw::FORMED
}

/// Whether the newest live interval of a controller in the lent words is a checkpoint: one that
/// [`Step::Checkpoint`] took, one that the gap forced, or the first of all. False where there is no such
/// controller, and where the words are not [`in_form`].
///
/// A checkpoint that the gap forces has no answer of its own, and counts as stable. So where a gap is set,
/// ask after each answer [`Delivered`](Answer::Delivered), [`Crashed`](Answer::Crashed) and
/// [`Rolled`](Answer::Rolled), for the controller at which the interval began, whether one has to be
/// written to stable storage. After a list of steps it is told of the newest interval alone.
///
/// ```
/// use goulvizad::{is_checkpoint, set_gap, step, Refusal, Step, LEDGER_WORDS, TABLE_WORDS};
///
/// let (mut words, mut ledger) = (vec![0; TABLE_WORDS], [0; LEDGER_WORDS]);
/// assert!(!is_checkpoint(&words, 0));
/// step(&mut words, &mut ledger, Step::Open { n: 2, degree: 0 })?;
/// set_gap(&mut words, 2)?;
/// assert!(is_checkpoint(&words, 1) && !is_checkpoint(&words, 2));
///
/// // The start after a crash stands one above the first interval, that after the next crash two.
/// let crash = Step::Crash { controller: 1 };
/// step(&mut words, &mut ledger, crash)?;
/// assert!(!is_checkpoint(&words, 1));
/// step(&mut words, &mut ledger, crash)?;
/// assert!(is_checkpoint(&words, 1));
/// # Ok::<(), Refusal>(())
/// ```
pub fn is_checkpoint(words: &[u32], controller: u32) -> bool {
    raw::is_checkpoint(words, controller) == raw::CHECKPOINT
}
