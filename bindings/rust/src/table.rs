//! A house that owns its words and its ledger.

use crate::{
    citations, in_form, is_checkpoint, Answer, Citation, Refusal, Step, LEDGER_WORDS, SERVED_WORD,
    TABLE_WORDS,
};
use std::fmt::{self, Debug, Formatter};

/// A house that owns its words and its ledger. Only steps change them, so they always belong together.
#[derive(Clone, PartialEq, Eq)]
pub struct Table {
    words: Box<[u32; TABLE_WORDS]>,
    ledger: Box<[u32; LEDGER_WORDS]>,
}

impl Table {
    /// Words and a ledger that are all 0. No house is in them before [`Step::Open`].
    pub fn new() -> Self {
        Table {
            words: Box::new([0; TABLE_WORDS]),
            ledger: Box::new([0; LEDGER_WORDS]),
        }
    }

    /// The house whose [`words`](Table::words) and [`ledger`](Table::ledger) were saved. Others are
    /// refused as they would be at a release: for the [`Length`](Refusal::Length) of the words, as not
    /// in [`Form`](Refusal::Form), or for the [`Ledger`](Refusal::Ledger).
    ///
    /// ```
    /// use goulvizad::{Refusal, Step, Table};
    ///
    /// let mut table = Table::new();
    /// table.step(Step::Open { n: 2, degree: 0 })?;
    /// let (mut words, mut ledger) = (table.words().to_vec(), table.ledger().to_vec());
    /// assert!(Table::restore(&words, &ledger)? == table);
    /// ledger[1] = 7;
    /// assert_eq!(Table::restore(&words, &ledger).err(), Some(Refusal::Ledger));
    /// words[0] = 9;
    /// assert_eq!(Table::restore(&words, &ledger).err(), Some(Refusal::Form));
    /// # Ok::<(), Refusal>(())
    /// ```
    pub fn restore(words: &[u32], ledger: &[u32]) -> Result<Self, Refusal> {
        let (mut words, mut ledger): (Box<[u32]>, Box<[u32]>) = (words.into(), ledger.into());
        // A release looks at all that is asked of both. There is no message 0, so this one is refused
        // for it at the latest, and changes nothing.
        let none = Step::Release { message: 0 };
        match crate::step(&mut words, &mut ledger, none) {
            Err(Refusal::Message) => Ok(Table {
                words: words.try_into().map_err(|_| Refusal::Length)?,
                ledger: ledger.try_into().map_err(|_| Refusal::Ledger)?,
            }),
            Err(refusal) => Err(refusal),
            Ok(answer) => unreachable!("there is no message 0: {answer:?}"),
        }
    }

    /// Does one step, as [`step`](crate::step()) does on lent words.
    pub fn step(&mut self, step: Step) -> Result<Answer, Refusal> {
        crate::step(&mut self.words[..], &mut self.ledger[..], step)
    }

    /// Does a list of steps, as [`run`](crate::run()) does on lent words.
    ///
    /// ```
    /// use goulvizad::{Answer, Refusal, Step, Table};
    ///
    /// let mut table = Table::new();
    /// let sending = Step::Send { sender: 0, receiver: 1, payload: 7 };
    /// let answers = table.run(&[Step::Open { n: 2, degree: 0 }, sending, Step::Deliver { message: 1 }]);
    /// let expected = [Ok(Answer::Done), Ok(Answer::Sent { message: 1 }), Err(Refusal::State)];
    /// assert_eq!(answers, expected);
    /// ```
    pub fn run(&mut self, steps: &[Step]) -> Vec<Result<Answer, Refusal>> {
        crate::run(&mut self.words[..], &mut self.ledger[..], steps)
    }

    /// Sets the gap, as [`set_gap`](crate::set_gap()) does on lent words.
    pub fn set_gap(&mut self, gap: u32) -> Result<(), Refusal> {
        crate::set_gap(&mut self.words[..], gap)
    }

    /// Releases a set of messages, as [`release_set`](crate::release_set()) does on lent words.
    pub fn release_set(&mut self, messages: &[u32]) -> Result<Answer, Refusal> {
        crate::release_set(&mut self.words[..], &mut self.ledger[..], messages)
    }

    /// Chooses the next delivery and does it, as [`dispatch`](crate::dispatch()) does on lent words.
    pub fn dispatch(&mut self) -> Result<Answer, Refusal> {
        crate::dispatch(&mut self.words[..])
    }

    /// The controller that [`dispatch`](Table::dispatch) served last; the last one after an opening, so that the first
    /// round begins with controller 0.
    pub fn served(&self) -> u32 {
        self.words[SERVED_WORD]
    }

    /// Whether the newest live interval of a controller is a checkpoint, as
    /// [`is_checkpoint`](crate::is_checkpoint()) tells it of lent words: where a gap is set, ask it after a
    /// step that has begun an interval.
    pub fn is_checkpoint(&self, controller: u32) -> bool {
        is_checkpoint(&self.words[..], controller)
    }

    /// Whether a house is in the words: true after an opening and the steps that follow it.
    pub fn is_in_form(&self) -> bool {
        in_form(&self.words[..])
    }

    /// The words, to be saved together with the [`ledger`](Table::ledger).
    pub fn words(&self) -> &[u32; TABLE_WORDS] {
        &self.words
    }

    /// The words of the ledger: a count, then pairs of message number and payload.
    pub fn ledger(&self) -> &[u32; LEDGER_WORDS] {
        &self.ledger
    }

    /// The readings that were published since the opening, in this order.
    pub fn citations(&self) -> impl Iterator<Item = Citation> + '_ {
        citations(&self.ledger[..])
    }
}

impl Default for Table {
    fn default() -> Self {
        Table::new()
    }
}

impl Debug for Table {
    /// Not the words: there are too many.
    fn fmt(&self, f: &mut Formatter<'_>) -> fmt::Result {
        let mut table = f.debug_struct("Table");
        table.field("in_form", &self.is_in_form());
        table.field("published", &self.citations().count());
        table.finish_non_exhaustive()
    }
}
