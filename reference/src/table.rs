//! The layout of the lent table: where each word stands, and typed access to the records.
//!
//! No other module knows a position. Accessors take controllers below [`CONTROLLERS`], places below
//! [`PLACES`] and messages from 1 to [`MESSAGES`]; callers look at refusals first, or at form.

mod form;

pub use form::in_form;

use crate::vector::{Pair, Row, Vector};
use std::array;
use std::ops::{Deref, DerefMut, Range};

/// "The house is a lent table of 15,152 words of 32 bits."
pub const WORDS: usize = 15_152;
/// The most controllers of a house.
pub const CONTROLLERS: usize = 8;
/// The incarnations of a controller, 0 to 15.
pub const INCARNATIONS: usize = 16;
/// The places of a controller's chain.
pub const PLACES: usize = 64;
/// The messages that may be sent since an opening.
pub const MESSAGES: usize = 128;

/// "Receiver 8 is the desk": the outside of the house, in a house of any size.
pub const DESK: u32 = 8;

/// The highest incarnation.
pub const LAST_INCARNATION: u32 = INCARNATIONS as u32 - 1;
/// The highest number of an interval, and the most live intervals.
pub const LAST_NUMBER: u32 = PLACES as u32;
/// The highest message number.
pub const LAST_MESSAGE: u32 = MESSAGES as u32;
/// The highest gap: "Q, 0 to 64".
pub const LAST_GAP: u32 = 64;
/// The highest word for the controller last served, in a house of any size: "in form up to 7".
pub const LAST_SERVED: u32 = 7;

/// "States: 0 unused, 1 held, 2 released, 3 delivered, 4 lost, 5 dropped"; and "6, published".
pub mod state {
    /// Sent, and waiting at its sender for release.
    pub const HELD: u32 = 1;
    /// Let out, and waiting at its receiver for delivery, also for another one after the interval that
    /// it began was lost or undone.
    pub const RELEASED: u32 = 2;
    /// The cause of an interval.
    pub const DELIVERED: u32 = 3;
    /// In form, but no step gives it: "a crash no longer loses the message, only the work done from
    /// it". Only a table that was lent so has it.
    pub const LOST: u32 = 4;
    /// Condemned, or sent from work that was taken back.
    pub const DROPPED: u32 = 5;
    /// Let out to the desk, where it can't be recalled.
    pub const PUBLISHED: u32 = 6;
}

const N_AT: usize = 0;
const SENT_AT: usize = 1;
const GAP_AT: usize = 11;
const SERVED_AT: usize = 12;
/// The words of the head that have no meaning.
const RESERVED: [Range<usize>; 2] = [2..GAP_AT, SERVED_AT + 1..CONTROLLERS_AT];

const CONTROLLERS_AT: usize = 16;
const CONTROLLER_WORDS: usize = 4;

const KNOWN_AT: usize = 48;
const ENDS_AT: usize = 1_072;
const ROW_WORDS: usize = CONTROLLERS * INCARNATIONS;

const VECTOR_WORDS: usize = 2 * CONTROLLERS;

const PLACES_AT: usize = 2_096;
const PLACE_WORDS: usize = 4 + VECTOR_WORDS;

const MESSAGES_AT: usize = 12_336;
const MESSAGE_WORDS: usize = 6 + VECTOR_WORDS;
const STATE_IN: usize = 0;
const RECEIVER_IN: usize = 2;

// The parts stand one after the other and fill the table.
const _: () = {
    assert!(N_AT + 1 == SENT_AT && SENT_AT + 1 == RESERVED[0].start);
    assert!(GAP_AT + 1 == SERVED_AT);
    assert!(CONTROLLERS_AT + CONTROLLERS * CONTROLLER_WORDS == KNOWN_AT);
    assert!(KNOWN_AT + CONTROLLERS * ROW_WORDS == ENDS_AT);
    assert!(ENDS_AT + CONTROLLERS * ROW_WORDS == PLACES_AT);
    assert!(PLACES_AT + CONTROLLERS * PLACES * PLACE_WORDS == MESSAGES_AT);
    assert!(MESSAGES_AT + MESSAGES * MESSAGE_WORDS == WORDS);
};

/// "Per controller 4 words: K (0 to n), incarnation, live count (1 to 64), stable count (1 to live
/// count)."
#[derive(Clone, Copy, Debug, Default, PartialEq, Eq)]
pub struct Controller {
    /// The degree of optimism, K.
    pub degree: u32,
    /// The incarnation that the controller is in.
    pub incarnation: u32,
    /// How many intervals stand on the chain.
    pub live: u32,
    /// How many of them, from the oldest on, are stable.
    pub stable: u32,
}

impl Controller {
    fn decode(words: &[u32]) -> Self {
        Controller {
            degree: words[0],
            incarnation: words[1],
            live: words[2],
            stable: words[3],
        }
    }

    fn encode(&self, words: &mut [u32]) {
        words.copy_from_slice(&[self.degree, self.incarnation, self.live, self.stable]);
    }
}

/// A live interval: "incarnation, number, cause (message number, 0 for a start), checkpoint flag (0
/// or 1), vector."
#[derive(Clone, Copy, Debug, Default, PartialEq, Eq)]
pub struct Place {
    /// The incarnation of the interval.
    pub incarnation: u32,
    /// Its number, one above its place.
    pub number: u32,
    /// The message whose delivery began it, or 0.
    pub cause: u32,
    /// 1 when a checkpoint was taken in it.
    pub flag: u32,
    /// What it depends on.
    pub vector: Vector,
}

impl Place {
    fn decode(words: &[u32]) -> Self {
        let (head, vector) = words.split_at(PLACE_WORDS - VECTOR_WORDS);
        Place {
            incarnation: head[0],
            number: head[1],
            cause: head[2],
            flag: head[3],
            vector: decode_vector(vector),
        }
    }

    fn encode(&self, words: &mut [u32]) {
        let (head, vector) = words.split_at_mut(PLACE_WORDS - VECTOR_WORDS);
        head.copy_from_slice(&[self.incarnation, self.number, self.cause, self.flag]);
        encode_vector(&self.vector, vector);
    }
}

/// A message: "state, sender, receiver, incarnation and number of the sending interval, payload,
/// vector."
#[derive(Clone, Copy, Debug, Default, PartialEq, Eq)]
pub struct Message {
    /// One of [`state`], or 0 for a record not yet used.
    pub state: u32,
    /// The controller that sent it.
    pub sender: u32,
    /// The controller that it is for, or [`DESK`].
    pub receiver: u32,
    /// The incarnation of the sending interval.
    pub incarnation: u32,
    /// The number of the sending interval.
    pub number: u32,
    /// What it carries; any word.
    pub payload: u32,
    /// What it depends on.
    pub vector: Vector,
}

impl Message {
    fn decode(words: &[u32]) -> Self {
        let (head, vector) = words.split_at(MESSAGE_WORDS - VECTOR_WORDS);
        Message {
            state: head[STATE_IN],
            sender: head[1],
            receiver: head[RECEIVER_IN],
            incarnation: head[3],
            number: head[4],
            payload: head[5],
            vector: decode_vector(vector),
        }
    }

    fn encode(&self, words: &mut [u32]) {
        let (head, vector) = words.split_at_mut(MESSAGE_WORDS - VECTOR_WORDS);
        head.copy_from_slice(&[
            self.state,
            self.sender,
            self.receiver,
            self.incarnation,
            self.number,
            self.payload,
        ]);
        encode_vector(&self.vector, vector);
    }
}

fn decode_vector(words: &[u32]) -> Vector {
    array::from_fn(|owner| Pair::new(words[2 * owner], words[2 * owner + 1]))
}

fn encode_vector(vector: &Vector, words: &mut [u32]) {
    for (pair, words) in vector.iter().zip(words.chunks_exact_mut(2)) {
        words.copy_from_slice(&[pair.incarnation, pair.number]);
    }
}

/// Typed access to the words of a lent table, read or also written.
#[derive(Clone, Copy, Debug)]
pub struct Table<W>(W);

impl<W: Deref<Target = [u32]>> Table<W> {
    /// A table over these words, if there are [`WORDS`] of them.
    pub fn new(words: W) -> Option<Self> {
        (words.len() == WORDS).then_some(Table(words))
    }

    /// All words.
    pub fn words(&self) -> &[u32] {
        &self.0
    }

    /// How many controllers the house has.
    pub fn n(&self) -> u32 {
        self.0[N_AT]
    }

    /// How many messages were sent since the opening.
    pub fn sent(&self) -> u32 {
        self.0[SENT_AT]
    }

    /// The house-wide gap Q, "kept in word 11 of the table", 0 where it is off.
    pub fn gap(&self) -> u32 {
        self.0[GAP_AT]
    }

    /// "The controller last served .. in word 12": by the dispatcher. A lent table may have one that isn't there.
    pub fn served(&self) -> u32 {
        self.0[SERVED_AT]
    }

    /// "Words 2 to 15 are 0", but for these two.
    fn reserved(&self) -> [&[u32]; 2] {
        RESERVED.map(|range| &self.0[range])
    }

    /// The counts of a controller.
    pub fn controller(&self, controller: usize) -> Controller {
        Controller::decode(&self.0[controller_range(controller)])
    }

    /// What the holder knows to be stable: "highest number known stable, 0 none".
    pub fn known(&self, holder: usize) -> Row {
        self.row(KNOWN_AT, holder)
    }

    /// The crashes that the holder has heard of: "number kept in the crash that ended that
    /// incarnation, 0 none".
    pub fn ends(&self, holder: usize) -> Row {
        self.row(ENDS_AT, holder)
    }

    fn row(&self, from: usize, holder: usize) -> Row {
        Row::from_words(&self.0[from + holder * ROW_WORDS..][..ROW_WORDS])
    }

    /// A place of a controller's chain.
    pub fn place(&self, controller: usize, place: usize) -> Place {
        Place::decode(&self.0[place_range(controller, place)])
    }

    /// The words of a controller's places from one on to the last.
    fn places_from(&self, controller: usize, place: usize) -> &[u32] {
        &self.0[place_range(controller, place).start..place_range(controller, PLACES).start]
    }

    /// The newest live interval of a controller whose live count is in its range.
    pub fn newest(&self, controller: usize) -> Place {
        self.place(controller, self.controller(controller).live as usize - 1)
    }

    /// "Message m (from 1) stands at record m − 1."
    pub fn message(&self, message: u32) -> Message {
        Message::decode(&self.0[message_range(message)])
    }

    /// The messages sent that are released and for this receiver, the lowest number first.
    pub fn released_for(&self, receiver: u32) -> impl Iterator<Item = u32> + '_ {
        (1..=self.sent().min(LAST_MESSAGE)).filter(move |&message| {
            let words = &self.0[message_range(message)];
            words[STATE_IN] == state::RELEASED && words[RECEIVER_IN] == receiver
        })
    }

    /// The words of the messages from one on to the last.
    fn messages_from(&self, message: u32) -> &[u32] {
        &self.0[message_range(message).start..]
    }
}

impl<W: DerefMut<Target = [u32]>> Table<W> {
    /// Makes every word 0.
    pub fn clear(&mut self) {
        self.0.fill(0);
    }

    /// Sets how many controllers the house has.
    pub fn set_n(&mut self, n: u32) {
        self.0[N_AT] = n;
    }

    /// Sets how many messages were sent.
    pub fn set_sent(&mut self, sent: u32) {
        self.0[SENT_AT] = sent;
    }

    /// Sets the gap.
    pub fn set_gap(&mut self, gap: u32) {
        self.0[GAP_AT] = gap;
    }

    /// Sets the controller last served.
    pub fn set_served(&mut self, controller: u32) {
        self.0[SERVED_AT] = controller;
    }

    /// Writes the counts of a controller.
    pub fn set_controller(&mut self, controller: usize, record: Controller) {
        record.encode(&mut self.0[controller_range(controller)]);
    }

    /// Writes one known word.
    pub fn set_known(&mut self, holder: usize, owner: usize, incarnation: u32, word: u32) {
        self.0[row_position(KNOWN_AT, holder, owner, incarnation)] = word;
    }

    /// Writes one end word.
    pub fn set_end(&mut self, holder: usize, owner: usize, incarnation: u32, word: u32) {
        self.0[row_position(ENDS_AT, holder, owner, incarnation)] = word;
    }

    /// Writes the 20 words of a place.
    pub fn set_place(&mut self, controller: usize, place: usize, record: &Place) {
        record.encode(&mut self.0[place_range(controller, place)]);
    }

    /// Writes the 22 words of a message.
    pub fn set_message(&mut self, message: u32, record: &Message) {
        record.encode(&mut self.0[message_range(message)]);
    }

    /// Writes the state of a message alone.
    pub fn set_state(&mut self, message: u32, state: u32) {
        let record = Message {
            state,
            ..self.message(message)
        };
        self.set_message(message, &record);
    }
}

/// "Whether the newest live interval of a controller is flagged": not where the words are no table in form,
/// nor where the controller isn't below n.
pub fn is_checkpoint(words: &[u32], controller: u32) -> bool {
    let table = Table::new(words).filter(|table| in_form(words) && controller < table.n());
    table.is_some_and(|table| table.newest(controller as usize).flag == 1)
}

/// "Holder, owner, incarnation (8 by 8 by 16)."
fn row_position(from: usize, holder: usize, owner: usize, incarnation: u32) -> usize {
    from + holder * ROW_WORDS + owner * INCARNATIONS + incarnation as usize
}

fn controller_range(controller: usize) -> Range<usize> {
    let start = CONTROLLERS_AT + controller * CONTROLLER_WORDS;
    start..start + CONTROLLER_WORDS
}

fn place_range(controller: usize, place: usize) -> Range<usize> {
    let start = PLACES_AT + (controller * PLACES + place) * PLACE_WORDS;
    start..start + PLACE_WORDS
}

fn message_range(message: u32) -> Range<usize> {
    let start = MESSAGES_AT + (message as usize - 1) * MESSAGE_WORDS;
    start..start + MESSAGE_WORDS
}
