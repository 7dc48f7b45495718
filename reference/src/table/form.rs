//! "A table is *in form* when every word is in its range."

use super::{
    state, Controller, Message, Place, Table, CONTROLLERS, DESK, LAST_GAP, LAST_INCARNATION,
    LAST_MESSAGE, LAST_NUMBER, LAST_SERVED,
};
use crate::vector::{Pair, Row, Vector};

/// Whether these words are a table in form. Words of another length are none.
pub fn in_form(words: &[u32]) -> bool {
    Table::new(words).is_some_and(|table| {
        let form = Form {
            table,
            n: table.n(),
            sent: table.sent(),
        };
        form.holds()
    })
}

/// A table of the right length, with the two words that the ranges of others hang on.
struct Form<'a> {
    table: Table<&'a [u32]>,
    n: u32,
    sent: u32,
}

impl Form<'_> {
    /// The head and the counts come first: they bound the places and messages looked at after them.
    fn holds(&self) -> bool {
        self.head()
            && (0..CONTROLLERS).all(|c| self.counts(c) && self.rows(c) && self.chain(c))
            && self.messages()
    }

    /// "n (1 to 8); word 1: messages sent (0 to 128); words 2 to 15 are 0", but for the gap, which is
    /// "in form up to 64", and the controller last served, which is "in form up to 7", whatever n is.
    fn head(&self) -> bool {
        (1..=CONTROLLERS as u32).contains(&self.n)
            && self.sent <= LAST_MESSAGE
            && self.table.gap() <= LAST_GAP
            && self.table.served() <= LAST_SERVED
            && self.table.reserved().into_iter().all(are_zero)
    }

    fn has(&self, controller: usize) -> bool {
        (controller as u32) < self.n
    }

    /// "K (0 to n), incarnation, live count (1 to 64), stable count (1 to live count)."
    fn counts(&self, controller: usize) -> bool {
        let counts = self.table.controller(controller);
        if !self.has(controller) {
            return counts == Controller::default();
        }
        counts.degree <= self.n
            && counts.incarnation <= LAST_INCARNATION
            && (1..=LAST_NUMBER).contains(&counts.live)
            && (1..=counts.live).contains(&counts.stable)
    }

    /// "Known and end words 0 to 64", and 0 "for controllers from n on", as holder and as owner.
    fn rows(&self, holder: usize) -> bool {
        self.row(holder, &self.table.known(holder)) && self.row(holder, &self.table.ends(holder))
    }

    fn row(&self, holder: usize, row: &Row) -> bool {
        row.owners().iter().enumerate().all(|(owner, words)| {
            let used = self.has(holder) && self.has(owner);
            let most = if used { LAST_NUMBER } else { 0 };
            words.iter().all(|&word| word <= most)
        })
    }

    /// "Places from the live count on .. are 0." A controller from n on has live count 0.
    fn chain(&self, controller: usize) -> bool {
        let live = self.table.controller(controller).live as usize;
        let place_fits = |place| self.place(place, &self.table.place(controller, place));
        (0..live).all(place_fits) && are_zero(self.table.places_from(controller, live))
    }

    /// "Place p has number p + 1; place 0 has flag 1; a cause is at most the messages sent."
    fn place(&self, place: usize, record: &Place) -> bool {
        record.incarnation <= LAST_INCARNATION
            && record.number as usize == place + 1
            && record.cause <= self.sent
            && (record.flag == 1 || record.flag == 0 && place != 0)
            && self.vector(&record.vector)
    }

    /// "Unsent messages .. are 0."
    fn messages(&self) -> bool {
        let message_fits = |message| self.message(&self.table.message(message));
        (1..=self.sent).all(message_fits) && are_zero(self.table.messages_from(self.sent + 1))
    }

    /// "Sent messages have .. sender .. below n, sending number 1 to 64; incarnations 0 to 15; payload
    /// free."
    fn message(&self, record: &Message) -> bool {
        self.receiver_and_state(record)
            && record.sender < self.n
            && record.incarnation <= LAST_INCARNATION
            && (1..=LAST_NUMBER).contains(&record.number)
            && self.vector(&record.vector)
    }

    /// "Sent messages have state 1 to 5, .. receiver below n"; but "a message for receiver 8 has state
    /// 1, 5 or 6 ..; state 6 is in form there alone".
    fn receiver_and_state(&self, record: &Message) -> bool {
        match record.receiver {
            DESK => matches!(
                record.state,
                state::HELD | state::DROPPED | state::PUBLISHED
            ),
            receiver => receiver < self.n && (state::HELD..=state::DROPPED).contains(&record.state),
        }
    }

    fn vector(&self, vector: &Vector) -> bool {
        (0..CONTROLLERS).all(|owner| self.pair(owner, vector[owner]))
    }

    /// "Pair numbers 0 to 64, and 0 only with incarnation 0." Pairs of controllers from n on are 0.
    fn pair(&self, owner: usize, pair: Pair) -> bool {
        if pair.is_empty() || !self.has(owner) {
            return pair == Pair::EMPTY;
        }
        pair.incarnation <= LAST_INCARNATION && pair.number <= LAST_NUMBER
    }
}

fn are_zero(words: &[u32]) -> bool {
    words.iter().fold(0, |seen, word| seen | word) == 0
}
