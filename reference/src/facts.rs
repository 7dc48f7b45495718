//! What ties a table and a ledger to the history of their house after each step of the sound machine.
//!
//! Only tests use it. The history and demand 3 never look at a table; this is the one place where
//! the two meet.

use crate::history::{Controller, Crash, History, Interval, IntervalId};
use crate::machine::Answer;
use crate::table::{in_form, state, Table, CONTROLLERS, INCARNATIONS};
use crate::vector::{Pair, Row, Vector};
use std::array;

/// Whether a table is in form and agrees with its history, and a ledger with both; otherwise the fact
/// that doesn't hold.
pub fn check(words: &[u32], ledger: &[u32], history: &History) -> Result<(), &'static str> {
    if !in_form(words) {
        return Err("the table is in form");
    }
    let table = Table::new(words).ok_or("the table has its length")?;
    let facts = Facts {
        table,
        ledger,
        history,
        known: array::from_fn(|holder| table.known(holder)),
        ends: array::from_fn(|holder| table.ends(holder)),
    };
    if table.n() as usize != history.controllers().len() {
        return Err("the controllers agree");
    }
    let broken = Facts::ALL.iter().find(|(_, holds)| !holds(&facts));
    broken.map_or(Ok(()), |&(name, _)| Err(name))
}

/// Whether an answer says of its replay what the history before its step does: "k minus the highest
/// flagged number on the chain that is at most k".
pub fn replayed_agrees(history: &History, answer: Answer) -> bool {
    let (Answer::Crashed {
        controller,
        kept,
        replayed,
        ..
    }
    | Answer::Rolled {
        controller,
        kept,
        replayed,
        ..
    }) = answer
    else {
        return true;
    };
    let named = (controller as usize) < history.controllers().len();
    let latest = named.then(|| history.latest_flagged(controller as usize, kept));
    latest.flatten().map(|latest| kept - latest) == Some(replayed)
}

/// A table in form beside the history of its house, with the same number of controllers.
struct Facts<'a> {
    table: Table<&'a [u32]>,
    ledger: &'a [u32],
    history: &'a History,
    known: [Row; CONTROLLERS],
    ends: [Row; CONTROLLERS],
}

/// A fact by its name, and how it is looked at.
type Fact<'a> = (&'static str, fn(&Facts<'a>) -> bool);

impl<'a> Facts<'a> {
    const ALL: [Fact<'a>; 18] = [
        ("the gaps agree", Self::gaps_agree),
        ("the controllers last served agree", Self::served_agree),
        ("the chains agree", Self::chains_agree),
        ("the messages agree", Self::messages_agree),
        (
            "the delivered are the causes of live intervals",
            Self::delivered_are_causes,
        ),
        (
            "only what rests on lost work is dropped, and nothing is lost",
            Self::dropped_rest_on_lost,
        ),
        (
            "what isn't stable is of this incarnation",
            Self::volatile_is_present,
        ),
        ("what is flagged is stable", Self::flagged_is_stable),
        ("what is known stable is stable", Self::known_is_stable),
        ("the end words are the crashes heard", Self::ends_are_heard),
        (
            "the lost are above the end words",
            Self::lost_are_above_ends,
        ),
        ("undone intervals had a cause", Self::undone_had_cause),
        ("live vectors fit", Self::chain_vectors_fit),
        ("message vectors fit", Self::message_vectors_fit),
        ("no live interval is an orphan", Self::no_orphans),
        (
            "the published are those let out to the desk",
            Self::published_are_let_out,
        ),
        (
            "what is published rests on stable work and is live",
            Self::published_is_stable,
        ),
        ("the ledger is that of the steps", Self::ledger_agrees),
    ];
}

impl Facts<'_> {
    fn controllers(&self) -> impl Iterator<Item = (usize, &Controller)> {
        self.history.controllers().iter().enumerate()
    }

    fn interval(&self, id: IntervalId) -> &Interval {
        &self.history.intervals()[id]
    }

    fn gaps_agree(&self) -> bool {
        self.table.gap() == self.history.gap()
    }

    fn served_agree(&self) -> bool {
        self.table.served() == self.history.served()
    }

    /// A chain is the live places, with their flags, and its place p is stable exactly when p is below the
    /// stable count.
    fn chains_agree(&self) -> bool {
        self.controllers().all(|(c, controller)| {
            let counts = self.table.controller(c);
            counts.degree == controller.degree
                && counts.incarnation == controller.incarnation
                && counts.live as usize == controller.chain.len()
                && controller.chain.iter().enumerate().all(|(place, &id)| {
                    let record = self.table.place(c, place);
                    let name = Pair::new(record.incarnation, record.number);
                    let stable = place < counts.stable as usize;
                    let interval = self.interval(id);
                    name == name_of(interval)
                        && stable == interval.stable
                        && (record.flag == 1) == interval.flagged
                })
        })
    }

    fn messages_agree(&self) -> bool {
        self.table.sent() as usize == self.history.messages().len()
            && self.history.messages().iter().all(|(&message, sent)| {
                let record = self.table.message(message);
                let sending = self.interval(sent.sending_interval);
                record.receiver == sent.receiver
                    && record.payload == sent.payload
                    && record.sender as usize == sending.owner
                    && Pair::new(record.incarnation, record.number) == name_of(sending)
            })
    }

    /// A message is delivered exactly when it began a live interval, and then it is the cause of no
    /// other: one that is offered again isn't delivered before it is.
    fn delivered_are_causes(&self) -> bool {
        let mut causes = Vec::new();
        for (c, controller) in self.controllers() {
            let places = 0..controller.chain.len();
            causes.extend(places.map(|place| self.table.place(c, place).cause));
        }
        causes.retain(|&cause| cause != 0);
        causes.sort_unstable();
        let delivered = (1..=self.table.sent())
            .filter(|&message| self.table.message(message).state == state::DELIVERED);
        delivered.eq(causes)
    }

    /// "A crash no longer loses the message, only the work done from it."
    fn dropped_rest_on_lost(&self) -> bool {
        let is_lost = |id: IntervalId| self.interval(id).lost_in.is_some();
        self.history.messages().iter().all(|(&message, sent)| {
            let rests_on = &self.interval(sent.sending_interval).rests_on;
            match self.table.message(message).state {
                state::DROPPED => rests_on.iter().any(is_lost),
                other => other != state::LOST,
            }
        })
    }

    /// The newest place, and every place from the stable count on, has the controller's incarnation.
    fn volatile_is_present(&self) -> bool {
        self.controllers().all(|(c, _)| {
            let counts = self.table.controller(c);
            (counts.stable.min(counts.live - 1)..counts.live)
                .all(|place| self.table.place(c, place as usize).incarnation == counts.incarnation)
        })
    }

    /// A checkpoint logs all up to it, whether it was asked for or forced.
    fn flagged_is_stable(&self) -> bool {
        let mut intervals = self.history.intervals().iter();
        intervals.all(|interval| interval.stable || !interval.flagged)
    }

    /// Nobody knows more of an owner than itself, and what it knows of itself is stable.
    fn known_is_stable(&self) -> bool {
        let owners_know_best = self.each_incarnation(|holder, owner, incarnation| {
            let own = self.known[owner].word(owner, incarnation);
            self.known[holder].word(owner, incarnation) <= own
        });
        let known_are_stable = self.history.intervals().iter().all(|interval| {
            let known = self.known[interval.owner].word(interval.owner, interval.incarnation);
            interval.stable || interval.number > known
        });
        let stable_are_known = self.controllers().all(|(c, controller)| {
            self.known[c].word(c, controller.incarnation) == self.table.controller(c).stable
        });
        owners_know_best && known_are_stable && stable_are_known
    }

    /// A holder's end word for an owner's incarnation is not 0 exactly when the holder has heard of the
    /// crash that ended it, and then it is the owner's own.
    fn ends_are_heard(&self) -> bool {
        self.each_incarnation(|holder, owner, incarnation| {
            let end = self.ends[holder].word(owner, incarnation);
            let heard = self.history.controllers()[holder].heard.contains(&Crash {
                controller: owner,
                incarnation,
            });
            let own = self.ends[owner].word(owner, incarnation);
            heard == (end != 0) && (end == 0 || end == own)
        })
    }

    /// Whether it holds of every holder, owner and incarnation of the owner.
    fn each_incarnation(&self, holds: impl Fn(usize, usize, u32) -> bool) -> bool {
        let n = self.history.controllers().len();
        let holds_of = |holder, owner| {
            (0..INCARNATIONS as u32).all(|incarnation| holds(holder, owner, incarnation))
        };
        (0..n).all(|holder| (0..n).all(|owner| holds_of(holder, owner)))
    }

    /// An interval is lost exactly when its owner's end word for its incarnation is exceeded, in the
    /// crash that ended it, and then it is neither stable nor live.
    fn lost_are_above_ends(&self) -> bool {
        let intervals = self.history.intervals();
        intervals.iter().enumerate().all(|(id, interval)| {
            let crash = Crash {
                controller: interval.owner,
                incarnation: interval.incarnation,
            };
            let end = self.ends[crash.controller].word(crash.controller, crash.incarnation);
            let exceeds = end != 0 && interval.number > end;
            interval.lost_in == exceeds.then_some(crash)
                && !(exceeds && (interval.stable || self.is_live(id)))
        })
    }

    fn is_live(&self, id: IntervalId) -> bool {
        let owner = self.interval(id).owner;
        self.history.controllers()[owner].chain.contains(&id)
    }

    /// Each undone interval rests on one lost in a crash that its controller has heard.
    fn undone_had_cause(&self) -> bool {
        self.controllers().all(|(c, _)| {
            let undone: Vec<IntervalId> = (0..self.history.intervals().len())
                .filter(|&id| {
                    let interval = self.interval(id);
                    interval.owner == c && interval.lost_in.is_none() && !self.is_live(id)
                })
                .collect();
            self.history.orphans(c, &undone).len() == undone.len()
        })
    }

    fn chain_vectors_fit(&self) -> bool {
        self.controllers().all(|(c, controller)| {
            controller.chain.iter().enumerate().all(|(place, &id)| {
                let vector = self.table.place(c, place).vector;
                vector[c] == name_of(self.interval(id)) && self.vector_fits(&vector, id)
            })
        })
    }

    fn message_vectors_fit(&self) -> bool {
        self.history.messages().iter().all(|(&message, sent)| {
            let vector = self.table.message(message).vector;
            self.vector_fits(&vector, sent.sending_interval)
        })
    }

    /// *Complete*: what the interval rests on and isn't stable has a pair of its incarnation with at
    /// least its number. *Sound*: what a pair names is rested on.
    fn vector_fits(&self, vector: &Vector, id: IntervalId) -> bool {
        let mut named = vector.map(Pair::is_empty);
        let complete = self.interval(id).rests_on.iter().all(|id| {
            let interval = self.interval(id);
            let pair = vector[interval.owner];
            named[interval.owner] |= pair == name_of(interval);
            interval.stable
                || pair.incarnation == interval.incarnation && pair.number >= interval.number
        });
        complete && named == [true; CONTROLLERS]
    }

    fn no_orphans(&self) -> bool {
        self.controllers()
            .all(|(c, controller)| self.history.orphans(c, &controller.chain).is_empty())
    }

    /// A message is published exactly when a release let it out to the desk, none is so twice, and its
    /// vector is empty.
    fn published_are_let_out(&self) -> bool {
        let mut let_out = self.history.published().to_vec();
        let_out.sort_unstable();
        let published = (1..=self.table.sent()).filter(|&message| {
            let record = self.table.message(message);
            record.state == state::PUBLISHED && record.vector == Vector::default()
        });
        published.eq(let_out)
    }

    /// Nothing that a published message's sending interval rests on can be lost any more, and so nobody
    /// has ever a cause to undo it.
    fn published_is_stable(&self) -> bool {
        self.history.published().iter().all(|message| {
            let sending = self.history.messages()[message].sending_interval;
            let mut rests_on = self.interval(sending).rests_on.iter();
            self.is_live(sending) && rests_on.all(|id| self.interval(id).stable)
        })
    }

    fn ledger_agrees(&self) -> bool {
        self.ledger == self.history.ledger()
    }
}

fn name_of(interval: &Interval) -> Pair {
    Pair::new(interval.incarnation, interval.number)
}
