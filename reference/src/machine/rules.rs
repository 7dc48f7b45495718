//! The rules of the steps. Each looks at its refusals first, in their order, and writes only once none
//! is left.

mod delivery;
mod release;
mod shared;

pub(super) use delivery::Prospect;
pub(super) use release::{are_distinct, Leaving, SET_SIZES};

use super::{fault, Answer, Command, Fault};
use crate::ledger::{self, Ledger};
use crate::refusal::{self, Refusal};
use crate::table::{
    in_form, state, Controller, Message, Place, Table, CONTROLLERS, DESK, LAST_INCARNATION,
    LAST_MESSAGE, LAST_NUMBER,
};
use crate::vector::{filtered, Pair};

type Outcome = Result<Answer, Refusal>;

/// Does a step, or says why not.
pub(super) fn perform(
    fault: Fault,
    words: &mut [u32],
    ledger: &mut [u32],
    command: Command,
) -> Outcome {
    let table = Table::new(words).ok_or(refusal::LENGTH)?;
    let mut house = House {
        table,
        ledger,
        fault,
    };
    house.look_at_the_host(command)?;
    match command {
        Command::Open { n, degree } => house.open(n, degree),
        Command::SetDegree { controller, degree } => house.set_degree(controller, degree),
        Command::Send {
            sender,
            receiver,
            payload,
        } => house.send(sender, receiver, payload),
        Command::Release { message } => house.release(message),
        Command::Deliver { message } => house.deliver(message),
        Command::Log { controller, count } => house.log(controller, count),
        Command::Checkpoint { controller } => house.checkpoint(controller),
        Command::Tell { owner, holder } => house.tell(owner, holder),
        Command::Crash { controller } => house.crash(controller),
        Command::Hear {
            hearer,
            crashed,
            incarnation,
        } => house.hear(hearer, crashed, incarnation),
        Command::SetGap { gap } => house.set_gap(gap),
        Command::ReleaseSet { messages } => house.release_set(&messages),
        Command::Dispatch => house.dispatch(),
    }
}

fn ensure(condition: bool, otherwise: Refusal) -> Result<(), Refusal> {
    if condition {
        Ok(())
    } else {
        Err(otherwise)
    }
}

/// What 5 asks of an opening.
pub(super) fn can_open(n: u32, degree: u32) -> bool {
    (1..=CONTROLLERS as u32).contains(&n) && degree <= n
}

/// The lent table and ledger in the hands of one step.
struct House<'a> {
    table: Table<&'a mut [u32]>,
    /// Of any length and content.
    ledger: &'a mut [u32],
    fault: Fault,
}

/// The refusals of what is lent and of things named that aren't there.
impl House<'_> {
    /// What else the host may have done wrong but the table's length. An opening doesn't look at the
    /// table's form. 14 "stands directly after 2, at release and, for the length only, directly after 1
    /// at opening"; a set is released so, too, and no other step looks at the ledger.
    fn look_at_the_host(&self, command: Command) -> Result<(), Refusal> {
        let opening = matches!(command, Command::Open { .. });
        ensure(opening || self.in_form(), refusal::FORM)?;
        let fits = match command {
            Command::Open { .. } => self.ledger.len() == ledger::WORDS,
            Command::Release { .. } | Command::ReleaseSet { .. } => ledger::is_sound(self.ledger),
            _ => true,
        };
        let otherwise = fault::ledger_fits(self.fault, self.table.words(), self.ledger, command);
        ensure(otherwise.unwrap_or(fits), refusal::LEDGER)
    }

    fn in_form(&self) -> bool {
        let words = self.table.words();
        fault::in_form(self.fault, words).unwrap_or_else(|| in_form(words))
    }

    fn controller(&self, controller: u32) -> Result<usize, Refusal> {
        ensure(controller < self.table.n(), refusal::CONTROLLER)?;
        Ok(controller as usize)
    }

    fn message(&self, message: u32) -> Result<Message, Refusal> {
        let sent = 1..=self.table.sent();
        ensure(sent.contains(&message), refusal::MESSAGE)?;
        Ok(self.table.message(message))
    }

    /// "Sends may name receiver 8."
    fn receiver(&self, receiver: u32) -> Result<u32, Refusal> {
        ensure(
            receiver < self.table.n() || receiver == DESK,
            refusal::CONTROLLER,
        )?;
        Ok(receiver)
    }

    /// The ledger, whose length an opening and a release have looked at by now.
    fn ledger(&mut self) -> Result<Ledger<&mut [u32]>, Refusal> {
        Ledger::new(&mut *self.ledger).ok_or(refusal::LEDGER)
    }
}

/// The steps.
impl House<'_> {
    /// "n controllers, all with K = k; each has (0,1), flagged, stable, known to its owner, own pair
    /// (0,1) in its vector; all else 0." But the controller last served is "n − 1 after opening". And "an
    /// opening that is done clears the ledger".
    fn open(&mut self, n: u32, degree: u32) -> Outcome {
        ensure(can_open(n, degree), refusal::DEGREE)?;
        self.ledger()?.clear();
        self.table.clear();
        self.table.set_n(n);
        self.table.set_served(n - 1);
        for c in 0..n as usize {
            let counts = Controller {
                degree,
                incarnation: 0,
                live: 1,
                stable: 1,
            };
            let mut first = Place {
                number: 1,
                flag: 1,
                ..Place::default()
            };
            first.vector[c] = Pair::new(0, 1);
            self.table.set_controller(c, counts);
            self.table.set_place(c, 0, &first);
            self.table.set_known(c, c, 0, 1);
        }
        Ok(Answer::Done)
    }

    /// "Set the degree."
    fn set_degree(&mut self, controller: u32, degree: u32) -> Outcome {
        let c = self.controller(controller)?;
        ensure(degree <= self.table.n(), refusal::DEGREE)?;
        let counts = Controller {
            degree,
            ..self.table.controller(c)
        };
        self.table.set_controller(c, counts);
        Ok(Answer::Done)
    }

    /// "Send payload p: message held, with the newest vector of s filtered for s."
    fn send(&mut self, sender: u32, receiver: u32, payload: u32) -> Outcome {
        let sender = self.controller(sender)?;
        let receiver = self.receiver(receiver)?;
        ensure(sender as u32 != receiver, refusal::SAME_CONTROLLER)?;
        ensure(self.table.sent() < LAST_MESSAGE, refusal::MESSAGES_USED_UP)?;
        let message = self.table.sent() + 1;
        let newest = self.table.newest(sender);
        let record = Message {
            state: state::HELD,
            sender: sender as u32,
            receiver,
            incarnation: newest.incarnation,
            number: newest.number,
            payload,
            vector: filtered(&newest.vector, &self.table.known(sender)),
        };
        self.table.set_sent(message);
        self.table.set_message(message, &record);
        Ok(Answer::Sent { message })
    }

    /// "Log the q oldest live intervals that are not stable."
    fn log(&mut self, controller: u32, count: u32) -> Outcome {
        let c = self.controller(controller)?;
        let Controller { live, stable, .. } = self.table.controller(c);
        let volatile = 1..=live - stable;
        ensure(volatile.contains(&count), refusal::LOG_COUNT)?;
        self.log_up_to(c, stable + count);
        Ok(Answer::Done)
    }

    /// "Checkpoint: log all not yet stable, if any, as by L; flag the newest place."
    fn checkpoint(&mut self, controller: u32) -> Outcome {
        let c = self.controller(controller)?;
        self.checkpoint_newest(c);
        Ok(Answer::Done)
    }

    /// "b's known words for a become the larger of b's and a's own, for each incarnation."
    fn tell(&mut self, owner: u32, holder: u32) -> Outcome {
        let owner = self.controller(owner)?;
        let holder = self.controller(holder)?;
        ensure(owner != holder, refusal::SAME_CONTROLLER)?;
        let own = self.table.known(owner);
        for incarnation in 0..=LAST_INCARNATION {
            self.raise_known(holder, owner, incarnation, own.word(owner, incarnation));
        }
        Ok(Answer::Done)
    }

    /// "k is the stable count. .. c's own end word for its incarnation becomes k. Then start anew." The
    /// causes of lost intervals are settled in between, since they are judged by the "ends after the
    /// crash".
    fn crash(&mut self, controller: u32) -> Outcome {
        let c = self.controller(controller)?;
        let counts = self.table.controller(c);
        let kept = counts.stable;
        ensure(kept < LAST_NUMBER, refusal::PLACES_USED_UP)?;
        ensure(
            counts.incarnation < LAST_INCARNATION,
            refusal::INCARNATIONS_USED_UP,
        )?;
        let replayed = self.replayed(c, kept);
        self.table.set_end(c, c, counts.incarnation, kept);
        self.settle_causes(c, kept);
        self.start_anew(c, kept);
        Ok(Answer::Crashed {
            controller,
            incarnation: counts.incarnation,
            kept,
            lost: counts.live - kept,
            replayed,
        })
    }

    /// "b hears of a's crash in incarnation t: copy a's own end word, and raise b's known word to it.
    /// Find the lowest place above 0 whose vector holds a condemned entry. If none, done." Otherwise
    /// b rolls back, and "for a rollback it is the crash just heard" that is named.
    fn hear(&mut self, hearer: u32, crashed: u32, incarnation: u32) -> Outcome {
        let hearer = self.controller(hearer)?;
        let crashed = self.controller(crashed)?;
        // A row's word is 0 above incarnation 15, so this is both halves of the refusal.
        let end = self.table.ends(crashed).word(crashed, incarnation);
        ensure(end != 0, refusal::NO_SUCH_CRASH)?;
        let mut ends = self.table.ends(hearer);
        let already_heard = ends.word(crashed, incarnation) != 0;
        ensure(!already_heard, refusal::ALREADY_HEARD)?;
        // Judged on a copy first: a hearing that is refused after this leaves the end word unwritten.
        ends.set(crashed, incarnation, end);
        let lowest = self.lowest_condemned_place(hearer, &ends);
        let last = self.table.controller(hearer).incarnation == LAST_INCARNATION;
        ensure(lowest.is_none() || !last, refusal::INCARNATIONS_USED_UP)?;
        self.table.set_end(hearer, crashed, incarnation, end);
        self.raise_known(hearer, crashed, incarnation, end);
        Ok(match lowest {
            None => Answer::Heard {
                controller: hearer as u32,
            },
            Some(kept) => self.roll_back(hearer, kept, crashed as u32, incarnation),
        })
    }

    /// "A new step sets a house-wide gap Q, 0 to 64. .. A Q above 64 is refused with 5." It touches only
    /// intervals that begin later.
    fn set_gap(&mut self, gap: u32) -> Outcome {
        ensure(gap <= fault::most_gap(self.fault), refusal::DEGREE)?;
        self.table.set_gap(gap);
        Ok(Answer::Done)
    }
}
