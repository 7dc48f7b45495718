//! The rules used by several steps, and the parts of single ones.

use super::{fault, Answer, Fault, House};
use crate::table::{state, Controller, Place, DESK};
use crate::vector::{condemned_by, filtered, merged, Pair, Row, Vector};

impl House<'_> {
    /// The only place where a vector is found condemned, and by whose pair.
    pub(super) fn condemned_by(&self, vector: &Vector, ends: &Row) -> Option<usize> {
        match self.fault {
            Fault::NumbersWithoutIncarnations => fault::condemned_by_number(vector, ends),
            _ => condemned_by(vector, ends),
        }
    }

    fn condemned(&self, vector: &Vector, ends: &Row) -> bool {
        self.condemned_by(vector, ends).is_some()
    }

    /// The only place where two vectors are merged, for the delivery of `message` at its receiver.
    pub(super) fn merged(
        &self,
        message: u32,
        receiver: usize,
        ours: &Vector,
        theirs: &Vector,
    ) -> Option<Vector> {
        match self.fault {
            Fault::LargerAcrossIncarnations => Some(fault::larger_of_each(ours, theirs)),
            Fault::EchoesAfterFirst if message > 1 => Some(*ours),
            _ => merged(receiver, ours, theirs),
        }
    }

    /// "A delivery begins the next number in the same incarnation", which is the controller's.
    pub(super) fn begin_next(&mut self, c: usize, cause: u32, mut vector: Vector) -> Pair {
        let mut counts = self.table.controller(c);
        let place = counts.live as usize;
        counts.live += 1;
        let interval = Pair::new(counts.incarnation, counts.live);
        vector[c] = interval;
        let record = Place {
            incarnation: interval.incarnation,
            number: interval.number,
            cause,
            flag: 0,
            vector,
        };
        self.table.set_place(c, place, &record);
        self.table.set_controller(c, counts);
        interval
    }

    /// "When a new interval of any cause would stand Q or more numbers above the latest flagged one on
    /// its chain, it is checkpointed as it begins, which logs all before it." Each interval that has
    /// just begun comes here, but for those of an opening. "0 means off."
    pub(super) fn keep_to_the_gap(&mut self, c: usize) {
        let gap = self.table.gap();
        let newest = self.table.newest(c).number;
        let above = newest - self.latest_flagged(c, newest - 1);
        if gap != 0 && above >= gap {
            self.checkpoint_newest(c);
        }
    }

    /// "Log all not yet stable, if any, as by L; flag the newest place."
    pub(super) fn checkpoint_newest(&mut self, c: usize) {
        let live = self.table.controller(c).live;
        self.log_up_to(c, live);
        let newest = Place {
            flag: 1,
            ..self.table.newest(c)
        };
        self.table.set_place(c, live as usize - 1, &newest);
    }

    /// Logs all up to a number that isn't stable yet, if any.
    pub(super) fn log_up_to(&mut self, c: usize, number: u32) {
        if self.table.controller(c).stable < number {
            self.set_stable(c, number);
        }
    }

    /// "c's known word for itself and its incarnation becomes the new stable count."
    fn set_stable(&mut self, c: usize, stable: u32) {
        let counts = Controller {
            stable,
            ..self.table.controller(c)
        };
        self.table.set_controller(c, counts);
        self.table.set_known(c, c, counts.incarnation, stable);
    }

    /// The holder's known word becomes the larger of what it is and the given one.
    pub(super) fn raise_known(&mut self, holder: usize, owner: usize, incarnation: u32, word: u32) {
        let known = self.table.known(holder).word(owner, incarnation);
        self.table
            .set_known(holder, owner, incarnation, known.max(word));
    }

    /// "The lowest place above 0 whose vector holds a condemned entry."
    pub(super) fn lowest_condemned_place(&self, hearer: usize, ends: &Row) -> Option<u32> {
        let first = match self.fault {
            Fault::CondemnedPlacePassedOver => 2,
            _ => 1,
        };
        (first..self.table.controller(hearer).live)
            .find(|&place| self.condemned(&self.table.place(hearer, place as usize).vector, ends))
    }

    /// "That place's index is k: kept intervals not yet stable, if any, are logged as by L; each
    /// cause of an undone interval becomes dropped .. [or] released again; then start anew."
    pub(super) fn roll_back(
        &mut self,
        hearer: usize,
        kept: u32,
        crashed: u32,
        incarnation: u32,
    ) -> Answer {
        let undone = self.table.controller(hearer).live - kept;
        let otherwise = fault::replayed_by_hearing(self.fault, self.table.words(), hearer, kept);
        let replayed = otherwise.unwrap_or_else(|| self.replayed(hearer, kept));
        self.log_up_to(hearer, kept);
        self.settle_causes(hearer, kept);
        self.start_anew(hearer, kept);
        Answer::Rolled {
            controller: hearer as u32,
            kept,
            undone,
            replayed,
            crashed,
            incarnation,
        }
    }

    /// What becomes of the causes of intervals that leave the chain, at a crash: "the cause of each lost
    /// interval becomes released again, or dropped if its vector is condemned to that controller by
    /// its ends after the crash"; and at a rollback: "each cause of an undone interval becomes dropped
    /// if its vector is condemned to b, else released again". The step has written its end word by now.
    /// "A message for receiver 8 .. is never changed as a cause."
    pub(super) fn settle_causes(&mut self, c: usize, kept: u32) {
        let ends = self.table.ends(c);
        for cause in self.causes_above(c, kept) {
            let record = self.table.message(cause);
            if record.receiver == DESK && self.fault != Fault::DeskChangedAsCause {
                continue;
            }
            let condemned = self.condemned(&record.vector, &ends);
            let state = if condemned {
                state::DROPPED
            } else {
                state::RELEASED
            };
            self.table.set_state(cause, state);
        }
    }

    /// The causes of the live intervals with numbers above `kept`. "Cause (.. 0 for a start)."
    fn causes_above(&self, c: usize, kept: u32) -> Vec<u32> {
        (kept..self.table.controller(c).live)
            .map(|place| self.table.place(c, place as usize).cause)
            .filter(|&cause| cause != 0)
            .collect()
    }

    /// "*Replayed* = k minus the highest flagged number on the chain that is at most k."
    pub(super) fn replayed(&self, c: usize, kept: u32) -> u32 {
        kept - self.latest_flagged(c, kept)
    }

    /// "The highest flagged number on the chain that is at most" the given one, stable or not.
    fn latest_flagged(&self, c: usize, most: u32) -> u32 {
        let flagged = (0..most)
            .map(|place| self.table.place(c, place as usize))
            .filter(|record| record.flag == 1)
            .map(|record| record.number);
        flagged.max().unwrap_or(0)
    }

    /// "*Starting anew* at c after kept number k: freed places become 0. Place k gets the controller's
    /// incarnation plus 1, number k + 1, cause 0, flag 0, and the kept vector filtered for c with c's
    /// own pair set to the new interval. .. Live and stable counts become k + 1 and the controller's
    /// incarnation is the new one. Known for c by c gets k + 1 at it." The gap may flag the new place then;
    /// all is stable already.
    pub(super) fn start_anew(&mut self, c: usize, kept: u32) {
        let mut counts = self.table.controller(c);
        for freed in kept..counts.live {
            self.table.set_place(c, freed as usize, &Place::default());
        }
        counts.incarnation += 1;
        counts.live = kept;
        self.table.set_controller(c, counts);
        let kept_vector = self.table.newest(c).vector;
        let vector = filtered(&kept_vector, &self.table.known(c));
        let interval = self.begin_next(c, 0, vector);
        self.set_stable(c, interval.number);
        self.keep_to_the_gap(c);
        self.drop_held_above(c, kept);
    }

    /// "Held messages from c with sending number above k become dropped", those for the desk too.
    fn drop_held_above(&mut self, c: usize, kept: u32) {
        for message in 1..=self.table.sent() {
            let record = self.table.message(message);
            let from_c = record.sender as usize == c;
            if record.state == state::HELD && from_c && record.number > kept {
                self.table.set_state(message, state::DROPPED);
            }
        }
    }
}
