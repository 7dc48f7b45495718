//! Who was asked, and since when, and who has word of what: told by the steps, their answers and the history, as in
//! `history/specs/Asked.antt`.

use reference::history::{Crash, History, IntervalId};
use reference::machine::{Answer, Command};
use reference::table::CONTROLLERS;

/// By what a controller was secured: all its live intervals are stable then.
#[derive(Clone, Copy, Debug, PartialEq, Eq)]
pub enum Secured {
    Checkpoint,
    Crash,
    /// A hearing at which it undid something.
    Rollback,
}

/// Whom a step secures, if it does.
fn secured(command: Command, answer: Answer) -> Option<(u32, Secured)> {
    match (command, answer) {
        (Command::Checkpoint { controller }, Answer::Done) => {
            Some((controller, Secured::Checkpoint))
        }
        (Command::Crash { controller }, Answer::Crashed { .. }) => {
            Some((controller, Secured::Crash))
        }
        (Command::Hear { hearer, .. }, Answer::Rolled { .. }) => Some((hearer, Secured::Rollback)),
        _ => None,
    }
}

/// By what each controller was secured, if it was.
type Row = [Option<Secured>; CONTROLLERS];

/// What was done since one interval began.
#[derive(Clone, Copy, Debug, Default)]
struct Since {
    secured: Row,
    /// For each holder, who was secured and told it after that.
    told: [Row; CONTROLLERS],
    /// The holders whom its owner told when it was stable.
    told_stable: u32,
}

impl Since {
    fn tell(&mut self, owner: usize, holder: usize) {
        let secured = self.secured[owner];
        let told = &mut self.told[holder][owner];
        *told = told.or(secured);
    }
}

/// What was done since each interval began.
#[derive(Clone, Debug, Default)]
pub struct Asked(Vec<Since>);

impl Asked {
    /// Takes the next step, and the history after it. A step counts for the intervals that had begun before it.
    pub fn feed(&mut self, command: Command, answer: Answer, history: &History) {
        if let Some((controller, by)) = secured(command, answer) {
            for since in &mut self.0 {
                since.secured[controller as usize] = Some(by);
            }
        }
        if let (Command::Tell { owner, holder }, Answer::Done) = (command, answer) {
            self.tell(owner as usize, holder as usize, history);
        }
        let begun = history.intervals().len();
        self.0.resize(begun, Since::default());
    }

    fn tell(&mut self, owner: usize, holder: usize, history: &History) {
        for (since, interval) in self.0.iter_mut().zip(history.intervals()) {
            since.tell(owner, holder);
            if interval.owner == owner && interval.stable {
                since.told_stable |= 1 << holder;
            }
        }
    }

    /// Whether a controller has word of an interval, that it is stable or lost: it is its own and stable, or its owner
    /// told it when it was stable, or it has heard the crash that ended the incarnation.
    pub fn has_word(&self, holder: u32, id: IntervalId, history: &History) -> bool {
        let (interval, holder) = (&history.intervals()[id], holder as usize);
        let its_own = interval.owner == holder && interval.stable;
        let was_told = self.0[id].told_stable >> holder & 1 == 1;
        let ended = Crash {
            controller: interval.owner,
            incarnation: interval.incarnation,
        };
        its_own || was_told || history.controllers()[holder].heard.contains(&ended)
    }

    /// By what a controller was secured since an interval began.
    pub fn secured(&self, since: IntervalId, controller: u32) -> Option<Secured> {
        self.0[since].secured[controller as usize]
    }

    /// By what it was secured, if it was asked for the holder: it has told the holder after that, unless it is the
    /// holder.
    pub fn asked(&self, since: IntervalId, holder: u32, controller: u32) -> Option<Secured> {
        if controller == holder {
            self.secured(since, controller)
        } else {
            self.0[since].told[holder as usize][controller as usize]
        }
    }

    /// Those of a mask that were not asked for the holder.
    pub fn left(&self, since: IntervalId, holder: u32, mask: u32) -> u32 {
        let named = (0..CONTROLLERS as u32).filter(|c| mask >> c & 1 == 1);
        let left = named.filter(|&c| self.asked(since, holder, c).is_none());
        left.fold(0, |left, c| left | 1 << c)
    }
}
