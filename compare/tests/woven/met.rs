//! What a test has come across.

use super::asked::Secured;
use super::{Aim, House};
use reference::machine::{Answer, Command};
use std::collections::BTreeMap;

/// How often each case came up.
#[derive(Debug, Default, PartialEq, Eq)]
pub struct Met(BTreeMap<String, u64>);

impl Met {
    pub fn note(&mut self, case: impl Into<String>) {
        self.add(case, 1);
    }

    pub fn add(&mut self, case: impl Into<String>, count: u64) {
        *self.0.entry(case.into()).or_default() += count;
    }

    pub fn join(mut self, other: Met) -> Met {
        for (case, count) in other.0 {
            self.add(case, count);
        }
        self
    }

    pub fn cases(&self) -> impl Iterator<Item = &str> {
        self.0.keys().map(String::as_str)
    }

    /// Each of these cases came up often enough.
    pub fn assert_at_least(&self, cases: &[(&str, u64)]) {
        for &(case, least) in cases {
            let count = self.0.get(case).copied().unwrap_or(0);
            assert!(count >= least, "{case}: {count}");
        }
    }

    /// What a list itself comes across: deliveries, which are dropped exactly where they rest on lost work that was
    /// heard of, an idle dispatcher, and sets.
    pub fn note_step(&mut self, step: (Command, Answer)) {
        match step {
            (_, Answer::Dropped { .. }) => self.note("list: dropped"),
            (_, Answer::Delivered { .. } | Answer::Waits { .. }) => self.note("list: not dropped"),
            (_, Answer::Idle) => self.note("list: idle"),
            (Command::ReleaseSet { messages }, Answer::SetReleased { .. }) => {
                self.add("list: messages let out in a set", messages.len() as u64);
            }
            (Command::ReleaseSet { messages }, Answer::SetHeld { .. }) => {
                self.add("list: messages held in a set", messages.len() as u64);
            }
            (Command::ReleaseSet { .. }, _) => self.note("list: a set refused"),
            _ => {}
        }
    }

    /// The releases of each message, one after the other: masks only shrink.
    pub fn note_masks(&mut self, house: &House) {
        for masks in house.told.values().flat_map(|told| told.masks.windows(2)) {
            let same = masks[0] == masks[1];
            self.note(if same {
                "list: the same named again"
            } else {
                "list: fewer named again"
            });
        }
    }

    /// Those who were to be asked, and by what they were secured.
    pub fn note_asked(&mut self, house: &House, aim: Aim) {
        for controller in aim.asked() {
            let secured = house.asked.asked(aim.since, aim.holder, controller);
            self.note(match secured {
                Some(Secured::Checkpoint) => "asked by a checkpoint",
                Some(Secured::Crash) => "asked by a crash",
                Some(Secured::Rollback) => "asked by a rollback",
                None => "not asked, as one of K",
            });
        }
    }
}
