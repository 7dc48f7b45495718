//! What the comparison and the digest go through, fixed by seeds: random lists of steps, and single steps
//! on lent tables with lent ledgers.

use crate::agreement::Lent;
use crate::effort;
use reference::generate::{
    condemned_table, damaged, damaged_gap, damaged_ledger, damaged_served, dispatch_table, gap,
    gapped_table, in_form_table, named, nearly_full_ledger, noise, senseless, set, set_table,
    sound_ledger, with_damage, wrong_length, Profile, Random,
};
use reference::machine::Command;

/// How many lists of each profile. In the first seven no gap is set, and only the last two call the dispatcher.
pub const LISTS: [(&Profile, u64); 14] = [
    (&Profile::MIXED, 1_600),
    (&Profile::CRASHES, 700),
    (&Profile::PARTIAL, 500),
    (&Profile::FULL, 60),
    (&Profile::WORN, 120),
    (&Profile::WILD, 1_500),
    (&Profile::DESK, 60),
    (&Profile::GAPS, 700),
    (&Profile::CEILING, 700),
    (&Profile::LONG, 100),
    (&Profile::SETS, 700),
    (&Profile::REELS, 300),
    (&Profile::DISPATCH, 700),
    (&Profile::CROWDED, 100),
];

/// The lists that no call of the dispatcher stands in.
pub const UNDISPATCHED: usize = LISTS.len() - 2;

/// Random lent tables of one kind.
#[derive(Clone, Copy, Debug)]
pub struct Tables {
    /// What they are.
    pub name: &'static str,
    /// What fixes them, with their ledgers and steps.
    seed: u64,
    /// How many of them.
    count: u64,
    /// Makes one.
    make: fn(&mut Random) -> Vec<u32>,
    /// What is done on them.
    steps: Steps,
}

/// What is done on lent tables.
#[derive(Clone, Copy, Debug)]
enum Steps {
    /// Steps that have a letter. The gap is off there, or the form is damaged.
    Lettered,
    /// The same, and gaps are set.
    WithGaps,
    /// Sets are released, with ledgers that often have little room.
    Sets,
    /// Messages are dispatched, and steps that have a letter done.
    Dispatch,
}

impl Tables {
    /// Tables in form, that no list of steps leads to.
    pub const IN_FORM: Tables = Tables {
        name: "lent tables in form",
        seed: 1,
        count: 4_000,
        make: in_form_table,
        steps: Steps::Lettered,
    };
    /// The same with one word changed. Many of them are in form still.
    pub const DAMAGED: Tables = Tables {
        name: "lent tables damaged",
        seed: 2,
        count: 3_000,
        make: |random| damaged(random).0,
        steps: Steps::Lettered,
    };
    /// Words of another length, and noise.
    pub const NOISE: Tables = Tables {
        name: "lent noise, any length",
        seed: 3,
        count: 600,
        make: |random| match random.below(3) {
            0 => noise(random),
            _ => wrong_length(random),
        },
        steps: Steps::Lettered,
    };
    /// Tables in form with any gap.
    pub const GAPPED: Tables = Tables {
        name: "lent tables with a gap",
        seed: 7,
        count: 4_000,
        make: gapped_table,
        steps: Steps::WithGaps,
    };
    /// Tables with a gap that is too wide, and others that are refused; some are in form still.
    pub const GAP_DAMAGED: Tables = Tables {
        name: "lent gaps damaged",
        seed: 8,
        count: 1_000,
        make: |random| match random.below(5) {
            0 => gapped_table(random),
            _ => damaged_gap(random),
        },
        steps: Steps::WithGaps,
    };
    /// Tables in form with many messages held by one sender.
    pub const SETS: Tables = Tables {
        name: "lent tables for sets",
        seed: 9,
        count: 4_000,
        make: set_table,
        steps: Steps::Sets,
    };
    /// The same with one word changed, and others that are refused; some are in form still.
    pub const SETS_DAMAGED: Tables = Tables {
        name: "lent sets damaged",
        seed: 10,
        count: 1_000,
        make: |random| match random.below(6) {
            0 => noise(random),
            1 => wrong_length(random),
            2 => damaged(random).0,
            _ => {
                let table = set_table(random);
                with_damage(random, table).0
            }
        },
        steps: Steps::Sets,
    };
    /// Tables in form on which crashes of several controllers condemn, in several incarnations.
    pub const CONDEMNED: Tables = Tables {
        name: "lent tables condemned",
        seed: 11,
        count: 2_000,
        make: condemned_table,
        steps: Steps::Lettered,
    };
    /// Tables in form with much on its way, and with any controller as the one last served.
    pub const DISPATCH: Tables = Tables {
        name: "lent tables for calls",
        seed: 12,
        count: 4_000,
        make: dispatch_table,
        steps: Steps::Dispatch,
    };
    /// The same with one word changed, and others that are refused, mostly for the controller last served; some are
    /// in form still.
    pub const DISPATCH_DAMAGED: Tables = Tables {
        name: "lent calls damaged",
        seed: 13,
        count: 1_500,
        make: |random| match random.below(2) {
            0 => damaged_served(random),
            _ => {
                let table = dispatch_table(random);
                with_damage(random, table).0
            }
        },
        steps: Steps::Dispatch,
    };
    /// Those on which steps with letters are done.
    pub const ALL: [Tables; 6] = [
        Tables::IN_FORM,
        Tables::DAMAGED,
        Tables::NOISE,
        Tables::GAPPED,
        Tables::GAP_DAMAGED,
        Tables::CONDEMNED,
    ];
    /// Those on which sets are released.
    pub const FOR_SETS: [Tables; 2] = [Tables::SETS, Tables::SETS_DAMAGED];
    /// Those on which messages are dispatched.
    pub const TO_DISPATCH: [Tables; 2] = [Tables::DISPATCH, Tables::DISPATCH_DAMAGED];

    /// Each table with a ledger, and the steps for it.
    pub fn with_steps(self) -> impl Iterator<Item = (Lent, Vec<Command>)> {
        let mut random = Random::new(self.seed);
        (0..effort(self.count)).map(move |_| {
            let table = (self.make)(&mut random);
            let ledger = match self.steps {
                Steps::Sets if random.chance(50) => nearly_full_ledger(&mut random),
                _ => any_ledger(&mut random),
            };
            let steps = match self.steps {
                Steps::Lettered => steps(&mut random, &table),
                Steps::WithGaps => {
                    let mut steps = steps(&mut random, &table);
                    steps.extend(gaps_set(&mut random));
                    steps
                }
                Steps::Sets => sets(&mut random, &table).to_vec(),
                Steps::Dispatch => {
                    let mut steps = named(&mut random, &table);
                    steps.extend([Command::Dispatch, senseless(&mut random)]);
                    steps
                }
            };
            (Lent { table, ledger }, steps)
        })
    }
}

/// Sets that are released, mostly of messages that are there.
pub fn sets(random: &mut Random, words: &[u32]) -> [Command; 10] {
    [(); 10].map(|()| Command::ReleaseSet {
        messages: set(random, words),
    })
}

/// Gaps that are set, with any numbers.
pub fn gaps_set(random: &mut Random) -> [Command; 2] {
    [0, 1].map(|_| Command::SetGap { gap: gap(random) })
}

/// A step of each letter with sensible numbers, where the table has its length, and ten with any. None
/// sets the gap, releases a set or dispatches.
pub fn steps(random: &mut Random, words: &[u32]) -> Vec<Command> {
    let mut steps = named(random, words);
    steps.extend((0..10).map(|_| senseless(random)));
    steps
}

/// Mostly a sound one: a release looks no further than a damaged one.
pub fn any_ledger(random: &mut Random) -> Vec<u32> {
    if random.chance(20) {
        damaged_ledger(random)
    } else {
        sound_ledger(random)
    }
}
