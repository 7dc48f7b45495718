//! What random houses are like.

use std::ops::RangeInclusive;

/// The letter of a step.
#[derive(Clone, Copy, Debug)]
pub(super) enum Kind {
    Open,
    SetDegree,
    Send,
    Release,
    Deliver,
    Log,
    Checkpoint,
    Tell,
    Crash,
    Hear,
}

/// How the gap is set in a house.
#[derive(Debug)]
pub(super) struct Gaps {
    /// How many of a hundred steps set it.
    pub(super) percent: u32,
    /// What the first step after an opening sets it to, if it does. No other step turns it off then, so
    /// that there is a ceiling on replay.
    pub(super) first: Option<RangeInclusive<u32>>,
}

/// What a house is like and what is done in it most.
#[derive(Debug)]
pub struct Profile {
    /// What it is for.
    pub name: &'static str,
    /// How many controllers the house may have.
    pub(super) controllers: RangeInclusive<u32>,
    /// How many steps a list has.
    pub(super) steps: RangeInclusive<u32>,
    /// How many of a hundred steps are senseless.
    pub(super) senseless: u32,
    /// How many of a hundred sends go to the last controller, whoever else could receive.
    pub(super) to_last: u32,
    /// How many of a hundred sends go to the desk.
    pub(super) to_desk: u32,
    /// How often a step is of each kind, among the sensible ones.
    pub(super) weights: [(Kind, u32); 10],
    /// How the gap is set, if at all. The program has no line for it.
    pub(super) gaps: Option<Gaps>,
    /// How many of a hundred steps release a set. The program has no line for that either.
    pub(super) sets: u32,
    /// How many of a hundred steps are calls of the dispatcher. The program has no line for these either.
    pub(super) dispatches: u32,
}

/// Weights in the order of the letters O K S R D L C T X H.
const fn weights(of: [u32; 10]) -> [(Kind, u32); 10] {
    [
        (Kind::Open, of[0]),
        (Kind::SetDegree, of[1]),
        (Kind::Send, of[2]),
        (Kind::Release, of[3]),
        (Kind::Deliver, of[4]),
        (Kind::Log, of[5]),
        (Kind::Checkpoint, of[6]),
        (Kind::Tell, of[7]),
        (Kind::Crash, of[8]),
        (Kind::Hear, of[9]),
    ]
}

impl Profile {
    /// A bit of everything, in houses of any size.
    pub const MIXED: Profile = Profile {
        name: "mixed",
        controllers: 1..=8,
        steps: 20..=120,
        senseless: 5,
        to_last: 0,
        to_desk: 20,
        weights: weights([1, 6, 50, 60, 70, 12, 4, 14, 6, 14]),
        gaps: None,
        sets: 0,
        dispatches: 0,
    };
    /// Few controllers that crash often and hear late.
    pub const CRASHES: Profile = Profile {
        name: "crashes",
        controllers: 2..=4,
        steps: 60..=180,
        senseless: 1,
        to_last: 0,
        to_desk: 20,
        weights: weights([0, 2, 50, 60, 80, 8, 2, 6, 9, 16]),
        gaps: None,
        sets: 0,
        dispatches: 0,
    };
    /// Little is stable and little is known, so that most work hangs on other work.
    pub const PARTIAL: Profile = Profile {
        name: "partial",
        controllers: 3..=8,
        steps: 60..=160,
        senseless: 1,
        to_last: 0,
        to_desk: 20,
        weights: weights([0, 2, 60, 70, 90, 6, 0, 6, 5, 10]),
        gaps: None,
        sets: 0,
        dispatches: 0,
    };
    /// One controller's chain and the messages fill up.
    pub const FULL: Profile = Profile {
        name: "full",
        controllers: 2..=3,
        steps: 500..=600,
        senseless: 1,
        to_last: 85,
        to_desk: 2,
        weights: weights([0, 2, 60, 60, 70, 30, 12, 10, 2, 4]),
        gaps: None,
        sets: 0,
        dispatches: 0,
    };
    /// Incarnations run out.
    pub const WORN: Profile = Profile {
        name: "worn",
        controllers: 2..=3,
        steps: 200..=400,
        senseless: 1,
        to_last: 30,
        to_desk: 10,
        weights: weights([0, 3, 40, 50, 70, 2, 1, 4, 14, 30]),
        gaps: None,
        sets: 0,
        dispatches: 0,
    };
    /// Mostly nonsense.
    pub const WILD: Profile = Profile {
        name: "wild",
        controllers: 1..=8,
        steps: 20..=60,
        senseless: 60,
        to_last: 0,
        to_desk: 20,
        weights: weights([3, 10, 30, 30, 30, 10, 10, 10, 10, 10]),
        gaps: None,
        sets: 0,
        dispatches: 0,
    };
    /// All goes to the desk, until the ledger is full: it takes every message of a house.
    pub const DESK: Profile = Profile {
        name: "desk",
        controllers: 1..=3,
        steps: 290..=330,
        senseless: 0,
        to_last: 0,
        to_desk: 100,
        weights: weights([0, 2, 60, 60, 4, 4, 2, 4, 2, 4]),
        gaps: None,
        sets: 0,
        dispatches: 0,
    };
    /// As [`CRASHES`](Profile::CRASHES), where the gap is set anew while work goes on, and turned off.
    pub const GAPS: Profile = Profile {
        name: "gaps",
        controllers: 2..=4,
        steps: 60..=200,
        senseless: 2,
        to_last: 30,
        to_desk: 10,
        weights: weights([1, 2, 50, 60, 80, 8, 3, 6, 9, 16]),
        gaps: Some(Gaps {
            percent: 6,
            first: None,
        }),
        sets: 0,
        dispatches: 0,
    };
    /// A narrow gap from the opening on, and crashes that follow each other closely.
    pub const CEILING: Profile = Profile {
        name: "ceiling",
        controllers: 2..=4,
        steps: 80..=240,
        senseless: 1,
        to_last: 30,
        to_desk: 10,
        weights: weights([0, 2, 40, 50, 70, 8, 1, 6, 12, 20]),
        gaps: Some(Gaps {
            percent: 2,
            first: Some(1..=6),
        }),
        sets: 0,
        dispatches: 0,
    };
    /// Any gap from the opening on, with one controller's chain filling up.
    pub const LONG: Profile = Profile {
        name: "long",
        controllers: 2..=3,
        steps: 400..=600,
        senseless: 0,
        to_last: 85,
        to_desk: 2,
        weights: weights([0, 2, 60, 60, 70, 30, 0, 10, 2, 4]),
        gaps: Some(Gaps {
            percent: 0,
            first: Some(1..=64),
        }),
        sets: 0,
        dispatches: 0,
    };
    /// Readings that leave together, among crashes, while the gap is set at times.
    pub const SETS: Profile = Profile {
        name: "sets",
        controllers: 2..=4,
        steps: 80..=240,
        senseless: 2,
        to_last: 20,
        to_desk: 25,
        weights: weights([1, 4, 90, 8, 50, 10, 5, 12, 4, 8]),
        gaps: Some(Gaps {
            percent: 1,
            first: None,
        }),
        sets: 12,
        dispatches: 0,
    };
    /// Reels of many readings, of which most are held until a set takes them.
    pub const REELS: Profile = Profile {
        name: "reels",
        controllers: 1..=8,
        steps: 120..=260,
        senseless: 1,
        to_last: 0,
        to_desk: 40,
        weights: weights([0, 2, 120, 2, 12, 4, 3, 8, 1, 2]),
        gaps: None,
        sets: 7,
        dispatches: 0,
    };
    /// Much is on its way to few controllers, and mostly the dispatcher delivers it, among crashes that are heard
    /// late, while the gap is set at times.
    pub const DISPATCH: Profile = Profile {
        name: "dispatch",
        controllers: 1..=8,
        steps: 100..=300,
        senseless: 1,
        to_last: 30,
        to_desk: 4,
        weights: weights([1, 3, 60, 80, 12, 5, 1, 3, 5, 6]),
        gaps: Some(Gaps {
            percent: 1,
            first: None,
        }),
        sets: 1,
        dispatches: 16,
    };
    /// One controller's chain fills up by the dispatcher while others are served, too.
    pub const CROWDED: Profile = Profile {
        name: "crowded",
        controllers: 3..=5,
        steps: 500..=600,
        senseless: 0,
        to_last: 90,
        to_desk: 0,
        weights: weights([0, 2, 60, 70, 1, 30, 12, 10, 3, 4]),
        gaps: None,
        sets: 0,
        dispatches: 25,
    };
    /// Those whose lists are lines of the program: the gap is never set, no set released, and nothing dispatched.
    pub const LETTERED: [&'static Profile; 7] = [
        &Profile::MIXED,
        &Profile::CRASHES,
        &Profile::PARTIAL,
        &Profile::FULL,
        &Profile::WORN,
        &Profile::WILD,
        &Profile::DESK,
    ];
    /// All of them.
    pub const ALL: [&'static Profile; 14] = [
        &Profile::MIXED,
        &Profile::CRASHES,
        &Profile::PARTIAL,
        &Profile::FULL,
        &Profile::WORN,
        &Profile::WILD,
        &Profile::DESK,
        &Profile::GAPS,
        &Profile::CEILING,
        &Profile::LONG,
        &Profile::SETS,
        &Profile::REELS,
        &Profile::DISPATCH,
        &Profile::CROWDED,
    ];
}
