//! Planted faults of those who judge a machine: of its history, and of the claim that is held to it.

/// What is read wrongly off the steps of a house. A machine that is sound is accused then.
#[derive(Clone, Copy, Debug, Default, PartialEq, Eq)]
pub enum Misreading {
    /// Nothing.
    #[default]
    None,
    /// The history forgets what was forced: neither is it flagged nor is anything stable by it.
    ForcedForgotten,
    /// The history flags what was forced, and takes nothing for stable by it.
    ForcedNotStable,
    /// The history takes what was forced for stable, and doesn't flag it.
    ForcedNotFlagged,
    /// The ceiling is that of the newest gap and not of the largest.
    CeilingOfTheNewestGap,
}

impl Misreading {
    /// Every planted one.
    pub const PLANTED: [Misreading; 4] = [
        Misreading::ForcedForgotten,
        Misreading::ForcedNotStable,
        Misreading::ForcedNotFlagged,
        Misreading::CeilingOfTheNewestGap,
    ];

    pub(super) fn makes_forced_stable(self) -> bool {
        !matches!(
            self,
            Misreading::ForcedForgotten | Misreading::ForcedNotStable
        )
    }

    pub(super) fn flags_forced(self) -> bool {
        !matches!(
            self,
            Misreading::ForcedForgotten | Misreading::ForcedNotFlagged
        )
    }
}
