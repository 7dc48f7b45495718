//! What it takes to show a fault, and how it comes about.

use super::Fault;

impl Fault {
    /// Whether some list in a house just opened shows the fault. The others need a table or a ledger
    /// that no list leads to.
    pub fn shows_in_lists(self) -> bool {
        !matches!(
            self,
            Fault::None
                | Fault::FullBeforeHeld
                | Fault::PublishedElsewhereInForm
                | Fault::DeskChangedAsCause
                | Fault::FourteenOnlyForTheDesk
                | Fault::LedgerLookedAtByAll
                | Fault::DegreeBeforeLedger
                | Fault::StableFlagsOnly
                | Fault::GapOf65InForm
                | Fault::LargestMaskForTheUnion
                | Fault::RoomForTheFirst
                | Fault::SetFullBeforeHeld
                | Fault::SetLedgerOnlyForTheDesk
                | Fault::LessNOnce
                | Fault::Served8InForm
                | Fault::ServedBelowNInForm
        )
    }

    /// Whether it takes a gap in the table to show the fault: no script of the program does then, since it
    /// has no line to set one.
    pub fn needs_a_gap(self) -> bool {
        matches!(
            self,
            Fault::FlaggedWithoutLogging
                | Fault::LoggedOnlyBefore
                | Fault::ForcedNotKnown
                | Fault::CrashStartNotCounted
                | Fault::RollbackStartNotCounted
                | Fault::MoreThanTheGap
                | Fault::StableFlagsOnly
                | Fault::RemovedFlagsCounted
                | Fault::GapOf65Taken
                | Fault::GapOf65InForm
                | Fault::GapOutOfForm
                | Fault::GapNotCleared
        )
    }

    /// Whether it takes a set to show the fault, which has no line either.
    pub fn needs_a_set(self) -> bool {
        matches!(
            self,
            Fault::EachMaskByItself
                | Fault::LargestMaskForTheUnion
                | Fault::StoredPairsJoined
                | Fault::SetByTheDegree
                | Fault::DoubledTaken
                | Fault::SeventeenTaken
                | Fault::NoneTaken
                | Fault::SendersTaken
                | Fault::LengthBeforeMessages
                | Fault::SendersBeforeStates
                | Fault::FirstLetOut
                | Fault::ThoseWithinLetOut
                | Fault::OneVectorForAll
                | Fault::PublishedInTableOrder
                | Fault::RoomForTheFirst
                | Fault::SetFullBeforeHeld
                | Fault::SetLedgerOnlyForTheDesk
        )
    }

    /// Whether it takes the dispatcher to show the fault, or a look at its word of the table: no script does.
    pub fn needs_the_dispatcher(self) -> bool {
        matches!(
            self,
            Fault::RoundFromTheServed
                | Fault::RoundFromZero
                | Fault::LessNOnce
                | Fault::HighestNumberTaken
                | Fault::LowestOfAll
                | Fault::FullReceiverChosen
                | Fault::WaitingTaken
                | Fault::WaitingEndsTheRound
                | Fault::DroppedPassedOver
                | Fault::IdleBeforeLooking
                | Fault::IdleWrites
                | Fault::ServedNotWritten
                | Fault::DroppedNotServed
                | Fault::DeliveryServes
                | Fault::ServedNotOpened
                | Fault::Served8InForm
                | Fault::ServedBelowNInForm
        )
    }

    pub(super) fn bends_what_was_written(self) -> bool {
        matches!(
            self,
            Fault::EndWordOnRollback
                | Fault::KeptNotLogged
                | Fault::KnownNotRaised
                | Fault::HeldKept
                | Fault::LostGiven
                | Fault::EndsBeforeCrash
                | Fault::CondemnedOffered
                | Fault::WritesNoWord
                | Fault::PublishedWithoutEntry
                | Fault::LedgerWrittenOnHeld
                | Fault::LedgerNotCleared
                | Fault::EntryOutOfOrder
                | Fault::FlaggedWithoutLogging
                | Fault::LoggedOnlyBefore
                | Fault::ForcedNotKnown
                | Fault::CrashStartNotCounted
                | Fault::RollbackStartNotCounted
                | Fault::MoreThanTheGap
                | Fault::ForcedWhenOff
                | Fault::StableFlagsOnly
                | Fault::RemovedFlagsCounted
                | Fault::GapNotCleared
                | Fault::FirstLetOut
                | Fault::ThoseWithinLetOut
                | Fault::OneVectorForAll
                | Fault::PublishedInTableOrder
                | Fault::IdleWrites
                | Fault::ServedNotWritten
                | Fault::DroppedNotServed
                | Fault::DeliveryServes
                | Fault::ServedNotOpened
        )
    }
}
