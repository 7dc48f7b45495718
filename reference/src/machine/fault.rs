//! Machines with one planted fault each, to show that a check finds it.
//!
//! The rules ask for a fault in one place each; what the faulty machine does instead is here, so that
//! the sound rules can be read without it. What a rule asks for is in [`asked`]; what is only bent after a
//! sound step is in [`bent`], and in [`gap`] where it concerns the gap. Both are in [`sets`] where it
//! concerns a set, and in [`dispatch`] where it concerns the dispatcher. [`around`] has all that needs no
//! rule, and [`kinds`] says what it takes to show a fault.

mod around;
mod asked;
mod bent;
mod dispatch;
mod gap;
mod kinds;
mod sets;

pub(super) use around::around;
pub(super) use asked::{
    blamed, condemned_by_number, in_form, larger_of_each, ledger_fits, most_gap,
    replayed_by_hearing,
};
pub(super) use dispatch::next_served;
pub(super) use sets::{look_at_set, readings_counted, union};

/// What is wrong with a machine.
#[derive(Clone, Copy, Debug, PartialEq, Eq)]
pub enum Fault {
    /// Nothing.
    None,
    /// "Taking the larger pair across incarnations", and so never waiting.
    LargerAcrossIncarnations,
    /// "Comparing numbers without incarnations", when a pair is condemned.
    NumbersWithoutIncarnations,
    /// "Counting stored pairs at release instead of filtered ones."
    StoredPairsCounted,
    /// "Writing an end word for a rollback as if it were a crash."
    EndWordOnRollback,
    /// "Not logging kept intervals on rollback."
    KeptNotLogged,
    /// Logging them in the stable count alone, and not in the known word.
    KnownNotRaised,
    /// Leaving held what was sent from lost or undone intervals.
    HeldKept,
    /// Giving the causes of lost intervals state lost, so that they are not offered again.
    LostGiven,
    /// Judging the causes of lost intervals by the ends from before the crash, so that what rests on the
    /// lost work is offered again with the rest.
    EndsBeforeCrash,
    /// Offering the causes of lost and undone intervals again without looking whether they are
    /// condemned.
    CondemnedOffered,
    /// "A machine that refuses all."
    RefusesAll,
    /// "Or answers `done` to all."
    DoneToAll,
    /// "Or writes no word"; its answers are right for the table it was lent.
    WritesNoWord,
    /// "One that tracks vectors for the first step of a run and afterwards only echoes": after the
    /// first message a new interval takes over the receiver's own vector alone.
    EchoesAfterFirst,
    /// "One that invents lost."
    InventsLost,
    /// One that invents undone.
    InventsUndone,
    /// One that invents replayed.
    InventsReplayed,
    /// "One that says `waits` .. before looking."
    WaitsBeforeLooking,
    /// One that says `held` before looking, and so "holds for ever".
    HeldBeforeLooking,
    /// One that says `heard` before looking.
    HeardBeforeLooking,
    /// One that "never hears".
    NeverHears,
    /// Letting a message out to the desk by its sender's degree, as any other.
    PublishedByTheDegree,
    /// Publishing without an entry in the ledger.
    PublishedWithoutEntry,
    /// Appending an entry for a message to the desk that stays held.
    LedgerWrittenOnHeld,
    /// Opening without clearing the ledger.
    LedgerNotCleared,
    /// Writing the payload of an entry before the message number.
    EntryOutOfOrder,
    /// Looking whether the ledger is full before looking at the mask.
    FullBeforeHeld,
    /// Taking a table for in form that has a published message for a controller.
    PublishedElsewhereInForm,
    /// Changing messages for the desk as causes, like any others.
    DeskChangedAsCause,
    /// Looking at the ledger only if the message to be released is for the desk.
    FourteenOnlyForTheDesk,
    /// Looking at the ledger at every step.
    LedgerLookedAtByAll,
    /// Looking at the numbers of an opening before the ledger.
    DegreeBeforeLedger,
    /// Counting what a hearing replays from a checkpoint in the condemned place itself, if it has one.
    FigureOfThePlaceItself,
    /// Counting it from the first place's checkpoint, whatever is flagged after it.
    FigureNotRaised,
    /// Counting it from the checkpoints above the first place alone, and from 0 where there is none.
    FirstPlaceLeftOut,
    /// Looking for the lowest condemned place from place 2 on.
    CondemnedPlacePassedOver,
    /// Flagging an interval that the gap asks a checkpoint of, and logging nothing.
    FlaggedWithoutLogging,
    /// Logging only what stands before it, and not that interval itself.
    LoggedOnlyBefore,
    /// Logging in the stable count alone, and not in the known word.
    ForcedNotKnown,
    /// Asking no checkpoint of the start after a crash.
    CrashStartNotCounted,
    /// Asking none of the start after a rollback.
    RollbackStartNotCounted,
    /// Asking one only of intervals that stand more than the gap above the latest flagged one.
    MoreThanTheGap,
    /// Taking a gap of 0 for the narrowest one instead of none.
    ForcedWhenOff,
    /// Measuring from the latest flagged interval that is stable.
    StableFlagsOnly,
    /// Measuring a start from the latest flagged interval of the chain as it was, also from one that was
    /// just taken off it.
    RemovedFlagsCounted,
    /// Taking a gap of 65.
    GapOf65Taken,
    /// Taking a table with a gap of 65 for in form.
    GapOf65InForm,
    /// Taking no table with a gap for in form.
    GapOutOfForm,
    /// Opening without clearing the gap.
    GapNotCleared,
    /// Holding each mask of a set against the degree by itself, and not their union.
    EachMaskByItself,
    /// Taking the largest of the masks for the union.
    LargestMaskForTheUnion,
    /// Joining the masks of stored pairs in a set instead of filtered ones.
    StoredPairsJoined,
    /// Letting a set with a message for the desk out by the degree, as any other.
    SetByTheDegree,
    /// Taking a set that names a message twice.
    DoubledTaken,
    /// Taking a set of 17.
    SeventeenTaken,
    /// Taking a set of none.
    NoneTaken,
    /// Taking a set of several senders.
    SendersTaken,
    /// Looking whether all messages of a set are there after looking at its length.
    LengthBeforeMessages,
    /// Looking at the senders of a set before looking whether all its messages are held.
    SendersBeforeStates,
    /// Letting out only the first message of a set that goes.
    FirstLetOut,
    /// Letting out those messages of a set that stays held which could go by themselves.
    ThoseWithinLetOut,
    /// Letting all messages of a set out with the first one's vector.
    OneVectorForAll,
    /// Publishing the messages of a set in the order of the table.
    PublishedInTableOrder,
    /// Looking for room in the ledger for the first message of a set alone.
    RoomForTheFirst,
    /// Looking for room for a set before looking at the union.
    SetFullBeforeHeld,
    /// Looking at the ledger only if a message of the set is for the desk.
    SetLedgerOnlyForTheDesk,
    /// Naming the highest controller whose pair condemns a message that is dropped.
    HighestBlamed,
    /// Naming, of that controller, the incarnation that it is in by now.
    NewestIncarnationBlamed,
    /// Naming the newest of its crashes that the receiver has heard.
    NewestCrashBlamed,
    /// Naming the lowest controller whose own end row condemns its pair, whatever the receiver has heard.
    OwnEndsBlamed,
    /// Naming the hearer for a rollback, and not who crashed.
    HearerBlamed,
    /// Dispatching from the controller last served on, and not from the one after it.
    RoundFromTheServed,
    /// Dispatching from controller 0 on, whoever was served last.
    RoundFromZero,
    /// Taking n off the controllers of a round once, and not as often as needed.
    LessNOnce,
    /// Dispatching the highest number of the messages for a controller.
    HighestNumberTaken,
    /// Dispatching the lowest number of the messages for all controllers.
    LowestOfAll,
    /// Choosing a message that would get 12, so that the dispatcher is refused again and again.
    FullReceiverChosen,
    /// Choosing a message that waits.
    WaitingTaken,
    /// Ending the round with the first controller that has a released message, be it one that waits.
    WaitingEndsTheRound,
    /// Passing over messages that would be dropped.
    DroppedPassedOver,
    /// One that says `idle` before looking.
    IdleBeforeLooking,
    /// Going on to the next controller when the dispatcher says idle.
    IdleWrites,
    /// Not writing down who was served.
    ServedNotWritten,
    /// Not writing it down where the message was dropped.
    DroppedNotServed,
    /// Writing it down at every delivery, and not only at those by the dispatcher.
    DeliveryServes,
    /// Opening with controller 0 as the one last served.
    ServedNotOpened,
    /// Taking a table with 8 as the controller last served for in form.
    Served8InForm,
    /// Taking no table for in form whose controller last served isn't below n.
    ServedBelowNInForm,
}

impl Fault {
    /// Every planted fault.
    pub const PLANTED: [Fault; 88] = [
        Fault::LargerAcrossIncarnations,
        Fault::NumbersWithoutIncarnations,
        Fault::StoredPairsCounted,
        Fault::EndWordOnRollback,
        Fault::KeptNotLogged,
        Fault::KnownNotRaised,
        Fault::HeldKept,
        Fault::LostGiven,
        Fault::EndsBeforeCrash,
        Fault::CondemnedOffered,
        Fault::RefusesAll,
        Fault::DoneToAll,
        Fault::WritesNoWord,
        Fault::EchoesAfterFirst,
        Fault::InventsLost,
        Fault::InventsUndone,
        Fault::InventsReplayed,
        Fault::WaitsBeforeLooking,
        Fault::HeldBeforeLooking,
        Fault::HeardBeforeLooking,
        Fault::NeverHears,
        Fault::PublishedByTheDegree,
        Fault::PublishedWithoutEntry,
        Fault::LedgerWrittenOnHeld,
        Fault::LedgerNotCleared,
        Fault::EntryOutOfOrder,
        Fault::FullBeforeHeld,
        Fault::PublishedElsewhereInForm,
        Fault::DeskChangedAsCause,
        Fault::FourteenOnlyForTheDesk,
        Fault::LedgerLookedAtByAll,
        Fault::DegreeBeforeLedger,
        Fault::FigureOfThePlaceItself,
        Fault::FigureNotRaised,
        Fault::FirstPlaceLeftOut,
        Fault::CondemnedPlacePassedOver,
        Fault::FlaggedWithoutLogging,
        Fault::LoggedOnlyBefore,
        Fault::ForcedNotKnown,
        Fault::CrashStartNotCounted,
        Fault::RollbackStartNotCounted,
        Fault::MoreThanTheGap,
        Fault::ForcedWhenOff,
        Fault::StableFlagsOnly,
        Fault::RemovedFlagsCounted,
        Fault::GapOf65Taken,
        Fault::GapOf65InForm,
        Fault::GapOutOfForm,
        Fault::GapNotCleared,
        Fault::EachMaskByItself,
        Fault::LargestMaskForTheUnion,
        Fault::StoredPairsJoined,
        Fault::SetByTheDegree,
        Fault::DoubledTaken,
        Fault::SeventeenTaken,
        Fault::NoneTaken,
        Fault::SendersTaken,
        Fault::LengthBeforeMessages,
        Fault::SendersBeforeStates,
        Fault::FirstLetOut,
        Fault::ThoseWithinLetOut,
        Fault::OneVectorForAll,
        Fault::PublishedInTableOrder,
        Fault::RoomForTheFirst,
        Fault::SetFullBeforeHeld,
        Fault::SetLedgerOnlyForTheDesk,
        Fault::HighestBlamed,
        Fault::NewestIncarnationBlamed,
        Fault::NewestCrashBlamed,
        Fault::OwnEndsBlamed,
        Fault::HearerBlamed,
        Fault::RoundFromTheServed,
        Fault::RoundFromZero,
        Fault::LessNOnce,
        Fault::HighestNumberTaken,
        Fault::LowestOfAll,
        Fault::FullReceiverChosen,
        Fault::WaitingTaken,
        Fault::WaitingEndsTheRound,
        Fault::DroppedPassedOver,
        Fault::IdleBeforeLooking,
        Fault::IdleWrites,
        Fault::ServedNotWritten,
        Fault::DroppedNotServed,
        Fault::DeliveryServes,
        Fault::ServedNotOpened,
        Fault::Served8InForm,
        Fault::ServedBelowNInForm,
    ];
}
