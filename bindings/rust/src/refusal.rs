//! The refusals, one more kind of answer in the C interface.

use std::error::Error;
use std::fmt::{self, Display, Formatter};

/// Why a step is refused, by the names of the header. Where several apply, the one that stands first in
/// [`ALL`](Refusal::ALL) is given; a refused step changes no word of the table or of the ledger.
#[derive(Clone, Copy, Debug, PartialEq, Eq, PartialOrd, Ord, Hash)]
#[repr(u32)]
pub enum Refusal {
    /// The table hasn't [`TABLE_WORDS`](crate::TABLE_WORDS) words.
    Length = 1,
    /// The table is not in form. An opening doesn't look at that.
    Form = 2,
    /// The ledger of an opening or a release hasn't [`LEDGER_WORDS`](crate::LEDGER_WORDS) words; that
    /// of a release, of a set too, has a count above 128, or a word past its last pair that is not 0.
    Ledger = 14,
    /// A controller is not below the number of controllers. A receiver may also be the
    /// [`DESK`](crate::DESK).
    Controller = 3,
    /// The message number, or one of a set, is 0 or above the messages sent.
    Message = 4,
    /// The controllers aren't 1 to 8, a degree is above their number, or a gap is above 64.
    Degree = 5,
    /// The two controllers of a sending or a telling are equal; a set has no messages or more than
    /// [`SET_MOST`](crate::SET_MOST), or names one twice.
    SameController = 6,
    /// The message to release is not held, or that to deliver not released; one to the desk is never
    /// delivered. One message of a set is not held.
    State = 7,
    /// The messages of a set have more than one sender.
    Senders = 15,
    /// The count is 0, or above the live intervals that are not stable.
    LogCount = 8,
    /// No crash of that controller ended that incarnation.
    NoSuchCrash = 9,
    /// The hearer has heard of that crash. A controller has heard its own.
    AlreadyHeard = 10,
    /// 128 messages were sent since the opening.
    MessagesUsedUp = 11,
    /// A delivery at a controller with 64 live intervals, or a crash of one with 64 stable ones.
    PlacesUsedUp = 12,
    /// A crash, or a hearing that must undo, in incarnation 15.
    IncarnationsUsedUp = 13,
    /// A release that would publish, with all 128 pairs of the ledger used; of a set, with too few left for
    /// all its messages to the desk. Steps after an opening never come to it: messages are as few.
    LedgerUsedUp = 18,
}

impl Refusal {
    /// All of them, in the order in which they are given where several apply: that of their numbers,
    /// but for the first of the two that concern the ledger, and for [`Senders`](Refusal::Senders).
    pub const ALL: [Refusal; 16] = [
        Refusal::Length,
        Refusal::Form,
        Refusal::Ledger,
        Refusal::Controller,
        Refusal::Message,
        Refusal::Degree,
        Refusal::SameController,
        Refusal::State,
        Refusal::Senders,
        Refusal::LogCount,
        Refusal::NoSuchCrash,
        Refusal::AlreadyHeard,
        Refusal::MessagesUsedUp,
        Refusal::PlacesUsedUp,
        Refusal::IncarnationsUsedUp,
        Refusal::LedgerUsedUp,
    ];

    /// Its number.
    pub fn number(self) -> u32 {
        self as u32
    }

    /// The refusal of this number, if there is one.
    pub fn from_number(number: u32) -> Option<Refusal> {
        Refusal::ALL
            .into_iter()
            .find(|refusal| refusal.number() == number)
    }
}

impl Display for Refusal {
    fn fmt(&self, f: &mut Formatter<'_>) -> fmt::Result {
        f.write_str(match self {
            Refusal::Length => "the table has another length",
            Refusal::Form => "the table is not in form",
            Refusal::Ledger => "the ledger has another length or is not in order",
            Refusal::Controller => "no such controller",
            Refusal::Message => "no such message",
            Refusal::Degree => {
                "not 1 to 8 controllers, a degree above their number, or a gap above 64"
            }
            Refusal::SameController => {
                "the two controllers are equal, or a set has none, too many or one twice"
            }
            Refusal::State => "the message is not held, or not released",
            Refusal::Senders => "the messages have more than one sender",
            Refusal::LogCount => "not so many intervals to log, or none asked for",
            Refusal::NoSuchCrash => "no crash ended that incarnation",
            Refusal::AlreadyHeard => "that crash has been heard of",
            Refusal::MessagesUsedUp => "the messages are used up",
            Refusal::PlacesUsedUp => "the places are used up",
            Refusal::IncarnationsUsedUp => "the incarnations are used up",
            Refusal::LedgerUsedUp => "the ledger is used up",
        })
    }
}

impl Error for Refusal {}
