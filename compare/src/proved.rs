//! The proved machine, through its binding for Rust, in the terms of the reference. Steps, answers and
//! refusals are matched by name, so that a name with another meaning is a difference.

use goulvizad::{raw, Refusal, Step};
use reference::machine::{Answer, Command, Messages};
use reference::refusal;

/// Does one step on a lent table and a lent ledger of any length and content.
///
/// # Panics
/// If what comes back is no answer: a number that none has, or values that aren't zero after its own.
pub fn step(table: &mut [u32], ledger: &mut [u32], command: Command) -> Answer {
    told(match asked(command) {
        Call::Step(step) => goulvizad::step(table, ledger, step).map(answered),
        Call::SetGap(gap) => goulvizad::set_gap(table, gap).map(|()| Answer::Done),
        Call::ReleaseSet(messages) => {
            goulvizad::release_set(table, ledger, &messages).map(answered)
        }
        Call::Dispatch => goulvizad::dispatch(table).map(answered),
    })
}

/// Does a list of steps in one call. A step that has no letter has a call of its own, between two lists.
///
/// # Panics
/// As [`step`], and if a list is not done.
pub fn run(table: &mut [u32], ledger: &mut [u32], commands: &[Command]) -> Vec<Answer> {
    let (mut answers, mut steps) = (Vec::with_capacity(commands.len()), Vec::new());
    let listed = |table: &mut [u32], ledger: &mut [u32], steps: &mut Vec<Step>| {
        let ran = goulvizad::run(table, ledger, steps).into_iter();
        steps.clear();
        ran.map(|answer| told(answer.map(answered)))
    };
    for &command in commands {
        match asked(command) {
            Call::Step(step) => steps.push(step),
            Call::SetGap(_) | Call::ReleaseSet(_) | Call::Dispatch => {
                answers.extend(listed(table, ledger, &mut steps));
                answers.push(step(table, ledger, command));
            }
        }
    }
    answers.extend(listed(table, ledger, &mut steps));
    answers
}

/// Whether these words are a table in form, as the proved machine sees it.
///
/// # Panics
/// If what comes back is neither 0 nor 1.
pub fn in_form(table: &[u32]) -> bool {
    match raw::in_form(table) {
        0 => false,
        raw::FORMED => true,
        told => panic!("neither in form nor not: {told}"),
    }
}

/// Whether the newest live interval of a controller is a checkpoint, as the proved machine sees it.
///
/// # Panics
/// If what comes back is neither 0 nor 1.
pub fn is_checkpoint(table: &[u32], controller: u32) -> bool {
    match raw::is_checkpoint(table, controller) {
        0 => false,
        raw::CHECKPOINT => true,
        told => panic!("neither a checkpoint nor none: {told}"),
    }
}

/// A step, by the function that does it.
enum Call {
    /// One that has a letter.
    Step(Step),
    /// One that has none, and takes no ledger.
    SetGap(u32),
    /// One that has none either.
    ReleaseSet(Messages),
    /// The dispatcher, which takes no ledger either.
    Dispatch,
}

fn asked(command: Command) -> Call {
    let step = match command {
        Command::SetGap { gap } => return Call::SetGap(gap),
        Command::ReleaseSet { messages } => return Call::ReleaseSet(messages),
        Command::Dispatch => return Call::Dispatch,
        Command::Open { n, degree } => Step::Open { n, degree },
        Command::SetDegree { controller, degree } => Step::SetDegree { controller, degree },
        Command::Send {
            sender,
            receiver,
            payload,
        } => Step::Send {
            sender,
            receiver,
            payload,
        },
        Command::Release { message } => Step::Release { message },
        Command::Deliver { message } => Step::Deliver { message },
        Command::Log { controller, count } => Step::Log { controller, count },
        Command::Checkpoint { controller } => Step::Checkpoint { controller },
        Command::Tell { owner, holder } => Step::Tell { owner, holder },
        Command::Crash { controller } => Step::Crash { controller },
        Command::Hear {
            hearer,
            crashed,
            incarnation,
        } => Step::Hear {
            hearer,
            crashed,
            incarnation,
        },
    };
    Call::Step(step)
}

fn told(answer: Result<Answer, Refusal>) -> Answer {
    answer.unwrap_or_else(|refusal| Answer::Refused {
        number: number(refusal),
    })
}

fn answered(answer: goulvizad::Answer) -> Answer {
    use goulvizad::Answer as Proved;
    match answer {
        Proved::Done => Answer::Done,
        Proved::Sent { message } => Answer::Sent { message },
        Proved::Released { message, mask } => Answer::Released {
            message,
            mask: mask.bits(),
        },
        Proved::Held { message, mask } => Answer::Held {
            message,
            mask: mask.bits(),
        },
        Proved::Delivered {
            message,
            incarnation,
            number,
        } => Answer::Delivered {
            message,
            incarnation,
            number,
        },
        Proved::Dropped {
            message,
            crashed,
            incarnation,
        } => Answer::Dropped {
            message,
            crashed,
            incarnation,
        },
        Proved::Waits { message } => Answer::Waits { message },
        Proved::Crashed {
            controller,
            incarnation,
            kept,
            lost,
            replayed,
        } => Answer::Crashed {
            controller,
            incarnation,
            kept,
            lost,
            replayed,
        },
        Proved::Heard { hearer } => Answer::Heard { controller: hearer },
        Proved::Rolled {
            hearer,
            kept,
            undone,
            replayed,
            crashed,
            incarnation,
        } => Answer::Rolled {
            controller: hearer,
            kept,
            undone,
            replayed,
            crashed,
            incarnation,
        },
        Proved::SetReleased { mask } => Answer::SetReleased { mask: mask.bits() },
        Proved::SetHeld { mask } => Answer::SetHeld { mask: mask.bits() },
        Proved::Idle => Answer::Idle,
    }
}

fn number(refusal: Refusal) -> refusal::Refusal {
    match refusal {
        Refusal::Length => refusal::LENGTH,
        Refusal::Form => refusal::FORM,
        Refusal::Ledger => refusal::LEDGER,
        Refusal::Controller => refusal::CONTROLLER,
        Refusal::Message => refusal::MESSAGE,
        Refusal::Degree => refusal::DEGREE,
        Refusal::SameController => refusal::SAME_CONTROLLER,
        Refusal::State => refusal::STATE,
        Refusal::Senders => refusal::SENDERS,
        Refusal::LogCount => refusal::LOG_COUNT,
        Refusal::NoSuchCrash => refusal::NO_SUCH_CRASH,
        Refusal::AlreadyHeard => refusal::ALREADY_HEARD,
        Refusal::MessagesUsedUp => refusal::MESSAGES_USED_UP,
        Refusal::PlacesUsedUp => refusal::PLACES_USED_UP,
        Refusal::IncarnationsUsedUp => refusal::INCARNATIONS_USED_UP,
        Refusal::LedgerUsedUp => refusal::LEDGER_USED_UP,
    }
}
