//! Which answers a step can have.

use crate::machine::{Answer, Command};

/// Whether the answer is one that this step gives, and speaks of what the step named.
pub(super) fn fits(command: Command, answer: Answer) -> bool {
    match (command, answer) {
        (_, Answer::Refused { .. })
        | (
            Command::SetDegree { .. }
            | Command::Log { .. }
            | Command::Checkpoint { .. }
            | Command::Tell { .. }
            | Command::SetGap { .. },
            Answer::Done,
        )
        | (Command::Send { .. }, Answer::Sent { .. })
        | (Command::ReleaseSet { .. }, Answer::SetReleased { .. } | Answer::SetHeld { .. })
        | (Command::Dispatch, Answer::Delivered { .. } | Answer::Dropped { .. } | Answer::Idle) => {
            true
        }
        (
            Command::Release { message: named },
            Answer::Released { message, .. } | Answer::Held { message, .. },
        )
        | (
            Command::Deliver { message: named },
            Answer::Delivered { message, .. }
            | Answer::Dropped { message, .. }
            | Answer::Waits { message },
        ) => message == named,
        (Command::Crash { controller: named }, Answer::Crashed { controller, .. })
        | (
            Command::Hear { hearer: named, .. },
            Answer::Heard { controller } | Answer::Rolled { controller, .. },
        ) => controller == named,
        _ => false,
    }
}
