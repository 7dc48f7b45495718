//! A release, of a set too, or a delivery that is to be tried, and in words what was done for it and what came of it.

use super::claims::Standing;
use super::{refused, Aim, Broken, House};
use reference::lines;
use reference::machine::{Answer, Command, Messages};
use reference::refusal::{self, Refusal};

/// What is tried, of which message or messages.
#[derive(Clone, Copy, Debug)]
pub enum Trial {
    Release(u32),
    Delivery(u32),
    Set(Messages),
}

impl Trial {
    /// What is still to come for a message or a set, after a step and its answer.
    pub fn after(command: Command, answer: Answer) -> Option<Self> {
        match (command, answer) {
            (Command::ReleaseSet { messages }, Answer::SetHeld { .. }) => {
                Some(Trial::Set(messages))
            }
            (_, Answer::Held { message, .. }) => Some(Trial::Release(message)),
            (_, Answer::Released { message, .. } | Answer::Waits { message }) => {
                Some(Trial::Delivery(message))
            }
            _ => None,
        }
    }

    /// What a controller can try of a message: to release it as its sender, to be delivered it if it was let out.
    pub fn by(house: &House, holder: u32, message: u32) -> Option<Self> {
        let sent = &house.history.messages()[&message];
        if house.sender(sent) == holder {
            return Some(Trial::Release(message));
        }
        let for_holder = sent.receiver == holder && house.is_let_out(message);
        for_holder.then_some(Trial::Delivery(message))
    }

    fn messages(self) -> Messages {
        match self {
            Trial::Release(message) | Trial::Delivery(message) => Messages::of(&[message]),
            Trial::Set(messages) => messages,
        }
    }

    fn command(self) -> Command {
        match self {
            Trial::Release(message) => Command::Release { message },
            Trial::Delivery(message) => Command::Deliver { message },
            Trial::Set(messages) => Command::ReleaseSet { messages },
        }
    }

    /// Whether it is to publish something.
    fn is_for_desk(self, house: &House) -> bool {
        let mut messages = self.messages().to_vec().into_iter();
        messages.any(|message| house.is_for_desk(message))
    }

    /// Does it. If it is to publish, it is tried beside a full ledger, too.
    pub fn attempt(self, house: &mut House) -> Result<Answer, Broken> {
        if self.is_for_desk(house) {
            house.step_beside_any_ledger(self.command())
        } else {
            house.step(self.command())
        }
    }

    /// Those whom the release named are asked for the sender or the receiver, since the newest of the sending intervals
    /// began. The desk asks nobody.
    pub fn aim(self, house: &House) -> Option<Aim> {
        let standing = self.standing(house).ok()?;
        let messages = self.messages();
        let sent = messages.iter().map(|m| &house.history.messages()[m]);
        let latest = sent.max_by_key(|sent| sent.sending_interval)?;
        let holder = match self {
            Trial::Release(_) | Trial::Set(_) => house.sender(latest),
            Trial::Delivery(_) => latest.receiver,
        };
        Some(Aim {
            holder,
            mask: standing.named,
            since: latest.sending_interval,
            messages,
            all_but_k: false,
        })
    }

    fn standing(self, house: &House) -> Result<Standing, Refusal> {
        match self {
            Trial::Release(message) => Ok(house.held(message)?.0),
            Trial::Delivery(message) => Ok(house.released(message)?.0),
            Trial::Set(messages) => house.held_set(&messages),
        }
    }

    /// Of what kind it is, and what was done for it.
    pub fn case(self, house: &House) -> String {
        let kind = match self {
            Trial::Delivery(_) => "delivery",
            Trial::Release(_) if self.is_for_desk(house) => "publishing",
            Trial::Release(_) => "release",
            Trial::Set(_) if self.is_for_desk(house) => "set with a reading",
            Trial::Set(_) => "set",
        };
        let let_out = |message: &u32| house.is_let_out(*message);
        let done = match self.standing(house) {
            Err(_) if self.messages().iter().any(let_out) => "let out",
            Err(_) => "gone",
            Ok(standing) => standing.done(),
        };
        format!("{kind}, {done}")
    }
}

/// What an answer says: its first word; whom a release names, if nobody; the number of a refusal. A delivery begins an
/// interval, or would if there were a place.
pub fn named(answer: Answer) -> String {
    let line = lines::render(&answer);
    match (answer, line.split_once(' ')) {
        (Answer::Released { mask: 0, .. } | Answer::SetReleased { mask: 0 }, _) => {
            "released 0".to_owned()
        }
        (Answer::SetReleased { .. }, _) => "released".to_owned(),
        (Answer::SetHeld { .. }, _) => "held".to_owned(),
        (Answer::Delivered { .. }, _) => "begins".to_owned(),
        _ if answer == refused(refusal::PLACES_USED_UP) => "begins".to_owned(),
        (Answer::Refused { .. }, _) | (_, None) => line,
        (_, Some((word, _))) => word.to_owned(),
    }
}
