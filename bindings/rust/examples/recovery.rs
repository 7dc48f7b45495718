//! A crash in a library of four controllers, what follows from it, readings that go out to be cited, two that
//! leave together, a ceiling on replay, a list of steps in one call, and messages that are handed out until none
//! is left, told in words: `examples/recovery.c` in Rust. There a caller can also ask for what is no step; here
//! it can't.
//!
//!     tools/build
//!     cargo run --example recovery

use goulvizad::{Answer, Citation, Mask, Refusal, Step, Table, DESK};

const ARM: u32 = 0;
const DRIVE: u32 = 1;
const CATALOGUE: u32 = 2;
const BENCH: u32 = 3;
const NAMES: [&str; 4] = ["arm", "drive", "catalogue", "bench"];

/// The name of a controller, or of the desk.
fn name(receiver: u32) -> &'static str {
    if receiver == DESK {
        return "desk";
    }
    NAMES.get(receiver as usize).unwrap_or(&"unknown")
}

/// The controllers that a mask names.
fn named(mask: Mask) -> String {
    let names: Vec<&str> = mask.controllers().map(name).collect();
    if names.is_empty() {
        "nobody".to_owned()
    } else {
        names.join(", ")
    }
}

fn told(answer: Answer) -> String {
    match answer {
        Answer::Done => "done".to_owned(),
        Answer::Sent { message } => format!("message {message} is sent"),
        Answer::Released { message, mask } => {
            let names = named(mask);
            format!("message {message} is released, and could be revoked by {names}")
        }
        Answer::Held { message, mask } => {
            let names = named(mask);
            format!("message {message} is held: it could be revoked by {names}")
        }
        Answer::Delivered {
            message,
            incarnation,
            number,
        } => format!(
            "message {message} is delivered and begins interval {number} \
             of incarnation {incarnation}"
        ),
        Answer::Dropped {
            message,
            crashed,
            incarnation,
        } => format!(
            "message {message} is dropped: it rests on work lost in the crash that ended \
             incarnation {incarnation} of {}",
            name(crashed)
        ),
        Answer::Waits { message } => {
            format!("message {message} waits: its receiver has more to hear or to be told first")
        }
        Answer::Crashed {
            controller,
            incarnation,
            kept,
            lost,
            replayed,
        } => format!(
            "{} ends incarnation {incarnation}; \
             intervals kept up to {kept}, {lost} lost, {replayed} replayed",
            name(controller)
        ),
        Answer::Heard { hearer } => format!("{} has nothing to undo", name(hearer)),
        Answer::Rolled {
            hearer,
            kept,
            undone,
            replayed,
            crashed,
            incarnation,
        } => format!(
            "{} rolls back; intervals kept up to {kept}, {undone} undone, {replayed} replayed, \
             for the crash that ended incarnation {incarnation} of {}",
            name(hearer),
            name(crashed)
        ),
        Answer::SetReleased { mask } => {
            let names = named(mask);
            format!("all are released, and could be revoked by {names}")
        }
        Answer::SetHeld { mask } => {
            let names = named(mask);
            format!("all are held: they could be revoked by {names}")
        }
        Answer::Idle => "no message is left that could go".to_owned(),
    }
}

/// A house, and the words in which its steps are told.
#[derive(Default)]
struct Story {
    table: Table,
    text: String,
}

type Told = Result<Answer, Refusal>;

impl Story {
    /// Does a step and says what came of it.
    fn step(&mut self, what: &str, step: Step) -> Told {
        let answer = self.table.step(step);
        self.say(what, answer)
    }

    /// Releases a set of two messages, and says what came of it.
    fn release_set(&mut self, messages: [u32; 2]) -> Told {
        let answer = self.table.release_set(&messages);
        let [first, second] = messages;
        self.say(&format!("release {first} and {second} together"), answer)
    }

    /// Sets the gap of the house, and says what came of it.
    fn set_gap(&mut self, gap: u32) -> Told {
        let answer = self.table.set_gap(gap).map(|()| Answer::Done);
        self.say(&format!("set a gap of {gap}"), answer)
    }

    /// Asks whether a controller is at a checkpoint. One that the gap forces shows in no answer to a step.
    fn ask(&mut self, controller: u32) {
        let due = self.table.is_checkpoint(controller);
        let told = if due {
            "yes, it has to be written"
        } else {
            "no"
        };
        self.text += &format!("is {} at a checkpoint: {told}\n", name(controller));
    }

    /// Hands out what is on its way, message by message, until none is left that could go.
    fn hand_out(&mut self) -> Result<(), Refusal> {
        loop {
            let answer = self.table.dispatch();
            match self.say("hand out the next", answer)? {
                Answer::Delivered { .. } => self.ask(self.table.served()),
                Answer::Idle => return Ok(()),
                _ => {}
            }
        }
    }

    fn say(&mut self, what: &str, answer: Told) -> Told {
        let told = answer.map_or_else(
            |refusal| format!("refused {}, {refusal}", refusal.number()),
            told,
        );
        self.text += &format!("{what}: {told}\n");
        answer
    }

    fn send(&mut self, sender: u32, receiver: u32, payload: u32) -> Told {
        let what = format!("{} sends {payload} to {}", name(sender), name(receiver));
        self.step(
            &what,
            Step::Send {
                sender,
                receiver,
                payload,
            },
        )
    }

    fn release(&mut self, message: u32) -> Told {
        self.step(&format!("release {message}"), Step::Release { message })
    }

    fn deliver(&mut self, message: u32) -> Told {
        self.step(&format!("deliver {message}"), Step::Deliver { message })
    }

    fn log(&mut self, controller: u32, count: u32) -> Told {
        let what = format!("{} logs {count}", name(controller));
        self.step(&what, Step::Log { controller, count })
    }

    fn crash(&mut self, controller: u32) -> Told {
        let what = format!("{} crashes", name(controller));
        self.step(&what, Step::Crash { controller })
    }

    /// The controller hears of the drive's first crash.
    fn hear(&mut self, hearer: u32) -> Told {
        let what = format!("{} hears of drive", name(hearer));
        let (crashed, incarnation) = (DRIVE, 0);
        self.step(
            &what,
            Step::Hear {
                hearer,
                crashed,
                incarnation,
            },
        )
    }
}

/// The drive works on from two messages that it hasn't written to stable storage.
fn work(story: &mut Story) -> Result<(), Refusal> {
    story.send(ARM, DRIVE, 7)?;
    story.release(1)?;
    story.deliver(1)?;
    story.send(ARM, DRIVE, 8)?;
    story.release(2)?;
    story.deliver(2)?;

    // What it sends rests on that work, and its releases say so. Message 4 is long on its way.
    story.send(DRIVE, CATALOGUE, 9)?;
    story.release(3)?;
    story.deliver(3)?;
    story.send(DRIVE, BENCH, 4)?;
    story.release(4)?;

    // Two could revoke message 5, and the degree is 1: one of them has to write its work first.
    story.send(CATALOGUE, ARM, 5)?;
    if let Answer::Held { .. } = story.release(5)? {
        story.log(CATALOGUE, 1)?;
        story.release(5)?;
    }
    story.deliver(5)?;
    story.send(BENCH, DRIVE, 6)?;
    story.release(6)?;

    // The drive counts frames. A reading goes out of the house only when nobody could revoke it.
    story.send(DRIVE, DESK, 23)?;
    story.release(7)?;
    Ok(())
}

/// The drive crashes and works on, and the others hear of it one by one.
fn crash(story: &mut Story) -> Result<(), Refusal> {
    story.crash(DRIVE)?;

    // Its work is lost, and not the messages: it is offered them again, beside one on its way.
    story.deliver(1)?;
    story.deliver(2)?;
    story.deliver(6)?;
    story.send(DRIVE, ARM, 2)?;
    story.release(8)?;

    // The arm's work rests on the ended incarnation: it must hear of the crash first.
    if let Answer::Waits { .. } = story.deliver(8)? {
        story.hear(ARM)?;
        story.deliver(8)?;
    }

    // Whatever rests on lost work is undone or dropped, and nothing else.
    story.hear(CATALOGUE)?;
    story.hear(BENCH)?;
    story.hand_out()?;

    // A refused step changes nothing. The reading was dropped too: it never goes out.
    assert_eq!(story.hear(BENCH), Err(Refusal::AlreadyHeard));
    assert_eq!(story.release(7), Err(Refusal::State));
    Ok(())
}

/// The bench counts the frames again, from what the drive sends it.
fn publish(story: &mut Story) -> Result<(), Refusal> {
    story.send(DRIVE, BENCH, 3)?;
    story.release(9)?;
    story.deliver(9)?;
    story.send(BENCH, DESK, 24)?;

    // Both have to write their work, and the bench has to be told that the drive did.
    if let Answer::Held { .. } = story.release(10)? {
        story.log(BENCH, 1)?;
        story.log(DRIVE, 3)?;
        story.release(10)?;
        let (owner, holder) = (DRIVE, BENCH);
        story.step("drive tells bench", Step::Tell { owner, holder })?;
        story.release(10)?;
    }

    // What the drive reads from written work goes out at once, and no later crash takes it back.
    story.send(DRIVE, DESK, 18)?;
    story.release(11)?;
    story.crash(DRIVE)?;
    Ok(())
}

/// The bench reads both parts of a reel, one for the catalogue and one to be cited.
fn leave_together(story: &mut Story) -> Result<(), Refusal> {
    story.send(DRIVE, BENCH, 4)?;
    story.release(12)?;
    story.deliver(12)?;
    story.send(BENCH, CATALOGUE, 31)?;
    story.send(BENCH, DESK, 32)?;

    // The first could go by itself, as the degree is 1. With one for the desk all have to wait.
    if let Answer::SetHeld { .. } = story.release_set([13, 14])? {
        story.log(BENCH, 1)?;
        story.release_set([13, 14])?;
    }
    Ok(())
}

/// The drive's last crash replayed four intervals. A gap has the next one checkpointed as it begins.
fn bound_replay(story: &mut Story) -> Result<(), Refusal> {
    story.set_gap(2)?;
    story.send(BENCH, DRIVE, 5)?;
    story.release(15)?;
    story.ask(DRIVE);
    story.deliver(15)?;

    // It counts as stable from here on, so the drive has to write the checkpoint.
    story.ask(DRIVE);
    story.crash(DRIVE)?;
    story.ask(DRIVE);
    Ok(())
}

/// A message from its sending to its delivery in one call, which looks at the form of the table once.
fn pass_on(story: &mut Story) -> Result<(), Refusal> {
    let message = 16;
    let sending = Step::Send {
        sender: BENCH,
        receiver: DRIVE,
        payload: 6,
    };
    let steps = [
        ("bench sends 6 to drive", sending),
        ("release 16", Step::Release { message }),
        ("deliver 16", Step::Deliver { message }),
    ];
    let answers = story.table.run(&steps.map(|(_, step)| step));
    for ((what, _), answer) in steps.into_iter().zip(answers) {
        story.say(what, answer)?;
    }

    // Here the last step alone has begun an interval, so that one question tells of all.
    story.ask(DRIVE);
    Ok(())
}

/// Message 13 is still on its way to the catalogue. The drive gets two more, and takes only its turns.
fn take_turns(story: &mut Story) -> Result<(), Refusal> {
    story.send(BENCH, DRIVE, 10)?;
    story.release(17)?;
    story.send(BENCH, DRIVE, 11)?;
    story.release(18)?;
    story.hand_out()
}

/// The ledger for the printed filmography, in the order of publishing.
fn cite(story: &mut Story) {
    for Citation { message, payload } in story.table.citations() {
        story.text += &format!("cited from message {message}: {payload} frames\n");
    }
}

fn tell() -> Result<String, Refusal> {
    let mut story = Story::default();
    let open = Step::Open { n: 4, degree: 1 };
    story.step("open a house of four, degree 1", open)?;
    work(&mut story)?;
    crash(&mut story)?;
    publish(&mut story)?;
    leave_together(&mut story)?;
    bound_replay(&mut story)?;
    pass_on(&mut story)?;
    take_turns(&mut story)?;
    cite(&mut story);
    Ok(story.text)
}

fn main() -> Result<(), Refusal> {
    print!("{}", tell()?);
    Ok(())
}

#[cfg(test)]
mod tests {
    /// After the story the C program makes two calls that are no steps.
    #[test]
    fn the_story_is_told_as_in_c() {
        let in_c = include_str!("../../../examples/recovery.out");
        let told = super::tell().expect("no refusal");
        let rest = in_c.strip_prefix(&told).expect("the same words");
        assert_eq!(rest.lines().count(), 2);
    }
}
