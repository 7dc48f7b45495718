//! Single steps that are timed, each in a copy of a house that has many live intervals, the release of many messages at
//! once or one by one, and calls of the dispatcher.

use compare::agreement::{on_lent, Lent};
use compare::proved;
use goulvizad::SET_MOST;
use reference::lines;
use reference::machine::{self, Answer, Command, Messages};
use reference::table::{DESK, LAST_MESSAGE, LAST_NUMBER};
use std::hint::black_box;
use std::io::{self, ErrorKind};
use std::time::{Duration, Instant};

use crate::mixes::{led_to, passed};
use crate::{medians, row, Machine};

/// The steps in a round.
const TIMES: usize = 3_000;

/// A step, or some that belong together, and the house that it is done in.
pub struct Single {
    name: &'static str,
    house: Lent,
    commands: Vec<Command>,
    /// The line of its answer, or of the last one's.
    answer: &'static str,
}

/// Hearings of controller 0 in the house that [`crowded`] leads to.
pub fn hearings() -> [Single; 3] {
    let house = led_to(&crowded());
    [
        ("nothing to undo", 1, "heard 0"),
        ("all above place 0 to undo", 2, "rolled 0 1 63 0 2 0"),
        ("the newest to undo", 3, "rolled 0 63 1 62 3 0"),
    ]
    .map(|(name, crashed, answer)| Single {
        name,
        house: house.clone(),
        commands: vec![Command::Hear {
            hearer: 0,
            crashed,
            incarnation: 0,
        }],
        answer,
    })
}

/// Steps to a house of eight where controller 0 has 64 live intervals and no checkpoint but that of place
/// 0, and 1, 2 and 3 have crashed. Of work that was lost, all its places above 0 rest on 2's, its newest
/// one on 3's, and none on 1's.
fn crowded() -> Vec<Command> {
    let mut steps = vec![Command::Open { n: 8, degree: 8 }];
    // A delivery that isn't logged gives 2 and 3 something to lose.
    let senders = [(4, 2), (2, 0)].into_iter();
    let senders = senders.chain((0..61).map(|sender| (4 + sender % 4, 0)));
    let senders = senders.chain([(4, 3), (3, 0)]);
    for (message, (sender, receiver)) in (1..).zip(senders) {
        steps.extend(passed(message, sender, receiver));
    }
    steps.extend([1, 2, 3].map(|controller| Command::Crash { controller }));
    steps
}

/// Deliveries and crashes of controller 0, whose number 64 begins 63 above its only checkpoint, without a
/// gap and on both sides of one; and a gap that is set.
pub fn by_the_gap() -> [Single; 7] {
    let last = LAST_NUMBER - 1;
    let deliver = Command::Deliver { message: last };
    let crash = Command::Crash { controller: 0 };
    let set = Command::SetGap { gap: 3 };
    let (delivered, crashed) = ("delivered 63 0 64", "crashed 0 0 63 0 62");
    [
        ("a delivery without a gap", 0, deliver, delivered),
        ("a delivery one below the gap", last + 1, deliver, delivered),
        ("a delivery at the gap", last, deliver, delivered),
        ("a crash without a gap", 0, crash, crashed),
        (
            "a crash, its start one below the gap",
            last + 1,
            crash,
            crashed,
        ),
        ("a crash, its start at the gap", last, crash, crashed),
        ("a gap set", 0, set, "done"),
    ]
    .map(|(name, gap, command, answer)| Single {
        name,
        house: led_to(&long(gap, command == crash)),
        commands: vec![command],
        answer,
    })
}

/// Steps to a house of eight where controller 0 has 63 live intervals, stable or not, no checkpoint but
/// that of place 0, and another message to take; then the gap is set.
fn long(gap: u32, stable: bool) -> Vec<Command> {
    let mut steps = vec![Command::Open { n: 8, degree: 8 }];
    for message in 1..LAST_NUMBER {
        steps.extend(passed(message, 1 + message % 7, 0));
    }
    steps.pop();
    if stable {
        steps.push(Command::Log {
            controller: 0,
            count: LAST_NUMBER - 2,
        });
    }
    steps.push(Command::SetGap { gap });
    steps
}

/// The messages by which the house of a [`reel`] comes to its work.
const BROUGHT: u32 = 14;

/// Sets of 16 in the house of a [`reel`], and their releases one by one.
pub fn sets() -> [Single; 6] {
    let [held, stable] = [false, true].map(|stable| led_to(&reel(stable)));
    let [inside, readings] = [1, 2].map(|first| {
        let messages: Vec<u32> = (BROUGHT + first..).step_by(2).take(SET_MOST).collect();
        messages
    });
    let at_once = |messages: &[u32]| {
        let messages = Messages::of(messages);
        vec![Command::ReleaseSet { messages }]
    };
    let one_by_one = |messages: &[u32]| {
        let releases = messages.iter().map(|&message| Command::Release { message });
        releases.collect::<Vec<Command>>()
    };
    let single = |name, house: &Lent, commands, answer| Single {
        name,
        house: house.clone(),
        commands,
        answer,
    };
    [
        single(
            "a set of 16 held",
            &held,
            at_once(&readings),
            "set_held 255",
        ),
        single(
            "16 releases held",
            &held,
            one_by_one(&readings),
            "held 46 255",
        ),
        single(
            "a set of 16 released",
            &held,
            at_once(&inside),
            "set_released 255",
        ),
        single(
            "16 releases let out",
            &held,
            one_by_one(&inside),
            "released 45 255",
        ),
        single(
            "a set of 16 published",
            &stable,
            at_once(&readings),
            "set_released 0",
        ),
        single(
            "16 releases published",
            &stable,
            one_by_one(&readings),
            "released 46 0",
        ),
    ]
}

/// Steps to a house of eight with degree 8, in which 0 works on from what all others have sent it, and has sent all
/// messages that are left to 1 and to the desk in turn. The work of all is stable and told to 0, or that of none.
fn reel(stable: bool) -> Vec<Command> {
    let mut steps = vec![Command::Open { n: 8, degree: 8 }];
    for c in 1..8 {
        // A delivery that isn't logged gives the sender something to lose.
        steps.extend(passed(2 * c - 1, c % 7 + 1, c));
        steps.extend(passed(2 * c, c, 0));
    }
    if stable {
        steps.extend((0..8).map(|controller| Command::Checkpoint { controller }));
        steps.extend((1..8).map(|owner| Command::Tell { owner, holder: 0 }));
    }
    let sent = BROUGHT + 1..=LAST_MESSAGE;
    steps.extend(sent.map(|message| Command::Send {
        sender: 0,
        receiver: [DESK, 1][message as usize % 2],
        payload: message,
    }));
    steps
}

/// The messages by which the house of [`parted`] comes to its work, one of which is delivered anew.
const PARTED_BY: u32 = 8;

/// Calls of the dispatcher in the houses of [`parted`]: with one message that can go, for the last controller of the
/// round; where all wait; and where none is released.
pub fn calls() -> [Single; 3] {
    let last = LAST_MESSAGE;
    [
        (
            "the last of the round served, 119 passed over",
            parted(last - 1, [true, true]),
            "delivered 128 0 3",
        ),
        ("idle, 120 wait", parted(last, [true, false]), "idle"),
        ("idle, none released", parted(last, [false, false]), "idle"),
    ]
    .map(|(name, steps, answer)| Single {
        name,
        house: led_to(&steps),
        commands: vec![Command::Dispatch],
        answer,
    })
}

/// Steps to a house of eight with all its messages sent. All controllers but 0 rest on work that 0 has lost, and have
/// not heard of it, so that what 0 has sent them since, up to this message, waits if it is released. One message
/// more, from 1 to 7, needn't wait.
fn parted(waiting: u32, [released, one_more]: [bool; 2]) -> Vec<Command> {
    let mut steps = vec![Command::Open { n: 8, degree: 8 }];
    steps.extend(passed(1, 1, 0));
    steps.extend((1..8).flat_map(|c| passed(1 + c, 0, c)));
    steps.extend([
        Command::Crash { controller: 0 },
        Command::Deliver { message: 1 },
    ]);
    for message in PARTED_BY + 1..=waiting {
        let sent = passed(message, 0, 1 + message % 7);
        steps.extend(&sent[..1 + usize::from(released)]);
    }
    if one_more {
        steps.extend(&passed(waiting + 1, 1, 7)[..2]);
    }
    steps
}

impl Single {
    /// Prints its times by both machines.
    ///
    /// # Panics
    /// If they differ, or answer something else: there is nothing to be timed then.
    pub fn time(&self) {
        let Single { name, answer, .. } = self;
        let (mut house, mut last) = (self.house.clone(), Answer::Done);
        for &command in &self.commands {
            let agreed = on_lent(&house, command);
            (last, house) = agreed.unwrap_or_else(|difference| panic!("{name}: {difference:?}"));
        }
        assert_eq!(lines::render(&last), *answer, "{name}");
        let times = medians(|| self.play(proved::step), || self.play(machine::step));
        row(name, TIMES, times);
    }

    /// The time of a round with a machine, each time in a copy of the house. Only the steps are timed.
    fn play(&self, machine: Machine) -> Duration {
        let step = |_| {
            let Lent {
                mut table,
                mut ledger,
            } = self.house.clone();
            let start = Instant::now();
            for &command in &self.commands {
                black_box(machine(&mut table, &mut ledger, black_box(command)));
            }
            start.elapsed()
        };
        (0..TIMES).map(step).sum()
    }
}

/// Does what has this name so many times with the proved machine, each in a copy of its house.
pub fn repeat(name: &str, times: &str) -> io::Result<()> {
    let singles = hearings().into_iter().chain(by_the_gap());
    let mut singles = singles.chain(sets()).chain(calls());
    let single = singles.find(|single| single.name == name);
    let single = single.ok_or(ErrorKind::InvalidInput)?;
    let times: usize = times.parse().map_err(io::Error::other)?;
    for _ in 0..times {
        let mut house = single.house.clone();
        for &command in &single.commands {
            black_box(house.step(command));
        }
    }
    Ok(())
}
