//! The scripts that are timed, step by step.

use compare::agreement::Lent;
use reference::generate::{senseless, Profile, Random, Walk};
use reference::machine::{self, Command};
use reference::table::{self, Table, DESK, LAST_MESSAGE};
use reference::{ledger, lines};
use std::hint::black_box;
use std::time::{Duration, Instant};

use crate::Machine;

/// The steps of a script.
const STEPS: usize = 6_000;

/// A script in two parts: steps that lead to a house, and the steps that are timed.
pub struct Mix {
    /// What they are like.
    pub name: &'static str,
    opening: Vec<Command>,
    steps: Vec<Command>,
}

/// Many short lists in houses of two to four controllers.
pub fn small() -> Mix {
    let lists = (0..).flat_map(|seed| Walk::new(seed, &Profile::CRASHES));
    Mix {
        name: "a small house",
        opening: Vec::new(),
        steps: lists.map(|(command, _)| command).take(STEPS).collect(),
    }
}

/// As many short lists with a gap from the opening on.
pub fn gapped() -> Mix {
    let lists = (0..).flat_map(|seed| Walk::new(seed, &Profile::CEILING));
    Mix {
        name: "a house with a gap",
        opening: Vec::new(),
        steps: lists.map(|(command, _)| command).take(STEPS).collect(),
    }
}

/// A house of eight with 64 live intervals at two controllers and all 128 messages sent, and steps
/// that leave it so.
pub fn full() -> Mix {
    let mut opening = vec![Command::Open { n: 8, degree: 8 }];
    for message in 1..=LAST_MESSAGE {
        opening.extend(passed(message, 2 + message % 6, message % 2));
    }
    let mut random = Random::new(1);
    Mix {
        name: "a full house",
        opening,
        steps: (0..STEPS).map(|_| in_full_house(&mut random)).collect(),
    }
}

/// A message that is sent, released and delivered.
pub fn passed(message: u32, sender: u32, receiver: u32) -> [Command; 3] {
    let sending = Command::Send {
        sender,
        receiver,
        payload: message,
    };
    [
        sending,
        Command::Release { message },
        Command::Deliver { message },
    ]
}

/// A step that frees no place: half of them change words, and half are refused after a look.
fn in_full_house(random: &mut Random) -> Command {
    let (controller, other) = (random.below(2), 2 + random.below(6));
    match random.below(8) {
        0 | 1 => Command::SetDegree {
            controller,
            degree: random.within(0..=8),
        },
        2 => Command::Checkpoint { controller },
        3 => Command::Tell {
            owner: controller,
            holder: other,
        },
        // The last two messages found no place.
        4 => Command::Deliver {
            message: LAST_MESSAGE - controller,
        },
        5 => Command::Send {
            sender: other,
            receiver: controller,
            payload: 0,
        },
        6 => Command::Release {
            message: random.within(1..=LAST_MESSAGE),
        },
        _ => Command::Hear {
            hearer: controller,
            crashed: other,
            incarnation: 0,
        },
    }
}

/// Readings sent to the desk and published, until the ledger is full and the house is opened anew.
pub fn readings() -> Mix {
    let opening = Command::Open { n: 8, degree: 0 };
    let published = (1..=LAST_MESSAGE).flat_map(|message| {
        let sending = Command::Send {
            sender: message % 8,
            receiver: DESK,
            payload: message,
        };
        [sending, Command::Release { message }]
    });
    let house = std::iter::once(opening).chain(published);
    Mix {
        name: "readings published",
        opening: Vec::new(),
        steps: house.cycle().take(STEPS).collect(),
    }
}

/// Steps with any numbers.
pub fn no_sense() -> Mix {
    let mut random = Random::new(2);
    Mix {
        name: "senseless steps",
        opening: vec![Command::Open { n: 3, degree: 3 }],
        steps: (0..STEPS).map(|_| senseless(&mut random)).collect(),
    }
}

/// One step again and again on a table that was never opened, which is refused for its form each time.
pub fn unopened() -> Mix {
    Mix {
        name: "a table of zeros",
        opening: Vec::new(),
        steps: vec![Command::Checkpoint { controller: 0 }; STEPS],
    }
}

/// The house that these steps lead to.
pub fn led_to(steps: &[Command]) -> Lent {
    let mut house = Lent {
        table: vec![0; table::WORDS],
        ledger: vec![0; ledger::WORDS],
    };
    for &command in steps {
        machine::step(&mut house.table, &mut house.ledger, command);
    }
    house
}

impl Mix {
    /// The house that the opening leads to.
    pub fn house(&self) -> Lent {
        led_to(&self.opening)
    }

    /// How many steps are timed.
    pub fn steps(&self) -> usize {
        self.steps.len()
    }

    /// How many steps the whole script has.
    pub fn whole(&self) -> usize {
        self.opening.len() + self.steps.len()
    }

    /// The lines of the whole script, if each of its steps has one.
    pub fn script(&self) -> Option<Vec<u8>> {
        let commands = self.opening.iter().chain(&self.steps);
        let lines = commands.map(|&command| lines::write(command).map(|line| line + "\n"));
        lines.collect::<Option<String>>().map(String::into_bytes)
    }

    /// The time of all steps with a machine.
    pub fn play(&self, house: &Lent, machine: Machine) -> Duration {
        let Lent {
            mut table,
            mut ledger,
        } = house.clone();
        let start = Instant::now();
        for &command in &self.steps {
            black_box(machine(&mut table, &mut ledger, black_box(command)));
        }
        start.elapsed()
    }

    /// The time of all steps as a list, with the proved machine.
    pub fn run(&self, house: &Lent) -> Duration {
        let mut house = house.clone();
        let start = Instant::now();
        black_box(house.run(black_box(&self.steps)));
        start.elapsed()
    }

    /// The table after the last step, by both machines, and by the proved one as a list.
    ///
    /// # Panics
    /// If they differ: there is nothing to be timed then.
    pub fn outcome(&self) -> Vec<u32> {
        let [mut house, mut other, mut list] = [self.house(), self.house(), self.house()];
        let mut answers = list.run(&self.steps).into_iter();
        for &command in &self.steps {
            let answer = house.step(command);
            let others = machine::step(&mut other.table, &mut other.ledger, command);
            assert_eq!(answer, others, "{command:?}");
            assert_eq!(answers.next(), Some(answer), "{command:?} in a list");
        }
        assert!(house == other, "{}: the houses differ", self.name);
        assert!(house == list, "{}: the list's house differs", self.name);
        house.table
    }

    /// Its name, with what the table after it holds.
    pub fn describe(&self, words: &[u32]) -> String {
        let Some(table) = Table::new(words) else {
            return self.name.to_owned();
        };
        let live: u32 = (0..table.n() as usize)
            .map(|controller| table.controller(controller).live)
            .sum();
        let sent = table.sent();
        format!("{} ({live} live in all, {sent} messages)", self.name)
    }
}
