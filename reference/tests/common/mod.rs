//! A house driven by its lines, with the table and the ledger at hand.
#![allow(dead_code)] // Each test file uses its part of this.

use reference::machine::{step, Answer, Command, Messages};
use reference::table::{in_form, Table, WORDS};
use reference::{ledger, lines};

/// A lent table and a lent ledger.
#[derive(Clone)]
pub struct House {
    /// The words of the table.
    pub words: Vec<u32>,
    /// The words of the ledger.
    pub ledger: Vec<u32>,
}

impl House {
    /// A table of these words, beside a zero ledger.
    pub fn of(words: Vec<u32>) -> Self {
        House {
            words,
            ledger: vec![0; ledger::WORDS],
        }
    }

    /// The zero table, after these lines; none of them may be bad or refused.
    pub fn after(script: &str) -> Self {
        let mut house = House::of(vec![0; WORDS]);
        house.go_on(script);
        house
    }

    /// Plays more lines, none of them bad or refused.
    pub fn go_on(&mut self, script: &str) {
        for line in script.lines() {
            let answer = self.say(line);
            assert!(!answer.starts_with("refused"), "{line}: {answer}");
        }
    }

    /// The answer to one good line. A refusal must leave every word of both.
    pub fn say(&mut self, line: &str) -> String {
        let command = lines::parse(line.as_bytes()).expect("a good line");
        self.answer(command)
    }

    /// The answer to one command. A refusal must leave every word of both, and only what is released and an
    /// opening may write the ledger. A set that is held must leave every word, too, and so must `idle`.
    pub fn answer(&mut self, command: Command) -> String {
        let before = self.clone();
        let answer = lines::render(&step(&mut self.words, &mut self.ledger, command));
        let refused = answer.starts_with("refused");
        let opened = matches!(command, Command::Open { .. });
        if refused || answer.starts_with("set_held") || answer == "idle" {
            assert!(self.words == before.words, "{command:?} wrote: {answer}");
        }
        let released = answer.starts_with("released") || answer.starts_with("set_released");
        if refused || !opened && !released {
            assert!(self.ledger == before.ledger, "{command:?} wrote the ledger");
        }
        answer
    }

    /// The answer to a set, which has no line.
    pub fn release_set(&mut self, messages: &[u32]) -> String {
        let messages = Messages::of(messages);
        self.answer(Command::ReleaseSet { messages })
    }

    /// The answer to a call of the dispatcher, which has no line.
    pub fn dispatch(&mut self) -> String {
        self.answer(Command::Dispatch)
    }

    /// Sets the gap, which has no line; it must be done, and write word 11 alone.
    pub fn set_gap(&mut self, gap: u32) {
        let mut expected = self.words.clone();
        expected[11] = gap;
        assert_eq!(self.answer(Command::SetGap { gap }), "done");
        assert!(self.words == expected, "a gap of {gap} wrote another word");
    }

    /// Changes the table by hand; it must stay in form.
    pub fn lend(&mut self, change: impl FnOnce(&mut Table<&mut [u32]>)) {
        let mut table = Table::new(&mut self.words[..]).expect("the right length");
        change(&mut table);
        assert!(in_form(&self.words), "changed out of form");
    }

    /// The table, to read.
    pub fn table(&self) -> Table<&[u32]> {
        Table::new(&self.words[..]).expect("the right length")
    }
}

/// Sends, releases and delivers one message, which the sender's degree must allow.
pub fn bring(house: &mut House, sender: u32, receiver: u32) -> String {
    let sent = house.say(&format!("S {sender} {receiver} 0"));
    let message = sent.strip_prefix("sent ").expect("sent").to_owned();
    let released = house.say(&format!("R {message}"));
    assert!(released.starts_with("released"), "{released}");
    house.say(&format!("D {message}"))
}

/// Steps with the sound machine's answers.
pub fn sound(script: &str) -> Vec<(Command, Answer)> {
    let mut table = vec![0; WORDS];
    let mut ledger = vec![0; ledger::WORDS];
    let commands = script
        .lines()
        .map(|line| lines::parse(line.as_bytes()).expect("a good line"));
    commands
        .map(|command| (command, step(&mut table, &mut ledger, command)))
        .collect()
}
