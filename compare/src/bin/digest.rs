//! A digest of all that the proved machine answers and writes in the lists and on the lent tables of the
//! comparison. Two libraries that print the same lines gave every step the same answer and left the same
//! words, unless two digests meet by chance; `GOULVIZAD_LIB` says which library is linked.
//!
//! The steps are chosen by seeds and by the reference, never by what the library answered, so that every
//! library is given the same.
//!
//! With the argument `undispatched` the lines are those that the `digest` of before the dispatcher prints with a
//! library of before it: word 12 is taken as it was then, and the dispatcher isn't called.

use compare::agreement::Lent;
use compare::effort;
use compare::inputs::{Tables, LISTS, UNDISPATCHED};
use goulvizad::SERVED_WORD;
use reference::generate::{Profile, Walk};
use reference::lines;
use reference::machine::{Answer, Command};
use reference::table::LAST_SERVED;
use std::{env, thread};

const AS_BEFORE: &str = "undispatched";

/// What is lent, and word 12 of its table as it would be without a dispatcher: as it was lent, and 0 since a house was
/// opened.
struct House {
    lent: Lent,
    word: u32,
}

impl House {
    fn of(lent: Lent) -> Self {
        let word = lent.table.get(SERVED_WORD).copied();
        House {
            lent,
            word: word.unwrap_or(0),
        }
    }

    /// Does a step, and gives what it leaves. Without a dispatcher a table isn't in form where word 12 isn't 0.
    fn step(&mut self, command: Command, undispatched: bool) -> (Answer, Lent) {
        if undispatched && self.word != 0 {
            set_word(&mut self.lent, LAST_SERVED + 1);
        }
        let answer = self.lent.step(command);
        if matches!((command, answer), (Command::Open { .. }, Answer::Done)) {
            self.word = 0;
        }
        let mut left = self.lent.clone();
        if undispatched {
            set_word(&mut left, self.word);
        }
        (answer, left)
    }
}

fn set_word(lent: &mut Lent, word: u32) {
    if let Some(served) = lent.table.get_mut(SERVED_WORD) {
        *served = word;
    }
}

/// FNV-1a of 64 bits, by words of 32 bits. It is written out here since the hashers of the standard
/// library may change from one version to the next.
struct Digest {
    undispatched: bool,
    steps: u64,
    hash: u64,
}

impl Digest {
    const BASIS: u64 = 0xCBF2_9CE4_8422_2325;
    const PRIME: u64 = 0x0100_0000_01B3;

    fn new(undispatched: bool) -> Self {
        Digest {
            undispatched,
            steps: 0,
            hash: Digest::BASIS,
        }
    }

    fn take(&mut self, word: u32) {
        self.hash = (self.hash ^ u64::from(word)).wrapping_mul(Digest::PRIME);
    }

    /// Does a step, and takes in the line of its answer and every word that it left.
    fn step(&mut self, house: &mut House, command: Command) {
        let (answer, left) = house.step(command, self.undispatched);
        self.steps += 1;
        self.note(answer, &left);
    }

    fn note(&mut self, answer: Answer, left: &Lent) {
        let line = lines::render(&answer);
        line.bytes().for_each(|byte| self.take(byte.into()));
        left.table.iter().for_each(|&word| self.take(word));
        left.ledger.iter().for_each(|&word| self.take(word));
    }
}

fn of_lists(profile: &'static Profile, lists: u64, undispatched: bool) -> Digest {
    let mut digest = Digest::new(undispatched);
    for seed in 0..effort(lists) {
        let walk = Walk::new(seed, profile);
        let mut house = House::of(Lent::by(&walk));
        walk.for_each(|(command, _)| digest.step(&mut house, command));
    }
    digest
}

/// Each step is done on the table and the ledger as they were lent.
fn of_tables(tables: Tables, undispatched: bool) -> Digest {
    let mut digest = Digest::new(undispatched);
    for (lent, steps) in tables.with_steps() {
        for command in steps {
            digest.step(&mut House::of(lent.clone()), command);
        }
    }
    digest
}

fn main() {
    let undispatched = match env::args().nth(1) {
        None => false,
        Some(word) if word == AS_BEFORE => true,
        Some(word) => panic!("{word}: not {AS_BEFORE}"),
    };
    let (mut lists, mut tables) = (LISTS.to_vec(), Tables::ALL.to_vec());
    tables.extend(Tables::FOR_SETS);
    if undispatched {
        lists.truncate(UNDISPATCHED);
    } else {
        tables.extend(Tables::TO_DISPATCH);
    }
    let mut workers = Vec::new();
    for (profile, lists) in lists {
        let worker = thread::spawn(move || of_lists(profile, lists, undispatched));
        workers.push((profile.name, worker));
    }
    for tables in tables {
        let worker = thread::spawn(move || of_tables(tables, undispatched));
        workers.push((tables.name, worker));
    }
    for (name, worker) in workers {
        let Digest { steps, hash, .. } = worker.join().expect("steps that all had an answer");
        println!("{name:<22} {steps:>9} steps  {hash:016x}");
    }
}

#[cfg(test)]
mod tests {
    use super::*;

    #[test]
    fn it_is_fnv_1a() {
        let mut digest = Digest::new(false);
        "foobar".bytes().for_each(|byte| digest.take(byte.into()));
        assert_eq!(digest.hash, 0x8594_4171_F739_67E8);
    }

    #[test]
    fn every_answer_and_word_counts() {
        let of = |answer, table, ledger| {
            let mut digest = Digest::new(false);
            digest.note(answer, &Lent { table, ledger });
            digest.hash
        };
        let sound = of(Answer::Done, vec![0, 0], vec![0]);
        let sent = Answer::Sent { message: 1 };
        assert_ne!(of(sent, vec![0, 0], vec![0]), sound);
        assert_ne!(of(Answer::Done, vec![0, 1], vec![0]), sound);
        assert_ne!(of(Answer::Done, vec![0, 0], vec![1]), sound);
    }
}
