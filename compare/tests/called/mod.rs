//! What a call asks for and gives, read off the lines of the step and of its answer; and what is lent for it.

use crate::margins::UNTOUCHED;
use compare::agreement::Lent;
use goulvizad::raw::VALUE_WORDS;
use reference::generate::{sound_ledger, wrong_length, Profile, Random, Walk};
use reference::machine::{Answer, Command};
use reference::table::WORDS;
use reference::{ledger, lines};
use std::collections::BTreeSet;

pub const LETTERS: &[u8] = b"OKSRDLCTXH";

/// The answers in the order of their numbers.
const NAMES: [&str; 14] = [
    "done",
    "sent",
    "released",
    "held",
    "delivered",
    "dropped",
    "waits",
    "crashed",
    "heard",
    "rolled",
    "refused",
    "set_released",
    "set_held",
    "idle",
];

/// What a call asks for.
#[derive(Clone, Copy, Debug)]
pub struct Call {
    /// The ASCII code of its letter.
    pub letter: u32,
    /// Its numbers in the order of its line, then zeros.
    pub numbers: [u32; 4],
    /// How many numbers its line has.
    pub used: usize,
}

impl Call {
    pub fn new(letter: u32, numbers: &[u32]) -> Self {
        let used = numbers.len();
        let mut call = Call {
            letter,
            numbers: [0; 4],
            used,
        };
        call.numbers[..used].copy_from_slice(numbers);
        call
    }
}

impl From<Command> for Call {
    /// Read off the line of the step, which must have one.
    fn from(command: Command) -> Self {
        let line = lines::write(command).expect("a step with a letter");
        let mut fields = line.split(' ');
        let letter = fields.next().map(str::as_bytes);
        let &[letter] = letter.expect("a first field") else {
            panic!("no letter in {line:?}");
        };
        let numbers = fields.map(|field| field.parse().expect("a number"));
        Call::new(letter.into(), &numbers.collect::<Vec<u32>>())
    }
}

/// A house in which much can be done, one that was never opened, and tables and ledgers of another
/// length.
pub fn houses() -> [Lent; 6] {
    let mut walk = Walk::new(3, &Profile::CRASHES);
    walk.by_ref().for_each(drop);
    let mut random = Random::new(1);
    let house = Lent::by(&walk);
    [
        (house.table.clone(), vec![0; ledger::WORDS - 1]),
        (house.table.clone(), Vec::new()),
        (house.table, house.ledger),
        (vec![0; WORDS], vec![UNTOUCHED; ledger::WORDS]),
        (wrong_length(&mut random), sound_ledger(&mut random)),
        (Vec::new(), Vec::new()),
    ]
    .map(|(table, ledger)| Lent { table, ledger })
}

/// Every code of a byte but those of the ten letters, those of the letters with higher bits set, and
/// words at random.
pub fn letters_of_no_step() -> BTreeSet<u32> {
    let mut random = Random::new(2);
    let is_step = |&code: &u32| u8::try_from(code).is_ok_and(|code| LETTERS.contains(&code));
    let bytes = 0..=u32::from(u8::MAX);
    let higher = LETTERS
        .iter()
        .flat_map(|&letter| (8..u32::BITS).map(move |bit| u32::from(letter) | 1 << bit));
    let words = (0..1_000).map(|_| random.word());
    let letters = bytes.chain(higher).chain(words).chain([u32::MAX]);
    letters.filter(|code| !is_step(code)).collect()
}

/// The number and the values of an answer, read off its line.
pub fn listed(answer: Answer) -> (u32, [u32; VALUE_WORDS]) {
    let line = lines::render(&answer);
    let mut fields = line.split(' ');
    let name = fields.next();
    let number = NAMES.iter().position(|&known| Some(known) == name);
    let number = number.expect("an answer with a number");
    let mut values = [0; VALUE_WORDS];
    for (value, field) in values.iter_mut().zip(fields) {
        *value = field.parse().expect("a number");
    }
    (number as u32, values)
}

/// The step with other numbers in the places where it has none.
pub fn with_idle_numbers(random: &mut Random, command: Command) -> Call {
    let mut asked = Call::from(command);
    for number in &mut asked.numbers[asked.used..] {
        *number = random.word();
    }
    asked
}
