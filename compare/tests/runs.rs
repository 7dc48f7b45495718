//! Lists of steps in one call: the answers and all words are those of the same steps one by one, by both
//! machines, on whatever is lent; and a list that is no list changes nothing.

mod called;
mod margins;

use called::{houses, letters_of_no_step, listed, with_idle_numbers, Call};
use compare::agreement::{on_lent, Lent};
use compare::coverage::Seen;
use compare::effort;
use compare::inputs::{Tables, LISTS};
use goulvizad::raw::returned::{DONE, UNKNOWN_LETTER, WRONG_VALUES};
use goulvizad::raw::{run, ANSWER_WORDS, STEP_WORDS};
use margins::{inner, within_margins, UNTOUCHED};
use reference::generate::{senseless, Profile, Random, Walk};
use reference::machine::{Answer, Command};
use reference::{refusal, table};

/// The words of a list of calls.
fn words(asked: &[Call]) -> Vec<u32> {
    let words = asked.iter().flat_map(|call| {
        let [a, b, c, d] = call.numbers;
        [call.letter, a, b, c, d]
    });
    words.collect()
}

/// The words of a list of steps, with any numbers where a step has none.
fn asked(random: &mut Random, commands: &[Command]) -> Vec<u32> {
    let calls = commands
        .iter()
        .map(|&command| with_idle_numbers(random, command));
    words(&calls.collect::<Vec<Call>>())
}

/// The words of the answers.
fn answered(answers: &[Answer]) -> Vec<u32> {
    let words = answers.iter().flat_map(|&answer| {
        let (number, values) = listed(answer);
        std::iter::once(number).chain(values)
    });
    words.collect()
}

/// One call with what is lent: its number, and the words of the answers.
fn told(lent: &mut Lent, steps: &[u32], answers: usize) -> (u32, Vec<u32>) {
    let mut answers = vec![UNTOUCHED; answers];
    let number = run(&mut lent.table, &mut lent.ledger, steps, &mut answers);
    (number, answers)
}

/// Random lists, cut into pieces of any length, empty ones too: each piece is done in one call, and leaves
/// what its steps leave one by one.
#[test]
fn lists_in_pieces() {
    let mut random = Random::new(1);
    let (mut pieces, mut longest) = (0, 0);
    for (profile, lists) in LISTS {
        for seed in 0..effort(lists / 10) {
            let mut walk = Walk::new(seed, profile);
            let (mut lent, mut by_step) = (Lent::by(&walk), Lent::by(&walk));
            let most = random.within(1..=200);
            loop {
                let length = random.within(0..=most) as usize;
                let piece = walk.by_ref().take(length);
                let (commands, answers): (Vec<Command>, Vec<Answer>) = piece.unzip();
                let label = || format!("{} list {seed}: {commands:?}", profile.name);
                let one_by_one = commands.iter().map(|&command| by_step.step(command));
                assert!(one_by_one.eq(answers.iter().copied()), "{}", label());
                assert_eq!(lent.run(&commands), answers, "{}", label());
                assert!(lent == by_step, "{}", label());
                assert!(lent == Lent::by(&walk), "{}", label());
                pieces += 1;
                longest = longest.max(commands.len());
                if commands.len() < length {
                    break;
                }
            }
        }
    }
    assert!(pieces > 2_000 && longest > 150, "{pieces}, {longest}");
}

/// What a list can come across that concerns the form of its table.
const CASES: [&str; 7] = [
    "an opening done in form",
    "an opening done out of form",
    "an opening refused in form",
    "an opening refused out of form",
    "another step done after an opening out of form",
    "another step refused for the form",
    "another step refused for the form after an opening was refused",
];

/// What a step of a list comes across, by whether its table is in form, whether it was when the list began,
/// and whether an opening was refused before it.
fn case(formed: bool, began: bool, refused: bool, step: (Command, Answer)) -> Option<&'static str> {
    let done = !matches!(step.1, Answer::Refused { .. });
    let number = refusal::FORM;
    match (step.0, formed) {
        (Command::Open { .. }, true) if done => Some(CASES[0]),
        (Command::Open { .. }, false) if done => Some(CASES[1]),
        (Command::Open { .. }, true) => Some(CASES[2]),
        (Command::Open { .. }, false) => Some(CASES[3]),
        (_, true) if done && !began => Some(CASES[4]),
        (_, false) if step.1 == (Answer::Refused { number }) && refused => Some(CASES[6]),
        (_, false) if step.1 == (Answer::Refused { number }) => Some(CASES[5]),
        _ => None,
    }
}

/// The steps one by one by both machines, with what is left after the last.
fn one_by_one(lent: &Lent, commands: &[Command], seen: &mut Seen) -> (Vec<Answer>, Lent) {
    let began = table::in_form(&lent.table);
    let (mut left, mut refused) = (lent.clone(), false);
    let step = |&command: &Command| {
        let formed = table::in_form(&left.table);
        let agreed = on_lent(&left, command);
        let (answer, after) =
            agreed.unwrap_or_else(|difference| panic!("{command:?}: {difference:?}"));
        seen.note(command, answer);
        let case = case(formed, began, refused, (command, answer));
        seen.note_cases(case.map(str::to_owned));
        let opening = matches!(command, Command::Open { .. });
        refused |= opening && matches!(answer, Answer::Refused { .. });
        left = after;
        answer
    };
    let answers = commands.iter().map(step).collect();
    (answers, left)
}

/// Lists on what is lent, in form, damaged, noise, of another length, with any ledger. Of three tables one is
/// taken. Somewhere in the list stands an opening.
#[test]
fn lists_on_lent_tables() {
    let mut random = Random::new(2);
    let mut seen = Seen::default();
    for (lent, steps) in Tables::ALL
        .into_iter()
        .flat_map(Tables::with_steps)
        .step_by(3)
    {
        let lettered = |command: &Command| !matches!(command, Command::SetGap { .. });
        let mut commands: Vec<Command> = steps.into_iter().filter(lettered).collect();
        let first = random.index(commands.len());
        commands.rotate_left(first);
        let (answers, left) = one_by_one(&lent, &commands, &mut seen);
        let mut after = lent.clone();
        let steps = asked(&mut random, &commands);
        let given = told(&mut after, &steps, ANSWER_WORDS * commands.len());
        assert_eq!(given, (DONE, answered(&answers)), "{commands:?}");
        assert!(after == left, "{commands:?}");
        // Through the binding, too.
        let mut after = lent.clone();
        assert_eq!(after.run(&commands), answers);
        assert!(after == left, "{commands:?}");
    }
    assert!(seen.steps > 60_000, "only {} steps", seen.steps);
    seen.assert_cases(&CASES, &[]);
    assert_eq!(seen.refused(refusal::LENGTH), "CDHKLORSTX");
    assert_eq!(seen.refused(refusal::FORM), "CDHKLRSTX");
    assert_eq!(seen.refused(refusal::LEDGER), "OR");
}

/// A list that must give this number and change nothing.
fn assert_rejected(lent: &Lent, steps: &[u32], answers: usize, number: u32) {
    let mut after = lent.clone();
    let given = told(&mut after, steps, answers);
    let label = || format!("{steps:?} with {answers} words of answers");
    assert_eq!(given, (number, vec![UNTOUCHED; answers]), "{}", label());
    assert!(after == *lent, "{}", label());
}

/// One unknown letter, wherever it stands, and nothing is done: neither the steps before it.
#[test]
fn unknown_letters_at_each_position() {
    let mut random = Random::new(3);
    let unknown: Vec<u32> = letters_of_no_step().into_iter().collect();
    for lent in houses() {
        for count in 1..=7 {
            for position in 0..count {
                for _ in 0..20 {
                    let opening = Command::Open { n: 2, degree: 1 };
                    let mut commands = vec![opening; count];
                    commands[1..].fill_with(|| senseless(&mut random));
                    let mut steps = asked(&mut random, &commands);
                    let answers = count * ANSWER_WORDS;
                    assert_eq!(told(&mut lent.clone(), &steps, answers).0, DONE);
                    steps[position * STEP_WORDS] = unknown[random.index(unknown.len())];
                    assert_rejected(&lent, &steps, answers, UNKNOWN_LETTER);
                }
            }
        }
        for &letter in &unknown {
            let steps = words(&[Call::new(letter, &[1, 0, 1])]);
            assert_rejected(&lent, &steps, ANSWER_WORDS, UNKNOWN_LETTER);
        }
    }
}

/// Lengths that are not those of as many steps as answers, which are looked at before the letters.
#[test]
fn other_lengths_are_rejected() {
    let mut random = Random::new(4);
    let commands: Vec<Command> = (0..8).map(|_| senseless(&mut random)).collect();
    let known = asked(&mut random, &commands);
    let unknown = vec![u32::from(b'Q'); known.len()];
    for lent in houses() {
        for steps in 0..=known.len() {
            for answers in 0..=8 * ANSWER_WORDS {
                let whole = steps % STEP_WORDS == 0 && answers % ANSWER_WORDS == 0;
                if whole && steps / STEP_WORDS == answers / ANSWER_WORDS {
                    let given = told(&mut lent.clone(), &known[..steps], answers);
                    assert_eq!(given.0, DONE, "{steps} words, {answers} of answers");
                    continue;
                }
                assert_rejected(&lent, &known[..steps], answers, WRONG_VALUES);
                assert_rejected(&lent, &unknown[..steps], answers, WRONG_VALUES);
            }
        }
    }
}

#[test]
fn an_empty_list_is_done_and_does_nothing() {
    for lent in houses() {
        assert_rejected(&lent, &[], 0, DONE);
    }
}

/// All buffers lent out of larger ones: what stands beside them stays, and so do the steps.
#[test]
fn nothing_beside_the_buffers_is_written() {
    let mut random = Random::new(5);
    for seed in 0..effort(100) {
        let profile = Profile::LETTERED[seed as usize % Profile::LETTERED.len()];
        let mut walk = Walk::new(seed, profile);
        let lent = Lent::by(&walk);
        let taken = walk.by_ref().take(random.index(60));
        let (commands, answers): (Vec<Command>, Vec<Answer>) = taken.unzip();
        let steps = asked(&mut random, &commands);
        let [mut lent_table, mut lent_ledger, lent_steps] =
            [&lent.table, &lent.ledger, &steps].map(|words| within_margins(words));
        let mut lent_answers = within_margins(&vec![UNTOUCHED; ANSWER_WORDS * commands.len()]);
        let mut within = lent_steps.clone();
        let number = run(
            inner(&mut lent_table),
            inner(&mut lent_ledger),
            inner(&mut within),
            inner(&mut lent_answers),
        );
        assert_eq!(number, DONE, "{commands:?}");
        assert!(within == lent_steps, "{commands:?}");
        assert!(
            lent_answers == within_margins(&answered(&answers)),
            "{commands:?}"
        );
        assert!(lent_table == within_margins(walk.table()), "{commands:?}");
        assert!(lent_ledger == within_margins(walk.ledger()), "{commands:?}");
    }
}
