//! Times the proved machine and the reference on the same scripts, in one run: by the step, by the step of
//! a list that is done in one call, by the line of the program, by the check that a table is in form, by single
//! steps in a house with many live intervals: the hearing of a crash, and what the gap has a part in; by a set of
//! messages beside its single releases; and by the call of the dispatcher.
//!
//! With the argument `house_reference` it is the program of the reference, so that one command builds
//! both sides. With the name of a row of the last four parts and a number it does that so often with the
//! proved machine and no clock, to have its instructions counted.

mod mixes;
mod singles;

use compare::house::{self, Session};
use compare::{in_form, proved};
use mixes::Mix;
use reference::lines::{self, Player};
use reference::machine::{self, Answer, Command};
use reference::table;
use singles::Single;
use std::env;
use std::hint::black_box;
use std::io::{self, Read, Write};
use std::process::Command as Program;
use std::time::{Duration, Instant};

const AS_REFERENCE: &str = "house_reference";

/// The checks of a table in a round.
const CHECKS: usize = 3_000;
/// How often a script is played in one run of the program, so that its start counts little.
const REPEATED: usize = 20;
/// How often each measure is taken. Every other time the reference goes first.
const ROUNDS: usize = 9;

type Machine = fn(&mut [u32], &mut [u32], Command) -> Answer;

fn main() -> io::Result<()> {
    let arguments: Vec<String> = env::args().skip(1).collect();
    match &arguments[..] {
        [name] if name == AS_REFERENCE => return play_reference(),
        [name, times] => return singles::repeat(name, times),
        _ => {}
    }
    if cfg!(debug_assertions) {
        println!("Not a fair run: the reference is built with extra checks. Use --release.");
    }
    let mixes = [
        mixes::small(),
        mixes::full(),
        mixes::readings(),
        mixes::no_sense(),
        mixes::gapped(),
        mixes::unopened(),
    ];
    println!("Medians of {ROUNDS} rounds; ratio is proved to reference.\n");
    heading("microseconds a step");
    mixes.iter().for_each(time_steps);
    heading("microseconds a step in a list, the reference one by one");
    mixes.iter().for_each(time_runs);
    heading("microseconds a line of the program, its start included");
    mixes.iter().for_each(|mix| time_lines(mix, 1));
    heading("microseconds a line, each script many times in one run");
    mixes.iter().for_each(|mix| time_lines(mix, REPEATED));
    heading("microseconds a check that a table is in form");
    mixes.iter().for_each(time_checks);
    heading("microseconds a hearing, 64 live, one checkpoint at place 0");
    singles::hearings().iter().for_each(Single::time);
    heading("microseconds a step, 63 live, one checkpoint at place 0");
    singles::by_the_gap().iter().for_each(Single::time);
    heading("microseconds for 16 messages of one sender, 114 held");
    singles::sets().iter().for_each(Single::time);
    heading("microseconds a call of the dispatcher, n = 8, 128 messages");
    singles::calls().iter().for_each(Single::time);
    Ok(())
}

/// Plays standard input with the reference.
fn play_reference() -> io::Result<()> {
    let (mut input, mut output) = (io::stdin().lock(), io::stdout().lock());
    let mut player = Player::new();
    let (mut part, mut answers) = (vec![0; 1 << 16], Vec::new());
    loop {
        let length = input.read(&mut part)?;
        player.feed(&part[..length], &mut answers);
        if length == 0 {
            player.finish(&mut answers);
        }
        output.write_all(&answers)?;
        output.flush()?;
        answers.clear();
        if length == 0 {
            return Ok(());
        }
    }
}

fn heading(what: &str) {
    println!("{what:<58} proved  reference  ratio");
}

fn row(name: &str, each: usize, times: (Duration, Duration)) {
    let micros = |time: Duration| time.as_secs_f64() * 1e6 / each as f64;
    let (proved, reference) = (micros(times.0), micros(times.1));
    let ratio = proved / reference;
    println!("  {name:<53} {proved:>9.3}  {reference:>9.3}  {ratio:>5.2}");
}

/// The medians of two measures, taken in both orders.
fn medians(
    mut proved: impl FnMut() -> Duration,
    mut reference: impl FnMut() -> Duration,
) -> (Duration, Duration) {
    let (mut first, mut second) = (Vec::new(), Vec::new());
    for round in 0..ROUNDS {
        if round % 2 == 0 {
            first.push(proved());
            second.push(reference());
        } else {
            second.push(reference());
            first.push(proved());
        }
    }
    (median(first), median(second))
}

fn median(mut times: Vec<Duration>) -> Duration {
    times.sort_unstable();
    times[times.len() / 2]
}

fn time_steps(mix: &Mix) {
    mix.outcome();
    let house = mix.house();
    let times = medians(
        || mix.play(&house, proved::step),
        || mix.play(&house, machine::step),
    );
    row(mix.name, mix.steps(), times);
}

/// All steps in one call, or where the gap is set in one for those between; the reference has no such call.
fn time_runs(mix: &Mix) {
    mix.outcome();
    let house = mix.house();
    let times = medians(|| mix.run(&house), || mix.play(&house, machine::step));
    row(mix.name, mix.steps(), times);
}

/// So many times the script of a mix; one in which the gap is set is no script.
fn time_lines(mix: &Mix, repeated: usize) {
    let Some(script) = mix.script() else {
        return;
    };
    let script = script.repeat(repeated);
    let expected = lines::run(&script);
    let time = |program| {
        let time = time_program(program, &script, &expected);
        time.expect("a program that plays the script")
    };
    let times = medians(|| time(house::program()), || time(reference_program()));
    row(mix.name, repeated * mix.whole(), times);
}

/// This program, as that of the reference.
fn reference_program() -> Program {
    let this = env::current_exe().expect("the path of this program");
    let mut program = Program::new(this);
    program.arg(AS_REFERENCE);
    program
}

/// The time from a program's start to the end of its output, which must be the expected one.
fn time_program(program: Program, script: &[u8], expected: &[u8]) -> io::Result<Duration> {
    let start = Instant::now();
    let mut session = Session::start(program)?;
    session.write(script);
    session.close_input();
    let output = session.rest()?;
    let time = start.elapsed();
    if output != expected {
        return Err(io::Error::other("the answers differ"));
    }
    Ok(time)
}

fn time_checks(mix: &Mix) {
    let words = mix.outcome();
    // One that was never opened is out of form.
    let formed = words.iter().any(|&word| word != 0);
    let times = medians(
        || time_check(&words, formed, in_form),
        || time_check(&words, formed, table::in_form),
    );
    row(&mix.describe(&words), CHECKS, times);
}

fn time_check(words: &[u32], formed: bool, check: fn(&[u32]) -> bool) -> Duration {
    let start = Instant::now();
    for _ in 0..CHECKS {
        let checked = black_box(check(black_box(words)));
        assert_eq!(checked, formed, "the form of the table");
    }
    start.elapsed()
}
