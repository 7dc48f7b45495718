//! The lines of the program: what is bad, what counts as a line, and that the program is the library.

use reference::generate::{script, Profile};
use reference::lines::{parse, render, run, write, Player};
use reference::machine::{step, Answer, Command};
use reference::{ledger, refusal, table};
use std::io::Write;
use std::process::{Command as Process, Stdio};

/// The answers to an input, line by line.
fn answers(input: &[u8]) -> Vec<String> {
    let output = String::from_utf8(run(input)).expect("answers are ASCII");
    assert!(output.is_empty() || output.ends_with('\n'));
    output.lines().map(str::to_owned).collect()
}

#[test]
fn every_letter_is_read_and_written() {
    let lines = [
        "O 3 1", "K 2 3", "S 0 1 7", "R 1", "D 2", "L 2 1", "C 0", "T 0 1", "X 1", "H 2 1 0",
    ];
    for line in lines {
        let command = parse(line.as_bytes()).expect(line);
        assert_eq!(write(command).as_deref(), Some(line));
        let longer = format!("{line} 0");
        let shorter = line.rsplit_once(' ').expect("a number").0;
        assert_eq!(parse(longer.as_bytes()), None, "{longer}");
        assert_eq!(parse(shorter.as_bytes()), None, "{shorter}");
    }
}

/// "New steps get a line in `house` only where a request names the letter."
#[test]
fn a_gap_has_no_line() {
    assert_eq!(write(Command::SetGap { gap: 3 }), None);
    assert_eq!(write(Command::Dispatch), None);
    assert_eq!(parse(b"Q 3"), None);
    assert_eq!(parse(b"G 3"), None);
}

#[test]
fn every_answer_is_written() {
    let written = |answer| render(&answer);
    assert_eq!(written(Answer::Done), "done");
    let dropped = Answer::Dropped {
        message: 4,
        crashed: 5,
        incarnation: 6,
    };
    assert_eq!(written(dropped), "dropped 4 5 6");
    assert_eq!(written(Answer::Waits { message: 4 }), "waits 4");
    assert_eq!(written(Answer::Heard { controller: 4 }), "heard 4");
    let crashed = Answer::Crashed {
        controller: 1,
        incarnation: 2,
        kept: 3,
        lost: 4,
        replayed: 5,
    };
    assert_eq!(written(crashed), "crashed 1 2 3 4 5");
    let rolled = Answer::Rolled {
        controller: 1,
        kept: 2,
        undone: 3,
        replayed: 4,
        crashed: 5,
        incarnation: 6,
    };
    assert_eq!(written(rolled), "rolled 1 2 3 4 5 6");
    for (number, line) in [
        (refusal::INCARNATIONS_USED_UP, "refused 13"),
        (refusal::LEDGER, "refused 14"),
        (refusal::LEDGER_USED_UP, "refused 18"),
    ] {
        assert_eq!(written(Answer::Refused { number }), line);
    }
}

#[test]
fn leading_zeros_are_digits() {
    let three = Command::Open { n: 3, degree: 0 };
    assert_eq!(parse(b"O 0000000003 0"), Some(three));
    assert_eq!(parse(b"O 3 0000000000"), Some(three));
    assert_eq!(parse(b"O 00000000003 0"), None);
}

#[test]
fn numbers_end_at_32_bits() {
    let last = Some(Command::Release { message: u32::MAX });
    assert_eq!(parse(b"R 4294967295"), last);
    assert_eq!(parse(b"R 4294967296"), None);
    assert_eq!(parse(b"R 9999999999"), None);
}

#[test]
fn spaces_signs_and_other_bytes_are_bad() {
    let bad: [&[u8]; 20] = [
        b"",
        b" ",
        b"O",
        b"O ",
        b"R 1 ",
        b" R 1",
        b"R  1",
        b"R\t1",
        b"R 1\r",
        b"r 1",
        b"R +1",
        b"R -1",
        b"R 1.",
        b"R 0x1",
        b"R1",
        b"RR 1",
        b"Z 1",
        b"R \xb2",
        b"R 1\0",
        b"\xef\xbb\xbfR 1",
    ];
    for line in bad {
        assert_eq!(parse(line), None, "{line:?}");
    }
}

#[test]
fn a_long_line_is_one_bad_line() {
    for length in [65, 66, 1_000, 200_000] {
        let mut input = vec![b'0'; length];
        input.extend_from_slice(b"\nO 1 0\n");
        assert_eq!(answers(&input), ["bad", "done"], "{length} bytes");
    }
    // A good beginning or end doesn't save it.
    let mut input = b"O 1 0".to_vec();
    input.resize(70, b' ');
    input.extend_from_slice(b"\nC 0\n");
    assert_eq!(answers(&input), ["bad", "refused 2"]);
}

#[test]
fn what_counts_as_a_line() {
    assert!(answers(b"").is_empty());
    assert_eq!(answers(b"\n"), ["bad"]);
    assert_eq!(answers(b"\n\n"), ["bad", "bad"]);
    assert_eq!(answers(b"O 1 0"), ["done"]);
    assert_eq!(answers(b"O 1 0\n"), ["done"]);
    assert_eq!(answers(b"O 1 0\n\n"), ["done", "bad"]);
    assert_eq!(answers(b"O 1 0\r\nC 0"), ["bad", "refused 2"]);
}

#[test]
fn before_the_first_opening() {
    assert_eq!(
        answers(b"C 0\nO 9 9\nR 0\n"),
        ["refused 2", "refused 5", "refused 2"]
    );
    assert_eq!(answers(b"S 0 8 7\nR 1\n"), ["refused 2", "refused 2"]);
}

/// The program has a sound ledger from the start, and an opening clears it: 129 readings go out.
#[test]
fn readings_go_out() {
    let script =
        b"O 2 1\nS 0 1 3\nR 1\nD 1\nS 1 8 9\nR 2\nS 0 8 5\nR 3\nC 1\nR 2\nR 2\nD 2\nS 0 7 9\n";
    let expected = [
        "done",
        "sent 1",
        "released 1 0",
        "delivered 1 0 2",
        "sent 2",
        "held 2 2",
        "sent 3",
        "released 3 0",
        "done",
        "released 2 0",
        "refused 7",
        "refused 7",
        "refused 3",
    ];
    assert_eq!(answers(script), expected);
    let mut script = "O 1 0\n".to_owned();
    for message in 1..=128 {
        script.push_str(&format!("S 0 8 7\nR {message}\n"));
    }
    script.push_str("S 0 8 7\nO 1 0\nS 0 8 7\nR 1\n");
    let answers = answers(script.as_bytes());
    let released = answers.iter().filter(|line| line.starts_with("released"));
    assert_eq!(released.count(), 129);
    assert_eq!(
        answers[256..],
        [
            "released 128 0",
            "refused 11",
            "done",
            "sent 1",
            "released 1 0"
        ]
    );
}

/// Reads a line by splitting text, as the sentence says it, where [`parse`] matches bytes.
fn reads_well(line: &[u8]) -> bool {
    let Ok(text) = std::str::from_utf8(line) else {
        return false;
    };
    let Some((letter, rest)) = text.split_once(' ') else {
        return false;
    };
    let numbers: Vec<&str> = rest.split(' ').collect();
    let count = match letter {
        "R" | "D" | "C" | "X" => 1,
        "O" | "K" | "L" | "T" => 2,
        "S" | "H" => 3,
        _ => return false,
    };
    let is_number = |text: &&str| {
        let digits = text.chars().all(|digit| digit.is_ascii_digit());
        digits && text.len() <= 10 && text.parse::<u64>().is_ok_and(|n| n <= 4_294_967_295)
    };
    line.len() <= 64 && numbers.len() == count && numbers.iter().all(is_number)
}

#[test]
fn random_scripts_are_answered_line_by_line() {
    let mut bad = 0;
    for seed in 0..300 {
        let input = script(seed, &Profile::MIXED);
        let mut lines: Vec<&[u8]> = input.split(|&byte| byte == b'\n').collect();
        if lines.last().is_some_and(|line| line.is_empty()) {
            lines.pop();
        }
        let answers = answers(&input);
        assert_eq!(answers.len(), lines.len(), "script {seed}");
        let mut table = vec![0; table::WORDS];
        let mut ledger = vec![0; ledger::WORDS];
        for (line, answer) in lines.into_iter().zip(answers) {
            let command = parse(line);
            assert_eq!(command.is_some(), reads_well(line), "{line:?}");
            let expected = command.map(|command| render(&step(&mut table, &mut ledger, command)));
            bad += usize::from(expected.is_none());
            assert_eq!(answer, expected.unwrap_or("bad".to_owned()));
        }
    }
    assert!(bad > 500, "only {bad} bad lines");
}

#[test]
fn parts_of_any_length_give_the_same_answers() {
    for seed in 0..50 {
        let input = script(seed, &Profile::WILD);
        let whole = run(&input);
        for length in [1, 2, 7, 64, 65] {
            let mut player = Player::default();
            let mut output = Vec::new();
            for part in input.chunks(length) {
                player.feed(part, &mut output);
            }
            player.finish(&mut output);
            assert!(output == whole, "script {seed} in parts of {length}");
        }
    }
}

/// The output of the program for an input.
fn program(input: &[u8]) -> Vec<u8> {
    let mut child = Process::new(env!("CARGO_BIN_EXE_house_reference"))
        .stdin(Stdio::piped())
        .stdout(Stdio::piped())
        .spawn()
        .expect("the program starts");
    let mut stdin = child.stdin.take().expect("a piped input");
    let input = input.to_vec();
    // From another thread, since the program answers while it is still being written to.
    let writer = std::thread::spawn(move || stdin.write_all(&input));
    let output = child.wait_with_output().expect("the program ends");
    writer
        .join()
        .expect("the writer ends")
        .expect("all is read");
    assert!(output.status.success());
    output.stdout
}

#[test]
fn the_program_is_the_library() {
    assert_eq!(program(b""), b"");
    let mut long = vec![b'9'; 300_000];
    long.extend_from_slice(b"\nO 1 1\nX 0");
    assert_eq!(program(&long), b"bad\ndone\ncrashed 0 0 1 0 0\n");
    for seed in 0..20 {
        let input = script(seed, &Profile::CRASHES);
        assert!(program(&input) == run(&input), "script {seed}");
    }
}
