//! Scripts through the program `house`: every byte that it writes is the one that the rules ask for.

use compare::effort;
use compare::house::{program, run, Session};
use reference::generate::{script, Profile, Walk};
use reference::lines;
use reference::machine::Fault;
use std::fs;
use std::path::Path;
use std::thread;
use std::time::Duration;

/// The script of a stored example, and its answers.
fn stored(name: &str) -> [Vec<u8>; 2] {
    let examples = Path::new(env!("CARGO_MANIFEST_DIR")).join("../examples");
    ["in", "out"].map(|kind| {
        let file = examples.join(name).with_extension(kind);
        fs::read(file).expect("a stored example")
    })
}

/// The lines of Listing A, each with its answer.
fn listing_a() -> Vec<(String, String)> {
    let [script, answers] = stored("listing_a").map(|text| String::from_utf8(text).expect("ASCII"));
    let lines = |text: &str| -> Vec<String> { text.lines().map(|l| format!("{l}\n")).collect() };
    lines(&script).into_iter().zip(lines(&answers)).collect()
}

/// The examples that README, the guide and the page for operators show: Listing A, the worked example of the
/// method's paper, a message that is offered again after a crash, readings for the desk, a rollback that
/// replays from a later checkpoint, a held reading that is got out, and which crash it was.
#[test]
fn stored_examples_are_answered_as_stored() {
    for name in [
        "listing_a",
        "paper",
        "offered_again",
        "desk",
        "replayed",
        "reading_out",
        "which_crash",
    ] {
        let [script, expected] = stored(name);
        assert_eq!(played(&script), expected, "{name}");
        assert_eq!(lines::run(&script), expected, "{name}");
    }
}

/// The output of the program.
fn played(script: &[u8]) -> Vec<u8> {
    run(program(), script).expect("a program that plays to the end")
}

/// The answers of the program as text, without the last line feed, which must be there.
fn answers(script: &[u8]) -> String {
    let output = String::from_utf8(played(script)).expect("answers are ASCII");
    let answers = output.strip_suffix('\n');
    answers.expect("a last line feed").to_owned()
}

/// The program's output is that of the reference, byte by byte; returns how many lines it has.
fn assert_agrees(script: &[u8], name: &str) -> usize {
    let output = played(script);
    let expected = lines::run(script);
    if output == expected {
        return output.iter().filter(|&&byte| byte == b'\n').count();
    }
    let texts = [&output, &expected].map(|bytes| String::from_utf8_lossy(bytes));
    let [ours, theirs] = [0, 1].map(|side: usize| texts[side].split('\n'));
    let agreed = ours.clone().zip(theirs.clone());
    let agreed = agreed.take_while(|(ours, theirs)| ours == theirs).count();
    let [ours, theirs] = [ours, theirs].map(|mut lines| lines.nth(agreed));
    panic!("{name}, after {agreed} lines: {ours:?}, not {theirs:?}");
}

#[test]
fn listing_a_is_answered_as_listed() {
    let (input, output): (String, String) = listing_a().into_iter().unzip();
    assert_eq!(played(input.as_bytes()), output.as_bytes());
}

/// Example 10: "Log 0 refused 8; log of exactly live minus stable is done."
#[test]
fn a_log_counts_what_is_not_stable() {
    let mut input = "O 2 2\n".to_owned();
    for message in 1..=3 {
        input += &format!("S 0 1 7\nR {message}\nD {message}\n");
    }
    input += "L 1 0\nL 1 4\nL 1 3\nL 1 1\n";
    let answers = answers(input.as_bytes());
    let last: Vec<&str> = answers.lines().skip(10).collect();
    assert_eq!(last, ["refused 8", "refused 8", "done", "refused 8"]);
}

/// Example 11: "128th send done, 129th refused 11."
#[test]
fn messages_run_out() {
    let input = "O 2 2\n".to_owned() + &"S 0 1 7\n".repeat(129);
    let answers = answers(input.as_bytes());
    let last: Vec<&str> = answers.lines().skip(127).collect();
    assert_eq!(last, ["sent 127", "sent 128", "refused 11"]);
}

/// Each message of a house is published, and none is left that would find the ledger full. The next
/// opening clears the ledger, though nothing of it is shown: all can be published once more.
#[test]
fn a_house_publishes_all_its_messages() {
    let (mut input, mut expected) = (String::new(), String::new());
    for _ in 0..2 {
        input += "O 3 0\n";
        expected += "done\n";
        for message in 1..=128 {
            input += &format!("S {} 8 {message}\nR {message}\n", message % 3);
            expected += &format!("sent {message}\nreleased {message} 0\n");
        }
        input += "S 0 8 1\nR 128\nD 128\n";
        expected += "refused 11\nrefused 7\nrefused 7\n";
    }
    assert_eq!(played(input.as_bytes()), expected.as_bytes());
}

/// Receiver 8 is the desk however many controllers there are; those between are none.
#[test]
fn the_desk_is_receiver_8_in_every_house() {
    for n in 1..=8 {
        let mut input = format!("O {n} {n}\n");
        let mut expected = "done\n".to_owned();
        for receiver in (n..8).chain([9, 10, u32::MAX]) {
            input += &format!("S 0 {receiver} 7\n");
            expected += "refused 3\n";
        }
        input += "S 8 8 7\nS 0 8 7\nD 1\nR 1\nD 1\n";
        expected += "refused 3\nsent 1\nrefused 7\nreleased 1 0\nrefused 7\n";
        assert_eq!(played(input.as_bytes()), expected.as_bytes());
    }
}

#[test]
fn random_scripts_with_malformed_lines() {
    let mut lines = 0;
    for profile in Profile::LETTERED {
        for seed in 0..effort(40) {
            let name = format!("{} script {seed}", profile.name);
            lines += assert_agrees(&script(seed, profile), &name);
        }
    }
    assert!(lines > 30_000, "only {lines} lines");
}

/// A list as a script, and what its machine answers.
fn written(walk: Walk) -> (String, String) {
    let line = |command| lines::write(command).expect("a step with a line") + "\n";
    walk.map(|(command, answer)| (line(command), lines::render(&answer) + "\n"))
        .unzip()
}

/// Whether a fault can show in what the program writes: its ledger isn't shown, its gap is always off, and it has no
/// line for a set or the dispatcher.
fn shows_in_answers(fault: Fault) -> bool {
    let in_the_ledger_alone = matches!(
        fault,
        Fault::PublishedWithoutEntry | Fault::LedgerWrittenOnHeld | Fault::EntryOutOfOrder
    );
    let without_a_line = fault.needs_a_gap() || fault.needs_a_set() || fault.needs_the_dispatcher();
    fault.shows_in_lists() && !in_the_ledger_alone && !without_a_line
}

/// The comparison through the program can fail: every planted fault shows in some answer, but for those
/// that only a ledger, a gap or a lent table shows.
#[test]
fn every_planted_fault_that_answers_show_is_found() {
    let differs = |fault, seed| {
        let (input, output) = written(Walk::with_fault(seed, &Profile::CRASHES, fault));
        played(input.as_bytes()) != output.as_bytes()
    };
    let shown = |&fault: &Fault| shows_in_answers(fault);
    for fault in Fault::PLANTED.into_iter().filter(shown) {
        assert!((0..60).any(|seed| differs(fault, seed)), "{fault:?}");
    }
    assert!(!(0..10).any(|seed| differs(Fault::None, seed)));
}

/// Many houses one after the other in one long input, which the program can't read in one piece.
#[test]
fn one_long_script() {
    let scripts = (0..effort(200)).flat_map(|seed| script(seed, &Profile::MIXED));
    let input: Vec<u8> = scripts.collect();
    assert!(input.len() > 1 << 17);
    assert!(assert_agrees(&input, "a long script") > 10_000);
}

#[test]
fn what_counts_as_a_line() {
    assert_eq!(played(b""), b"");
    assert_eq!(played(b"\n"), b"bad\n");
    assert_eq!(played(b"\n\n"), b"bad\nbad\n");
    assert_eq!(played(b"O 1 0"), b"done\n");
    assert_eq!(played(b"O 1 0\n"), b"done\n");
    assert_eq!(played(b"O 1 0\n\n"), b"done\nbad\n");
    assert_eq!(played(b"x"), b"bad\n");
    assert_eq!(played(b" "), b"bad\n");
    assert_eq!(played(b"C 0\nO 9 9"), b"refused 2\nrefused 5\n");
}

/// A house is opened, the line in question is given, and the house must be as it was: a bad line
/// that was taken for a step would show.
fn assert_bad(line: &[u8]) {
    let input = [b"O 2 2\n", line, b"\nS 0 1 7\n"].concat();
    assert_eq!(answers(&input), "done\nbad\nsent 1", "{line:?}");
}

#[test]
fn single_bytes_make_a_line_bad() {
    let good = b"S 0 1 7";
    for byte in [
        0, b'\t', b'\r', b' ', b'-', b'+', b'.', 0x7f, 0x80, 0xb2, 0xff,
    ] {
        for position in 0..=good.len() {
            let mut line = good.to_vec();
            line.insert(position, byte);
            assert_bad(&line);
        }
    }
}

#[test]
fn other_bad_lines() {
    let lines: [&[u8]; 16] = [
        b"\0",
        b"S",
        b"s 0 1 7",
        b"SS 0 1 7",
        b"S0 1 7",
        b"S 0 1",
        b"S 0 1 7 7",
        b"S 0  7",
        b"S 0 1 4294967296",
        b"S 0 1 9999999999",
        b"S 0 1 00000000007",
        b"S 0 1 18446744073709551616",
        b"S 0 1 \xc2\xb2",
        b"\xef\xbb\xbfS 0 1 7",
        b"Z 0 1 7",
        b"bad",
    ];
    lines.into_iter().for_each(assert_bad);
}

#[test]
fn numbers_at_their_edges() {
    let input = b"O 0000000002 0000000002\nS 0 1 4294967295\nR 4294967295\nR 0000000001\n";
    assert_eq!(answers(input), "done\nsent 1\nrefused 4\nreleased 1 0");
}

/// A long line is one bad line, wherever a program might be tempted to cut it: what follows the cut
/// would be a step.
#[test]
fn a_long_line_is_one_line() {
    let cuts = [64usize, 256, 1_024, 4_096, 8_192, 65_536];
    for cut in cuts.into_iter().flat_map(|cut| cut - 2..=cut + 2) {
        for filling in [b'x', b'0', b' '] {
            let line = [&vec![filling; cut][..], b"O 1 1"].concat();
            assert_bad(&line);
        }
    }
}

#[test]
fn lines_of_megabytes() {
    for unit in [&b"0"[..], b" ", b"\0", b"S 0 1 7 ", b"O 1 1\r", b"\xff"] {
        assert_bad(&unit.repeat(3_000_000 / unit.len()));
    }
    // One without a line feed, to the end of the input.
    let last = [b"O 1 0\n", &vec![b'9'; 3_000_000][..]].concat();
    assert_eq!(answers(&last), "done\nbad");
}

/// A session with the program, in which each line is answered before the next one is written.
fn assert_answers_at_once(lines: impl IntoIterator<Item = (Vec<u8>, Vec<u8>)>) {
    let mut session = Session::start(program()).expect("a program that starts");
    for (line, expected) in lines {
        session.write(&line);
        let answer = session.line().expect("an answer before more input");
        assert_eq!(answer, expected, "{}", String::from_utf8_lossy(&line));
    }
    session.close_input();
    assert_eq!(session.rest().expect("the end of the output"), b"");
    let end = session.end().expect("an end with the input");
    assert!(end.status.success() && end.complaints.is_empty(), "{end:?}");
}

/// A script by its lines, each with its answer.
fn with_answers(script: &[u8]) -> Vec<(Vec<u8>, Vec<u8>)> {
    let output = lines::run(script);
    let lines = |text: &[u8]| -> Vec<Vec<u8>> {
        let lines = text.split_inclusive(|&byte| byte == b'\n');
        lines.map(<[u8]>::to_vec).collect()
    };
    let (input, output) = (lines(script), lines(&output));
    assert_eq!(input.len(), output.len());
    input.into_iter().zip(output).collect()
}

#[test]
fn each_line_is_answered_before_the_next() {
    let listing = listing_a().into_iter();
    assert_answers_at_once(listing.map(|(line, answer)| (line.into_bytes(), answer.into_bytes())));
    for seed in 0..effort(10) {
        let mut input = script(seed, &Profile::MIXED);
        // Without its line feed the last line would be answered only at the end of the input.
        if !input.ends_with(b"\n") {
            input.push(b'\n');
        }
        assert_answers_at_once(with_answers(&input));
    }
}

#[test]
fn a_line_may_come_in_parts() {
    let mut session = Session::start(program()).expect("a program that starts");
    for (line, answer) in listing_a() {
        for byte in line.as_bytes() {
            session.write(&[*byte]);
            // So that the program reads it before the next one comes.
            thread::sleep(Duration::from_millis(1));
        }
        assert_eq!(session.line().expect("an answer"), answer.as_bytes());
    }
    // A last line in parts, and without line feed.
    for part in ["C", " ", "0"] {
        session.write(part.as_bytes());
        thread::sleep(Duration::from_millis(1));
    }
    session.close_input();
    assert_eq!(session.rest().expect("the last answer"), b"done\n");
    let end = session.end().expect("an end with the input");
    assert!(end.status.success() && end.complaints.is_empty(), "{end:?}");
}

#[test]
fn a_long_script_in_small_writes() {
    let input = script(5, &Profile::FULL);
    let mut session = Session::start(program()).expect("a program that starts");
    input.chunks(3).for_each(|part| session.write(part));
    session.close_input();
    let output = session.rest().expect("all answers");
    assert!(output == lines::run(&input));
}

/// The reader of the answers goes away while there is more to write: the program ends by itself,
/// though its input goes on, and complains of nothing.
#[test]
fn a_closed_output_ends_it_quietly() {
    let mut session = Session::start(program()).expect("a program that starts");
    let lines = b"O 1 0\n".repeat(500_000);
    session.write(&lines);
    assert_eq!(session.line().expect("a first answer"), b"done\n");
    session.close_output();
    let end = session.end().expect("an end before that of the input");
    assert_eq!(end.complaints, "", "{:?}", end.status);
}
