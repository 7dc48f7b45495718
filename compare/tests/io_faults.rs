//! Faults of reading and writing in the program `house`: what comes out is always a first part of what
//! it writes without them, and it says what went wrong.

mod faults;

use compare::effort;
use compare::house::{program, run};
use faults::{by_shell, under, Call, Ended, Run};
use reference::generate::Random;
use reference::lines;
use std::collections::BTreeSet;
use std::fs;
use std::io::{self, Read, Write};
use std::os::fd::OwnedFd;
use std::os::unix::net::UnixStream;
use std::os::unix::process::ExitStatusExt;
use std::path::Path;

/// How many words there are with which an answer begins, `bad` among them.
const ANSWERS: usize = 12;

/// An error by its name, and by its text.
type Error = (&'static str, &'static str);
const EAGAIN: Error = ("EAGAIN", "Resource temporarily unavailable");
const EIO: Error = ("EIO", "Input/output error");
const ENOSPC: Error = ("ENOSPC", "No space left on device");

fn example(name: &str) -> Vec<u8> {
    let examples = Path::new(env!("CARGO_MANIFEST_DIR")).join("../examples");
    fs::read(examples.join(name)).expect("a stored example")
}

/// A script for many reads with all steps and lines of every kind, the last one without line feed; and
/// its answers, of all kinds, in which both implementations agree.
fn script() -> (Vec<u8>, Vec<u8>) {
    let mut script = ["listing_a.in", "paper.in", "desk.in"]
        .map(example)
        .concat();
    script.extend(b"C 1\nT 1 0\n\n\n \n\0\n\xff\nS 0 1 7\r\nS 0 1\n");
    for length in [63, 64, 65, 66, 1_000] {
        script.extend(vec![b'0'; length]);
        script.push(b'\n');
    }
    let script = [&script.repeat(3)[..], b"S 0 1 7"].concat();
    let right = run(program(), &script).expect("a program that plays to the end");
    assert!(right == lines::run(&script));
    let answers = right.split(|&byte| byte == b'\n' || byte == b' ');
    let words = answers.filter(|word| word.first().is_some_and(u8::is_ascii_alphabetic));
    assert_eq!(words.collect::<BTreeSet<_>>().len(), ANSWERS);
    (script, right)
}

/// The program has written all, and complained of nothing.
fn assert_whole(ended: &Ended, right: &[u8]) {
    assert!(ended.complaint.is_empty(), "{ended:?}");
    assert!(ended.status.success(), "{ended:?}");
    assert!(ended.output == right, "{ended:?}");
}

/// The program ended with a call that failed, and said so in a line. What has come out is what its
/// writes took, and a first part of the right output.
fn assert_gave_up(ended: &Ended, what: &str, error: Error, right: &[u8]) {
    let last = ended.calls.last().expect("a call");
    assert!(last.name.starts_with(&what[..1]), "{ended:?}");
    assert_eq!(last.answer, Err(error.0.to_owned()), "{ended:?}");
    assert_eq!(ended.complaint, format!("house: {what}: {}\n", error.1));
    let taken = ended.writes().flat_map(|call| &call.answer);
    assert_eq!(ended.output.len(), taken.sum(), "{ended:?}");
    assert!(right.starts_with(&ended.output), "{ended:?}");
}

/// Nor after writes that took only a part.
#[test]
fn after_a_failed_write_there_is_no_other() {
    let (script, right) = script();
    for (cuts, first) in [("", 1), ("r:100", 1), ("w:1", 2), ("w:7", 2), ("w:100", 2)] {
        let writes = under(cuts, &script).writes().count();
        for error in [ENOSPC, EIO, EAGAIN] {
            for call in (first..=writes).step_by(1 + writes / 20) {
                let ended = under(&format!("w{call}={} {cuts}", error.0), &script);
                assert_gave_up(&ended, "write", error, &right);
            }
        }
    }
}

#[test]
fn short_writes_lose_nothing() {
    let (script, right) = script();
    for most in [1, 7, 100] {
        let ended = under(&format!("w:{most}"), &script);
        assert_whole(&ended, &right);
        let short = |call: &Call| call.asked <= most || call.answer == Ok(most);
        assert!(ended.writes().all(short), "{ended:?}");
    }
}

/// It would never end if it tried again, and an interrupted call before doesn't make it one.
#[test]
fn a_write_that_takes_nothing_ends_it() {
    let (script, right) = script();
    for plan in ["w2:0", "r1=EINTR w2:0"] {
        let ended = under(plan, &script);
        assert_eq!(ended.complaint, "house: write: nothing was taken\n");
        assert_eq!(ended.writes().count(), 2, "{ended:?}");
        assert!(right.starts_with(&ended.output), "{ended:?}");
        assert!(!ended.output.is_empty(), "{ended:?}");
    }
}

/// Every call is interrupted before it is made, the one that finds the end of the input too; and some
/// are many times.
#[test]
fn an_interrupted_call_is_made_again() {
    let (script, right) = script();
    for cuts in ["", "r:50", "w:7", "r:50 w:7"] {
        let calls = under(cuts, &script).calls;
        let twice = |call: &Call| {
            let (letter, number) = call.name.split_at(1);
            let number: usize = number.parse().expect("the number of a call");
            format!("{letter}{}=EINTR ", 2 * number - 1)
        };
        let plan: String = calls.iter().map(twice).collect();
        assert_whole(&under(&(plan + cuts), &script), &right);
    }
    let plan = (2..200).map(|call| format!("r{call}=EINTR w{call}=EINTR "));
    assert_whole(&under(&plan.collect::<String>(), &script), &right);
}

/// Only lines that had ended are carried out. The last one, without line feed, isn't: that the input
/// has ended is what a failed read doesn't say.
#[test]
fn a_failed_read_makes_no_line_of_what_was_half_read() {
    let script = [&example("listing_a.in")[..], b"S 0 1 7"].concat();
    for (most, error) in [(1, EIO), (3, EIO), (7, EAGAIN), (64, EIO)] {
        for reads in 0..=script.len().div_ceil(most) {
            let mut plan = format!("r{}={}", reads + 1, error.0);
            if reads > 0 {
                plan += &format!(" r:{most}");
            }
            let ended = under(&plan, &script);
            let read = &script[..script.len().min(reads * most)];
            let feed = read.iter().rposition(|&byte| byte == b'\n');
            let right = lines::run(&read[..feed.map_or(0, |feed| feed + 1)]);
            assert_gave_up(&ended, "read", error, &right);
            assert_eq!(ended.output, right, "{ended:?}");
        }
    }
}

/// An end of a pipe at which no call waits. A `UnixStream` is only how the standard library says so:
/// it belongs to what is open, whatever that is.
fn nonblocking(end: impl Into<OwnedFd>) -> OwnedFd {
    let end = UnixStream::from(end.into());
    end.set_nonblocking(true).expect("a pipe that can be so");
    end.into()
}

#[test]
fn a_half_line_of_a_slow_writer_is_no_line() {
    let half = "S 0 1 7";
    for (lines, right) in [("", ""), ("O 3 1\n", "done\n")] {
        let (input, mut slow) = io::pipe().expect("a pipe");
        let sent = write!(slow, "{lines}{half}");
        sent.expect("room in the pipe");
        let mut run = Run::with_faults("", program(), b"");
        run.command.stdin(nonblocking(input));
        let ended = run.end();
        assert_gave_up(&ended, "read", EAGAIN, right.as_bytes());
        assert_eq!(ended.output, right.as_bytes());
        // Up to here the pipe had a writer.
        drop(slow);
    }
}

#[test]
fn a_full_pipe_ends_it() {
    let script = script().0.repeat(80);
    let (mut unread, output) = io::pipe().expect("a pipe");
    let mut run = Run::with_faults("", program(), &script);
    run.command.stdout(nonblocking(output));
    let mut ended = run.end();
    let held = unread.read_to_end(&mut ended.output);
    assert!(held.expect("what the pipe holds") > 0);
    assert_gave_up(&ended, "write", EAGAIN, &lines::run(&script));
}

/// The program ignores the signal of a closed pipe from its start, so that an error ends it, whether
/// the signal was ignored before or not. The output is more than a pipe holds: another test that is
/// just starting its program has a copy of the closed end until then.
#[test]
fn a_closed_pipe_ends_it_quietly() {
    let script = script().0.repeat(80);
    let into_closed = |command| {
        let mut run = Run::with_faults("", command, &script);
        let (_, output) = io::pipe().expect("a pipe");
        run.command.stdout(output);
        run.end()
    };
    let ignored = by_shell("trap '' PIPE && exec \"$0\"");
    for by_error in [
        into_closed(program()),
        into_closed(ignored),
        under("w2=EPIPE", &script),
    ] {
        let last = by_error.calls.last().expect("a call");
        assert_eq!(last.answer, Err("EPIPE".to_owned()), "{by_error:?}");
        assert_eq!(by_error.status.signal(), None, "{by_error:?}");
        assert_eq!(by_error.complaint, "");
    }
}

/// Injected by the system: a write takes the part for which there is room, and the next one fails.
#[test]
fn a_file_that_may_not_grow_has_a_first_part() {
    let (script, right) = script();
    let words = "trap '' XFSZ && ulimit -f 1 && exec \"$0\"";
    let ended = Run::new(by_shell(words), &script).end();
    assert_eq!(ended.complaint, "house: write: File too large\n");
    assert!(right.starts_with(&ended.output), "{ended:?}");
    assert!((1..right.len()).contains(&ended.output.len()), "{ended:?}");
}

#[test]
fn what_cannot_be_read_or_written_is_complained_of() {
    let script = script().0.repeat(20);
    for (redirected, complaint) in [
        ("> /dev/full", "house: write: No space left on device\n"),
        (">&-", "house: write: Bad file descriptor\n"),
        ("<&-", "house: read: Bad file descriptor\n"),
        ("< .", "house: read: Is a directory\n"),
        ("> /dev/full 2>&-", ""),
    ] {
        let ended = Run::new(by_shell(&format!("exec \"$0\" {redirected}")), &script).end();
        assert_eq!(ended.complaint, complaint, "{redirected}");
        assert_eq!(ended.output, b"", "{redirected}");
        assert_eq!(ended.status.signal(), None, "{redirected}");
    }
}

/// A plan by which so many bytes are read in parts of random lengths.
fn random_reads(seed: u64, longest: u32, length: usize) -> String {
    let mut random = Random::new(seed);
    let mut left = length;
    let parts = std::iter::from_fn(|| {
        let part = left.min(random.within(1..=longest) as usize);
        left -= part;
        Some(part).filter(|&part| part > 0)
    });
    let words = parts
        .enumerate()
        .map(|(before, part)| format!("r{}:{part} ", before + 1));
    words.collect()
}

#[test]
fn wherever_reads_end_the_output_is_the_same() {
    let (script, right) = script();
    for cuts in ["r:1", "r:3", "r:64", "r:65", "r:1 w:1"] {
        assert_whole(&under(cuts, &script), &right);
    }
    for seed in 0..effort(8) {
        let cuts = random_reads(seed, 2 << (seed % 8), script.len());
        assert_whole(&under(&cuts, &script), &right);
    }
}

/// Without an environment, which would lie on the stack too. On less than its table and its ledger the
/// program can't run: the limit is one.
#[test]
fn a_stack_of_128_kilobytes_is_enough() {
    let (script, right) = script();
    let on_stack = |kilobytes: u32, redirected: &str| {
        let words = format!("ulimit -c 0 && ulimit -s {kilobytes} && exec \"$0\" {redirected}");
        let mut shell = by_shell(&words);
        shell.env_clear();
        Run::new(shell, &script).end()
    };
    assert_whole(&on_stack(128, ""), &right);
    let complaint = on_stack(128, "> /dev/full").complaint;
    assert_eq!(complaint, format!("house: write: {}\n", ENOSPC.1));
    assert!(!on_stack(32, "").status.success());
}

/// Faults in calls that are never made, faults that change nothing, and words that are none.
#[test]
fn what_did_not_happen_is_not_reported() {
    let (script, right) = script();
    let plan = "r10000=EIO w10000=ENOSPC r1:100000 w2:100000 w3=ENONE x1=EIO";
    let ended = Run::with_faults(plan, program(), &script).end();
    ended.assert_carried_out("");
    assert_whole(&ended, &right);
}

#[test]
#[should_panic(expected = "other faults than planned")]
fn a_plan_that_is_not_carried_out_fails_its_test() {
    under("r1=EINTR w1000=EIO", b"O 1 1\n");
}

#[test]
#[should_panic(expected = "no library of faults")]
fn a_program_that_takes_no_library_fails_its_test() {
    let mut run = Run::with_faults("r1=EINTR", program(), b"O 1 1\n");
    run.command.env_remove("LD_PRELOAD");
    run.end().assert_carried_out("r1=EINTR");
}
