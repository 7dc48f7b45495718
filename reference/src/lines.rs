//! The lines of the program `house`: text in, one line out for each line in.

use crate::machine::{step, Answer, Command};
use crate::{ledger, table};

/// "At most 64 bytes before the line feed."
const LONGEST_LINE: usize = 64;
/// "A number has 1 to 10 digits."
const MOST_DIGITS: usize = 10;
/// The answer to a line that is no step.
const BAD: &str = "bad";

/// Reads the bytes of a line, without its line feed. None is a bad line.
///
/// "A line is a letter and its numbers in the order above, one space between." A doubled, leading or
/// trailing space leaves an empty field, which is neither a letter nor a number.
pub fn parse(line: &[u8]) -> Option<Command> {
    if line.len() > LONGEST_LINE {
        return None;
    }
    let mut fields = line.split(|&byte| byte == b' ');
    let letter = fields.next()?;
    let numbers = fields.map(number).collect::<Option<Vec<u32>>>()?;
    let command = match (letter, numbers.as_slice()) {
        (b"O", &[n, degree]) => Command::Open { n, degree },
        (b"K", &[controller, degree]) => Command::SetDegree { controller, degree },
        (b"S", &[sender, receiver, payload]) => Command::Send {
            sender,
            receiver,
            payload,
        },
        (b"R", &[message]) => Command::Release { message },
        (b"D", &[message]) => Command::Deliver { message },
        (b"L", &[controller, count]) => Command::Log { controller, count },
        (b"C", &[controller]) => Command::Checkpoint { controller },
        (b"T", &[owner, holder]) => Command::Tell { owner, holder },
        (b"X", &[controller]) => Command::Crash { controller },
        (b"H", &[hearer, crashed, incarnation]) => Command::Hear {
            hearer,
            crashed,
            incarnation,
        },
        _ => return None,
    };
    Some(command)
}

/// "A number has 1 to 10 digits and is at most 4,294,967,295." Leading zeros are digits.
fn number(digits: &[u8]) -> Option<u32> {
    let well_written = (1..=MOST_DIGITS).contains(&digits.len());
    if !well_written || !digits.iter().all(u8::is_ascii_digit) {
        return None;
    }
    let value = digits
        .iter()
        .fold(0u64, |value, digit| 10 * value + u64::from(digit - b'0'));
    u32::try_from(value).ok()
}

/// Writes a command as its line, without a line feed; [`parse`] reads it back. "New steps get a line in
/// `house` only where a request names the letter": setting the gap, releasing a set and the dispatcher have
/// none.
pub fn write(command: Command) -> Option<String> {
    let line = match command {
        Command::Open { n, degree } => format!("O {n} {degree}"),
        Command::SetDegree { controller, degree } => format!("K {controller} {degree}"),
        Command::Send {
            sender,
            receiver,
            payload,
        } => format!("S {sender} {receiver} {payload}"),
        Command::Release { message } => format!("R {message}"),
        Command::Deliver { message } => format!("D {message}"),
        Command::Log { controller, count } => format!("L {controller} {count}"),
        Command::Checkpoint { controller } => format!("C {controller}"),
        Command::Tell { owner, holder } => format!("T {owner} {holder}"),
        Command::Crash { controller } => format!("X {controller}"),
        Command::Hear {
            hearer,
            crashed,
            incarnation,
        } => format!("H {hearer} {crashed} {incarnation}"),
        Command::SetGap { .. } | Command::ReleaseSet { .. } | Command::Dispatch => return None,
    };
    Some(line)
}

/// Writes an answer as its line, without a line feed. The program never writes those to a set, whose words here
/// tell them from those to a release, nor that of an idle dispatcher.
pub fn render(answer: &Answer) -> String {
    match *answer {
        Answer::Done => "done".to_owned(),
        Answer::Sent { message } => format!("sent {message}"),
        Answer::Released { message, mask } => format!("released {message} {mask}"),
        Answer::Held { message, mask } => format!("held {message} {mask}"),
        Answer::Delivered {
            message,
            incarnation,
            number,
        } => format!("delivered {message} {incarnation} {number}"),
        Answer::Dropped {
            message,
            crashed,
            incarnation,
        } => format!("dropped {message} {crashed} {incarnation}"),
        Answer::Waits { message } => format!("waits {message}"),
        Answer::Crashed {
            controller,
            incarnation,
            kept,
            lost,
            replayed,
        } => format!("crashed {controller} {incarnation} {kept} {lost} {replayed}"),
        Answer::Heard { controller } => format!("heard {controller}"),
        Answer::Rolled {
            controller,
            kept,
            undone,
            replayed,
            crashed,
            incarnation: i,
        } => format!("rolled {controller} {kept} {undone} {replayed} {crashed} {i}"),
        Answer::Refused { number } => format!("refused {number}"),
        Answer::SetReleased { mask } => format!("set_released {mask}"),
        Answer::SetHeld { mask } => format!("set_held {mask}"),
        Answer::Idle => "idle".to_owned(),
    }
}

/// Plays a whole script from a table and a ledger of zero words.
pub fn run(input: &[u8]) -> Vec<u8> {
    let mut player = Player::new();
    let mut output = Vec::new();
    player.feed(input, &mut output);
    player.finish(&mut output);
    output
}

/// A house that is played by text coming in parts of any length, in constant memory.
pub struct Player {
    table: Vec<u32>,
    ledger: Vec<u32>,
    /// The line so far: at most one byte more than a good line has, enough to know it is too long.
    line: Vec<u8>,
}

impl Player {
    /// "`house` starts with a table of 15,152 zero words", and with a ledger of 257 beside it.
    pub fn new() -> Self {
        Player {
            table: vec![0; table::WORDS],
            ledger: vec![0; ledger::WORDS],
            line: Vec::with_capacity(LONGEST_LINE + 1),
        }
    }

    /// Takes the next part of the input, and appends the answers to all lines that end in it.
    pub fn feed(&mut self, input: &[u8], output: &mut Vec<u8>) {
        for part in input.split_inclusive(|&byte| byte == b'\n') {
            if let Some(end) = part.strip_suffix(b"\n") {
                self.lengthen(end);
                self.answer(output);
            } else {
                self.lengthen(part);
            }
        }
    }

    /// "A last line without line feed counts", if there is one.
    pub fn finish(&mut self, output: &mut Vec<u8>) {
        if !self.line.is_empty() {
            self.answer(output);
        }
    }

    fn lengthen(&mut self, part: &[u8]) {
        let room = LONGEST_LINE + 1 - self.line.len();
        self.line.extend(part.iter().take(room));
    }

    fn answer(&mut self, output: &mut Vec<u8>) {
        let answer = match parse(&self.line) {
            Some(command) => render(&step(&mut self.table, &mut self.ledger, command)),
            None => BAD.to_owned(),
        };
        self.line.clear();
        output.extend_from_slice(answer.as_bytes());
        output.push(b'\n');
    }
}

impl Default for Player {
    fn default() -> Self {
        Player::new()
    }
}
