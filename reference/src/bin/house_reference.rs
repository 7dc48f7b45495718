//! The program `house`: steps as lines on standard input, answers as lines on standard output.

use reference::lines::Player;
use std::io::{self, ErrorKind, Read, Write};

fn main() -> io::Result<()> {
    let mut input = io::stdin().lock();
    let mut output = io::stdout().lock();
    let mut player = Player::new();
    let mut part = vec![0; 1 << 16];
    let mut answers = Vec::new();
    loop {
        let length = match input.read(&mut part) {
            Ok(0) => break,
            Ok(length) => length,
            Err(error) if error.kind() == ErrorKind::Interrupted => continue,
            Err(error) => return Err(error),
        };
        player.feed(&part[..length], &mut answers);
        output.write_all(&answers)?;
        answers.clear();
    }
    player.finish(&mut answers);
    output.write_all(&answers)?;
    output.flush()
}
