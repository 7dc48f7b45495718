//! Random scripts for the program: the lines of a random list, some of them spoilt.

use super::{Profile, Random, Walk};
use crate::lines;

/// The input of one run of the program. Its last line may lack its line feed. A step that has no line is
/// left out.
pub fn script(seed: u64, profile: &'static Profile) -> Vec<u8> {
    let mut random = Random::new(!seed);
    let mut input = Vec::new();
    let steps = Walk::new(seed, profile);
    for line in steps.filter_map(|(command, _)| lines::write(command)) {
        let mut line = line.into_bytes();
        if random.chance(15) {
            spoil(&mut random, &mut line);
        }
        input.extend_from_slice(&line);
        input.push(b'\n');
    }
    if random.chance(50) {
        input.pop();
    }
    input
}

/// Changes a line in a way that often, but not always, makes it bad.
fn spoil(random: &mut Random, line: &mut Vec<u8>) {
    const BYTES: &[u8] = b" \t\r\n\0+-09OKSRDLCTXHxo.\x80\xff";
    let position = random.index(line.len() + 1);
    let byte = random.pick(BYTES).unwrap_or(b' ');
    match random.below(8) {
        0 => line.insert(position, byte),
        1 => line.truncate(position),
        2 => line.clear(),
        3 => line.make_ascii_lowercase(),
        4 => line.extend(std::iter::repeat_n(byte, random.index(100))),
        5 => line.push(byte),
        6 => line.extend_from_slice(b" 4294967296"),
        _ => lead_with_zeros(random, line),
    }
}

/// Writes zeros before the first number: well-formed up to ten digits.
fn lead_with_zeros(random: &mut Random, line: &mut Vec<u8>) {
    if let Some(space) = line.iter().position(|&byte| byte == b' ') {
        let zeros = vec![b'0'; random.index(12)];
        line.splice(space + 1..space + 1, zeros);
    }
}
