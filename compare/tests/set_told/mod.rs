//! One call that releases a set.

use compare::agreement::Lent;
use goulvizad::raw::{release_set, VALUE_WORDS};

/// What stands where nobody shall write; no answer has it.
pub const UNTOUCHED: u32 = 0xA5A5_A5A5;

/// The number and the values of an answer.
pub type Told = (u32, [u32; VALUE_WORDS]);

/// The answer to a set on what is lent.
pub fn told(lent: &mut Lent, messages: &[u32]) -> Told {
    let mut values = [UNTOUCHED; VALUE_WORDS];
    let Lent { table, ledger } = lent;
    let number = release_set(table, ledger, messages, &mut values);
    (number, values)
}
