//! The messages that a set names.

use std::fmt::{self, Debug, Formatter};
use std::ops::Deref;

/// How many numbers there is room for: more than a set may have, so that a list can be too long for one.
const ROOM: usize = 20;

/// A list of message numbers in the order given, which need not be a set. It has room for [`Messages::MOST`]
/// of them; any longer list is refused as one of 17 is.
#[derive(Clone, Copy, PartialEq, Eq)]
pub struct Messages {
    count: u32,
    /// 0 from the count on.
    numbers: [u32; ROOM],
}

impl Messages {
    /// The longest list.
    pub const MOST: usize = ROOM;

    /// The list of these numbers.
    ///
    /// # Panics
    /// If there are more than [`MOST`](Messages::MOST).
    pub fn of(messages: &[u32]) -> Self {
        let mut numbers = [0; ROOM];
        numbers[..messages.len()].copy_from_slice(messages);
        Messages {
            count: messages.len() as u32,
            numbers,
        }
    }
}

impl Deref for Messages {
    type Target = [u32];

    fn deref(&self) -> &[u32] {
        &self.numbers[..self.count as usize]
    }
}

impl Debug for Messages {
    /// As the list that it is.
    fn fmt(&self, f: &mut Formatter<'_>) -> fmt::Result {
        self[..].fmt(f)
    }
}
