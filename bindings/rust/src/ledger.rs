//! The ledger, as one reads it who cites from it.

/// The words of a pair: message number and payload.
const PAIR_WORDS: usize = 2;

/// A reading that was published. The interval that sent it is never lost or undone before the next
/// opening, so it may be cited.
#[derive(Clone, Copy, Debug, PartialEq, Eq, Hash)]
pub struct Citation {
    /// The number of the message that carried the reading.
    pub message: u32,
    /// The reading.
    pub payload: u32,
}

/// The readings in a ledger, in the order of publishing. Words that are no ledger have as many as their
/// count says, or as there are pairs.
///
/// ```
/// use goulvizad::{citations, Citation};
///
/// let ledger = [2, 7, 24, 9, 18, 0, 0];
/// let frames: Vec<u32> = citations(&ledger).map(|citation| citation.payload).collect();
/// assert_eq!(frames, [24, 18]);
/// assert_eq!(citations(&ledger).last(), Some(Citation { message: 9, payload: 18 }));
/// assert_eq!(citations(&[]).next(), None);
/// ```
pub fn citations(ledger: &[u32]) -> impl Iterator<Item = Citation> + '_ {
    let (count, pairs) = match ledger {
        [count, pairs @ ..] => (*count, pairs),
        [] => (0, ledger),
    };
    let published = pairs.chunks_exact(PAIR_WORDS).take(count as usize);
    published.map(|pair| Citation {
        message: pair[0],
        payload: pair[1],
    })
}
