//! The refusals by name, "by whom it is caused". "Where several apply, the lowest number is given",
//! but for those whose place a request names.

/// A refusal, by its number.
pub type Refusal = u32;

// The host that lends the table and the ledger:

/// "Length is not 15,152."
pub const LENGTH: Refusal = 1;
/// "Table not in form (not looked at by open)."
pub const FORM: Refusal = 2;
/// "When the ledger's length is not 257, its count is above 128, or a pair past the count is not 0; it
/// stands directly after 2, at release and, for the length only, directly after 1 at opening."
pub const LEDGER: Refusal = 14;

// The caller naming things:

/// "Controller not below n."
pub const CONTROLLER: Refusal = 3;
/// "Message number 0 or above the messages sent."
pub const MESSAGE: Refusal = 4;
/// "n not 1 to 8, or a degree above n"; and "a Q above 64 is refused with 5".
pub const DEGREE: Refusal = 5;
/// "The two controllers of S or T are equal"; and of a set "a list of another length, or a message named
/// twice, is refused with 6".
pub const SAME_CONTROLLER: Refusal = 6;

// The order of steps:

/// "Release of a message not held, delivery of one not released."
pub const STATE: Refusal = 7;
/// "When the messages have more than one sender; it stands directly after 7."
pub const SENDERS: Refusal = 15;
/// "q is 0 or above live minus stable."
pub const LOG_COUNT: Refusal = 8;
/// "a's own end word for t is 0, or t above 15."
pub const NO_SUCH_CRASH: Refusal = 9;
/// "b's end word for a and t isn't 0."
pub const ALREADY_HEARD: Refusal = 10;

// Too much used:

/// "128 messages were sent since opening."
pub const MESSAGES_USED_UP: Refusal = 11;
/// "Delivery with 64 live, unless it drops or waits; crash with 64 stable."
pub const PLACES_USED_UP: Refusal = 12;
/// "Crash, or a hearing that must undo, in incarnation 15."
pub const INCARNATIONS_USED_UP: Refusal = 13;
/// "When publishing would carry the count past 128; it stands last at release."
pub const LEDGER_USED_UP: Refusal = 18;
