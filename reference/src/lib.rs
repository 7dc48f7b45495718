//! A second implementation of the house recovery machine (K-optimistic logging), written from the
//! rules alone, to hold the first one against.
//!
//! From the bottom up:
//! - [`vector`]: dependency vectors; known stable, condemned, merged.
//! - [`table`]: the words of the lent table, and when a table is in form.
//! - [`ledger`]: the words of the lent ledger, and when it is sound.
//! - [`refusal`]: the refusals by name.
//! - [`machine`]: the step function, and planted faults.
//! - [`lines`]: the text lines of the program `house`.
//! - [`history`]: the history of a house, read off the steps and their answers alone.
//! - [`demand`]: demand 3, the ledger, the ceiling on replay and the crashes named, judged by that history.
//! - [`facts`]: what ties a table to its history after each step of the sound machine.
//! - [`blames`]: which crash `dropped` and `rolled` name, in words.
//! - [`causes`]: what became of the causes of lost and undone intervals, in words.
//! - [`dispatched`]: whom the dispatcher serves and whom it passes over, in words.
//! - [`forced`]: which new intervals the gap asked a checkpoint of, in words.
//! - [`rollbacks`]: from which checkpoint a rollback replays, in words.
//! - [`sets`]: what became of sets of messages, in words.
//! - [`generate`]: random lists of steps, lent tables and scripts.
//!
//! Quoted sentences in the comments are the rules that the code below them follows.

pub mod blames;
pub mod causes;
pub mod demand;
pub mod dispatched;
pub mod facts;
pub mod forced;
pub mod generate;
pub mod history;
pub mod ledger;
pub mod lines;
pub mod machine;
pub mod refusal;
pub mod rollbacks;
pub mod sets;
pub mod table;
pub mod vector;
