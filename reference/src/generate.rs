//! Random lists of steps, sets, lent tables and ledgers, and scripts, all from a seed.

mod choose;
mod condemned;
mod dispatch;
mod gaps;
mod ledgers;
mod lists;
mod named;
mod profile;
mod random;
mod scripts;
mod sets;
mod tables;

pub use condemned::condemned_table;
pub use dispatch::{damaged_served, dispatch_table};
pub use gaps::{damaged_gap, gap, gapped_table};
pub use ledgers::{damaged_ledger, nearly_full_ledger, sound_ledger};
pub use lists::{senseless, Walk};
pub use named::named;
pub use profile::Profile;
pub use random::Random;
pub use scripts::script;
pub use sets::{set, set_table};
pub use tables::{damaged, in_form_table, noise, with_damage, wrong_length};
