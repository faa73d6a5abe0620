//! Documents 01 and 02 by plain enumeration, pattern by pattern: no words of patterns, no sharing between gates, no early stops
//! beyond those that 01 asks for.

mod blif;
mod calls;
mod file;
mod listing;
mod network;
pub mod old_format;
mod order;
mod sets;
mod state;

pub use blif::{outgoing, read_blif, write_blif};
pub use calls::call;
pub use file::{load, write};
pub use listing::listing;
pub use network::{all_entries, bit, weight, Network};
pub use order::{answer, pairs, REASONS, USAGE};
pub use state::*;
