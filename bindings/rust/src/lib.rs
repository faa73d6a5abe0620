//! Don't-care tables of gate networks, verdicts on any handful of gates, and sessions of exchanges: safe calls of the
//! static library that `include/tusqirma.h` describes, which also says what signals, patterns and tables are, and what
//! is proved.
//!
//! A one in the excluded set means that the pattern **never** comes.
//!
//! May gates 1 and 2 of this network both be set to table 0? Both copy input 0, and gate 3 is their OR:
//!
//! ```
#![doc = include_str!("../examples/twin.rs")]
//! ```
//!
//! prints
//!
//! ```text
#![doc = include_str!("../examples/twin.txt")]
//! ```
#![deny(unsafe_code, missing_docs)]

#[allow(missing_docs)]
pub mod raw;
mod refusal;
mod session;

pub use refusal::Refusal;
pub use session::{PatternSets, Session, Tables, SESSION_WORDS};

/// Enough for any listing.
const MOST_TEXT: usize = 2482;

/// The listing of a file; of one that would not load, the line `refused N`.
pub fn listing(file: &[u8]) -> String {
    let text = session::filled(MOST_TEXT, |text, length| raw::listing(file, text, length));
    let text = text.expect("there is room for any listing");
    String::from_utf8(text).expect("a listing is ASCII")
}
