//! The calls of the C boundary, and the buffers that are lent to them.

/// A call, with what it takes by value, and the lists that a verdict reads.
#[derive(Clone, Debug, PartialEq)]
pub enum Call {
    Load,
    ReadBlif,
    Tables { gate: usize },
    AllTables,
    PatternSets,
    Hidden,
    Verdict { gates: Vec<u64>, tables: Vec<u64> },
    Exchange { gate: usize, table: u64 },
    Write,
    WriteBlif,
    Listing,
}

/// The buffers of a call. One that a call does not take stays as it is.
#[derive(Clone, Debug, PartialEq)]
pub struct Lent {
    /// The session: written by load, read BLIF and exchange, read by the others.
    pub session: Vec<u64>,
    /// The file that load and listing read, or the text that read BLIF does.
    pub file: Vec<u8>,
    /// Where write puts the file, and write BLIF and listing the text.
    pub bytes: Vec<u8>,
    /// `out`, or `words` of the pattern sets.
    pub out: Vec<u64>,
}

/// Bytes that are enough for any file, for any listing and for any BLIF text that goes out.
const MOST_FILE: usize = 839;
const MOST_TEXT: usize = 2482;
pub const MOST_BLIF: usize = 24543;

impl Call {
    /// More bytes than the call needs of any network, and more words.
    pub fn room(&self) -> (usize, usize) {
        let (bytes, words) = match self {
            Call::Write => (MOST_FILE, 1),
            Call::WriteBlif => (MOST_BLIF, 1),
            Call::Listing => (MOST_TEXT, 1),
            Call::AllTables => (0, 200),
            Call::PatternSets => (0, 1280),
            Call::Hidden => (0, 40),
            _ => (0, 5),
        };
        (bytes + 9, words + 9)
    }
}

impl Lent {
    /// With a known filling in the buffers that are only written.
    pub fn new(session: &[u64], file: &[u8], bytes: usize, out: usize) -> Lent {
        Lent {
            session: session.to_vec(),
            file: file.to_vec(),
            bytes: (0..bytes).map(|i| (i * 7 + 0xA5) as u8).collect(),
            out: filling(out),
        }
    }

    /// A session for this call, with more than enough room beside it.
    pub fn session(call: &Call, words: &[u64]) -> Lent {
        let (bytes, out) = call.room();
        Lent::new(words, &[], bytes, out)
    }

    /// A file or a text for this call, with more than enough room beside it.
    pub fn file(call: &Call, file: &[u8]) -> Lent {
        let (bytes, out) = call.room();
        Lent::new(&filling(430), file, bytes, out)
    }
}

/// Words that no call would write.
pub fn filling(length: usize) -> Vec<u64> {
    (0..length)
        .map(|i| 0xA5A5_5A5A_0000_0000 + i as u64)
        .collect()
}

/// A way into the engine: it carries out a call on the lent buffers, and returns the number.
pub struct Way {
    pub name: &'static str,
    pub run: fn(&Call, &mut Lent) -> u64,
}
