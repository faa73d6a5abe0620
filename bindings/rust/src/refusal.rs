//! What a call is refused with.

use std::fmt;

/// Why a call was refused. A refused call changes nothing. Later versions may add refusals.
#[derive(Clone, Copy, Debug, PartialEq, Eq)]
#[non_exhaustive]
pub enum Refusal {
    /// 1: bytes run out where a record is due or inside one.
    Truncated,
    /// 2: the mark is not due there.
    UnexpectedMark,
    /// 3: n, m, p or k outside its bounds, which in a file are those of the gate's record; in a text that goes out, with the
    /// copies among the gates.
    OutOfBounds,
    /// 4: a fan-in that is not an earlier signal.
    FaninNotEarlier,
    /// 5: a fan-in already listed in this gate.
    FaninRepeated,
    /// 6: a bit set at or past 2^k in a table, or 2^n in the excluded set.
    BitPastEnd,
    /// 7: an output signal not below n+m.
    NotASignal,
    /// 8: bytes after the last record.
    TrailingBytes,
    /// 9: a buffer shorter than the words or bytes needed. Only the calls in [`raw`](crate::raw) can meet it.
    BufferTooShort,
    /// 10: the session's words hold no network.
    InvalidState,
    /// 11: no gate has that signal number.
    NotAGate,
    /// 12: the table has a bit at or past 2^k.
    TableTooWide,
    /// 13: an exchange alters a closed entry of the loaded table.
    ClosedEntry {
        /// The smallest such entry.
        entry: u64,
    },
    /// 14: a verdict finds that an output changes.
    Harm {
        /// Of the patterns not excluded that change one, the one with the fewest ones, the smaller number among equals.
        pattern: u64,
        /// There, the lowest changed output number.
        output: u64,
    },
    /// 15: a verdict's lists are of unequal length. Only the calls in [`raw`](crate::raw) can meet it.
    ListsUnequal,
    /// 16: a verdict names a gate a second time.
    GateRepeated,
    /// 17: a BLIF line outside the subset or out of order, or no line where one is due.
    OutsideSubset,
    /// 18: a name in a BLIF text that is unknown where used, defined twice, or listed twice in one line.
    BadName,
}

impl Refusal {
    /// The refusal with this number, and the values that it names at the start of `out`. 0 is none.
    pub(crate) fn of(number: u64, out: &[u64]) -> Result<(), Refusal> {
        Err(match number {
            0 => return Ok(()),
            1 => Refusal::Truncated,
            2 => Refusal::UnexpectedMark,
            3 => Refusal::OutOfBounds,
            4 => Refusal::FaninNotEarlier,
            5 => Refusal::FaninRepeated,
            6 => Refusal::BitPastEnd,
            7 => Refusal::NotASignal,
            8 => Refusal::TrailingBytes,
            9 => Refusal::BufferTooShort,
            10 => Refusal::InvalidState,
            11 => Refusal::NotAGate,
            12 => Refusal::TableTooWide,
            13 => Refusal::ClosedEntry { entry: out[0] },
            14 => Refusal::Harm {
                pattern: out[0],
                output: out[1],
            },
            15 => Refusal::ListsUnequal,
            16 => Refusal::GateRepeated,
            17 => Refusal::OutsideSubset,
            18 => Refusal::BadName,
            other => unreachable!("no call returns {other}"),
        })
    }

    /// 1 to 18.
    pub fn number(&self) -> u64 {
        match self {
            Refusal::Truncated => 1,
            Refusal::UnexpectedMark => 2,
            Refusal::OutOfBounds => 3,
            Refusal::FaninNotEarlier => 4,
            Refusal::FaninRepeated => 5,
            Refusal::BitPastEnd => 6,
            Refusal::NotASignal => 7,
            Refusal::TrailingBytes => 8,
            Refusal::BufferTooShort => 9,
            Refusal::InvalidState => 10,
            Refusal::NotAGate => 11,
            Refusal::TableTooWide => 12,
            Refusal::ClosedEntry { .. } => 13,
            Refusal::Harm { .. } => 14,
            Refusal::ListsUnequal => 15,
            Refusal::GateRepeated => 16,
            Refusal::OutsideSubset => 17,
            Refusal::BadName => 18,
        }
    }
}

/// In words, with the numbers that it names.
impl fmt::Display for Refusal {
    fn fmt(&self, f: &mut fmt::Formatter<'_>) -> fmt::Result {
        let words = match self {
            Refusal::Truncated => "the file ends where a record is due or inside one",
            Refusal::UnexpectedMark => "the file has a mark that is not due there",
            Refusal::OutOfBounds => "the network has n, m, p or k outside its bounds",
            Refusal::FaninNotEarlier => "the file has a fan-in that is not an earlier signal",
            Refusal::FaninRepeated => "the file lists a fan-in twice in one gate",
            Refusal::BitPastEnd => "the file has a bit past the end of a table or excluded set",
            Refusal::NotASignal => "the file has an output that is not a signal",
            Refusal::TrailingBytes => "the file has bytes after its last record",
            Refusal::BufferTooShort => "a buffer is too short",
            Refusal::InvalidState => "the session's words hold no network",
            Refusal::NotAGate => "no gate has that signal number",
            Refusal::TableTooWide => "the table has a bit past the gate's last entry",
            Refusal::ClosedEntry { entry } => {
                return write!(f, "the exchange alters entry {entry}, which is closed");
            }
            Refusal::Harm { pattern, output } => {
                return write!(
                    f,
                    "the replacement changes output {output} at pattern {pattern}"
                );
            }
            Refusal::ListsUnequal => "there are not as many gates as tables",
            Refusal::GateRepeated => "a gate is named a second time",
            Refusal::OutsideSubset => "the text has a line outside the subset, or ends before .end",
            Refusal::BadName => "the text has a name that is unknown, or stands twice",
        };
        f.write_str(words)
    }
}

impl std::error::Error for Refusal {}
