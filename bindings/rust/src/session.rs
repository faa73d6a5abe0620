//! A session, and the calls on it, with buffers of their own.

use crate::{raw, Refusal};

/// The number of a session's words.
pub const SESSION_WORDS: usize = 427;

/// Bytes of the longest file that loads.
const MOST_FILE: usize = 839;
/// Enough for any BLIF text that goes out.
const MOST_BLIF: usize = 24543;
const MOST_GATES: usize = 40;
/// Words of a gate's tables.
const TABLE_WORDS: usize = 5;
/// Words of a set of patterns with ten inputs.
const MOST_SET: usize = 16;

/// A network as loaded and as it stands after the exchanges, with the open tables of the loaded one.
#[derive(Clone, Debug, PartialEq, Eq)]
pub struct Session {
    words: Box<[u64; SESSION_WORDS]>,
}

/// The tables of a gate, with entry t at bit t.
#[derive(Clone, Copy, Debug, PartialEq, Eq)]
pub struct Tables {
    /// Satisfiability don't cares of the current network: entry t + 2^k·o is set when o differs from the table's entry t.
    /// Lower entries first; the second word is 0 for up to five fan-ins.
    pub sdc: [u64; 2],
    /// Controllability don't cares of the current network: entry t is set when no pattern outside the excluded set gives it.
    pub cdc: u64,
    /// The entries that a lone replacement may alter in the current network.
    pub full: u64,
    /// The entries that an exchange may alter, whatever is exchanged elsewhere.
    pub open: u64,
}

/// Two sets of patterns of a gate, with pattern x at bit x % 64 of word x / 64.
#[derive(Clone, Debug, PartialEq, Eq)]
pub struct PatternSets {
    /// Observability don't cares of the current network.
    pub odc: Vec<u64>,
    /// The compatible set H of the loaded network.
    pub compatible: Vec<u64>,
}

impl Session {
    /// Reads a network file. Refusals 1 to 8.
    pub fn load(file: &[u8]) -> Result<Session, Refusal> {
        Session::read(raw::load, file)
    }

    /// Reads a BLIF text of the subset that `include/tusqirma.h` describes, with nothing excluded. Refusals 17, 18, 3.
    pub fn read_blif(text: &[u8]) -> Result<Session, Refusal> {
        Session::read(raw::read_blif, text)
    }

    fn read(call: fn(&[u8], &mut [u64]) -> u64, bytes: &[u8]) -> Result<Session, Refusal> {
        let mut words = Box::new([0; SESSION_WORDS]);
        Refusal::of(call(bytes, &mut words[..]), &[])?;
        Ok(Session { words })
    }

    /// A session kept elsewhere as words. Where they hold no network, every call on it is refused with 10.
    ///
    /// Open tables are taken as they stand, so the promise of [`exchange`](Session::exchange) on outputs is about words
    /// that a load or a BLIF text and exchanges gave.
    pub fn from_words(words: [u64; SESSION_WORDS]) -> Session {
        Session {
            words: Box::new(words),
        }
    }

    /// The session's words, as `include/tusqirma.h` lays them out.
    pub fn words(&self) -> &[u64; SESSION_WORDS] {
        &self.words
    }

    /// The tables of the gate with this signal number. Refusals 10, 11.
    pub fn tables(&self, gate: usize) -> Result<Tables, Refusal> {
        let mut out = [0; TABLE_WORDS];
        Refusal::of(raw::tables(&self.words[..], gate, &mut out), &[])?;
        Ok(Tables::of(&out))
    }

    /// The tables of each gate, gate after gate. Refusal 10.
    pub fn all_tables(&self) -> Result<Vec<Tables>, Refusal> {
        let mut out = [0; TABLE_WORDS * MOST_GATES];
        Refusal::of(raw::all_tables(&self.words[..], &mut out), &[])?;
        let each = out.chunks(TABLE_WORDS).take(self.gate_count());
        Ok(each.map(Tables::of).collect())
    }

    /// The ODC and the compatible set of each gate, gate after gate. Refusal 10.
    pub fn pattern_sets(&self) -> Result<Vec<PatternSets>, Refusal> {
        let mut out = [0; 2 * MOST_GATES * MOST_SET];
        Refusal::of(raw::pattern_sets(&self.words[..], &mut out), &[])?;
        let width = ((1usize << self.words[0]) / 64).max(1);
        let each = out.chunks(2 * width).take(self.gate_count());
        Ok(each.map(PatternSets::of).collect())
    }

    /// The number of patterns in the compatible set of each gate, gate after gate. Refusal 10.
    pub fn hidden(&self) -> Result<Vec<u64>, Refusal> {
        let mut out = [0; MOST_GATES];
        Refusal::of(raw::hidden(&self.words[..], &mut out), &[])?;
        Ok(out[..self.gate_count()].to_vec())
    }

    /// Judges the current network with the table of each gate of the list replaced, all of them at once, against the loaded
    /// outputs: harmless, or refused with [`Refusal::Harm`]. Refusals 10, 11, 12, 14, 16.
    pub fn verdict(&self, replacements: &[(usize, u64)]) -> Result<(), Refusal> {
        let (gates, tables): (Vec<u64>, Vec<u64>) =
            replacements.iter().map(|&(g, t)| (g as u64, t)).unzip();
        let mut out = [0; 2];
        let number = raw::verdict(&self.words[..], &gates, &tables, &mut out);
        Refusal::of(number, &out)
    }

    /// Sets the current table of a gate, where it differs from the loaded one at open entries only. Refusals 10, 11, 12, 13.
    ///
    /// In a session that a load or a BLIF text and exchanges gave, every output on every pattern not excluded stays that of
    /// the loaded network.
    pub fn exchange(&mut self, gate: usize, table: u64) -> Result<(), Refusal> {
        let mut out = [0; 1];
        let number = raw::exchange(&mut self.words[..], gate, table, &mut out);
        Refusal::of(number, &out)
    }

    /// The network with its current tables, as a file. Refusal 10.
    pub fn write(&self) -> Result<Vec<u8>, Refusal> {
        filled(MOST_FILE, |file, length| {
            raw::write(&self.words[..], file, length)
        })
    }

    /// The network with its current tables, as BLIF; excluded sets do not go out. An output that repeats an earlier one or
    /// is an input gets a gate that copies it, behind all others. Refusals 10, and 3 where these make more than 40 gates.
    pub fn write_blif(&self) -> Result<String, Refusal> {
        let text = filled(MOST_BLIF, |text, length| {
            raw::write_blif(&self.words[..], text, length)
        })?;
        Ok(String::from_utf8(text).expect("a BLIF text is ASCII"))
    }

    /// Of a session that was not refused with 10.
    fn gate_count(&self) -> usize {
        self.words[1] as usize
    }
}

/// The bytes that a call puts, where there is room for so many.
pub(crate) fn filled(
    most: usize,
    call: impl FnOnce(&mut [u8], &mut [u64]) -> u64,
) -> Result<Vec<u8>, Refusal> {
    let (mut bytes, mut length) = (vec![0; most], [0; 1]);
    Refusal::of(call(&mut bytes, &mut length), &[])?;
    bytes.truncate(length[0] as usize);
    Ok(bytes)
}

impl Tables {
    fn of(words: &[u64]) -> Tables {
        Tables {
            sdc: [words[0], words[1]],
            cdc: words[2],
            full: words[3],
            open: words[4],
        }
    }
}

impl PatternSets {
    fn of(words: &[u64]) -> PatternSets {
        let (odc, compatible) = words.split_at(words.len() / 2);
        PatternSets {
            odc: odc.to_vec(),
            compatible: compatible.to_vec(),
        }
    }
}
