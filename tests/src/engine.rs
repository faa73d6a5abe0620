//! The ways into the engine: raw calls of the C boundary with the buffers as they are lent, the safe binding, and the
//! listing program.

use crate::call::{Call, Lent, Way};
use crate::reference::WORDS;
use std::io::Write;
use std::process::{Command, Output, Stdio};
use std::sync::OnceLock;
use tusqirma::{raw, Refusal, Session, Tables};

pub const RAW: Way = Way {
    name: "the raw call",
    run: raw_call,
};
pub const BINDING: Way = Way {
    name: "the binding",
    run: binding_call,
};
pub const PROGRAM: Way = Way {
    name: "the listing program",
    run: program_call,
};

/// The ways that can make a call on a session. The binding takes pairs, so it has no lists of unequal length.
pub fn ways(call: &Call) -> &'static [Way] {
    match call {
        Call::Verdict { gates, tables } if gates.len() != tables.len() => &[RAW],
        _ => &[RAW, BINDING],
    }
}

/// A buffer between margins that no call may touch.
struct Fenced<T>(Vec<T>);

const MARGIN: usize = 8;

impl<T: Copy + PartialEq + std::fmt::Debug> Fenced<T> {
    fn new(buffer: &[T], margin: T) -> Fenced<T> {
        let side = [margin; MARGIN];
        Fenced([&side[..], buffer, &side[..]].concat())
    }

    fn lent(&mut self) -> &mut [T] {
        let end = self.0.len() - MARGIN;
        &mut self.0[MARGIN..end]
    }

    /// Hands the buffer back. A touched margin lengthens it, so that it differs from any other.
    fn back(mut self, margin: T, buffer: &mut Vec<T>) {
        let end = self.0.len() - MARGIN;
        let sides = self.0[..MARGIN].iter().chain(&self.0[end..]);
        let touched = sides.filter(|&&side| side != margin).count();
        *buffer = self.lent().to_vec();
        buffer.extend(vec![margin; touched]);
    }
}

const WORD: u64 = 0x5EED_FACE_5EED_FACE;
const BYTE: u8 = 0xD7;

/// The call with the buffers as they are lent.
fn raw_call(call: &Call, lent: &mut Lent) -> u64 {
    let mut session = Fenced::new(&lent.session, WORD);
    let mut file = Fenced::new(&lent.file, BYTE);
    let mut bytes = Fenced::new(&lent.bytes, BYTE);
    let mut out = Fenced::new(&lent.out, WORD);
    let (s, f, b, o) = (session.lent(), file.lent(), bytes.lent(), out.lent());
    let number = match call {
        Call::Load => raw::load(f, s),
        Call::ReadBlif => raw::read_blif(f, s),
        Call::Tables { gate } => raw::tables(s, *gate, o),
        Call::AllTables => raw::all_tables(s, o),
        Call::PatternSets => raw::pattern_sets(s, o),
        Call::Hidden => raw::hidden(s, o),
        Call::Verdict { gates, tables } => {
            let (mut g, mut t) = (Fenced::new(gates, WORD), Fenced::new(tables, WORD));
            raw::verdict(s, g.lent(), t.lent(), o)
        }
        Call::Exchange { gate, table } => raw::exchange(s, *gate, *table, o),
        Call::Write => raw::write(s, b, o),
        Call::WriteBlif => raw::write_blif(s, b, o),
        Call::Listing => raw::listing(f, b, o),
    };
    session.back(WORD, &mut lent.session);
    file.back(BYTE, &mut lent.file);
    bytes.back(BYTE, &mut lent.bytes);
    out.back(WORD, &mut lent.out);
    number
}

/// The call by the binding, whose results are laid into the lent buffers as the C boundary would. They must have room.
fn binding_call(call: &Call, lent: &mut Lent) -> u64 {
    match by_binding(call, lent) {
        Ok(()) => 0,
        Err(refusal) => {
            match refusal {
                Refusal::ClosedEntry { entry } => lent.out[0] = entry,
                Refusal::Harm { pattern, output } => {
                    lent.out[..2].copy_from_slice(&[pattern, output])
                }
                _ => {}
            }
            refusal.number()
        }
    }
}

fn by_binding(call: &Call, lent: &mut Lent) -> Result<(), Refusal> {
    match call {
        Call::Load => lay_session(lent, &Session::load(&lent.file)?),
        Call::ReadBlif => lay_session(lent, &Session::read_blif(&lent.file)?),
        Call::Write => lay_with_length(lent, &session(lent).write()?),
        Call::WriteBlif => lay_with_length(lent, session(lent).write_blif()?.as_bytes()),
        Call::Listing => lay_with_length(lent, tusqirma::listing(&lent.file).as_bytes()),
        _ => on_session(call, lent)?,
    }
    Ok(())
}

fn session(lent: &Lent) -> Session {
    let words: [u64; WORDS] = lent.session[..WORDS].try_into().expect("as many");
    Session::from_words(words)
}

fn lay_session(lent: &mut Lent, session: &Session) {
    lent.session[..WORDS].copy_from_slice(session.words());
}

/// The calls on a session whose words go to `out`.
fn on_session(call: &Call, lent: &mut Lent) -> Result<(), Refusal> {
    let mut session = session(lent);
    let five = |t: Tables| [t.sdc[0], t.sdc[1], t.cdc, t.full, t.open];
    let filled: Vec<u64> = match call {
        Call::Tables { gate } => five(session.tables(*gate)?).to_vec(),
        Call::AllTables => session.all_tables()?.into_iter().flat_map(five).collect(),
        Call::PatternSets => {
            let sets = session.pattern_sets()?;
            let of_gate = |s: &tusqirma::PatternSets| [&s.odc[..], &s.compatible[..]].concat();
            sets.iter().flat_map(of_gate).collect()
        }
        Call::Hidden => session.hidden()?,
        Call::Verdict { gates, tables } => {
            let gates = gates.iter().map(|&gate| gate as usize);
            let pairs: Vec<(usize, u64)> = gates.zip(tables.iter().copied()).collect();
            session.verdict(&pairs).map(|()| vec![])?
        }
        Call::Exchange { gate, table } => session.exchange(*gate, *table).map(|()| vec![])?,
        _ => unreachable!("no such call"),
    };
    lay_session(lent, &session);
    lent.out[..filled.len()].copy_from_slice(&filled);
    Ok(())
}

fn lay_with_length(lent: &mut Lent, bytes: &[u8]) {
    for (place, byte) in lent.bytes.iter_mut().zip(bytes) {
        *place = *byte;
    }
    lent.out[0] = bytes.len() as u64;
}

/// The path of the listing program.
pub static LISTING: OnceLock<String> = OnceLock::new();

/// The answer of a run that fails or prints to its standard error: no call returns it.
const FAILED: u64 = u64::MAX;

/// What a program leaves that gets these bytes on its standard input.
pub fn fed(command: &mut Command, input: &[u8]) -> Output {
    let mut child = command
        .stdin(Stdio::piped())
        .stdout(Stdio::piped())
        .stderr(Stdio::piped())
        .spawn()
        .expect("the program starts");
    // a program reads no more than it needs, so the pipe may close early
    let _ = child.stdin.take().expect("piped").write_all(input);
    child.wait_with_output().expect("the program ends")
}

/// The listing of a file by the program, which reads it from its standard input.
fn program_call(_: &Call, lent: &mut Lent) -> u64 {
    let mut program = Command::new(LISTING.get().expect("the first argument"));
    let output = fed(&mut program, &lent.file);
    lay_with_length(lent, &output.stdout);
    if output.status.success() && output.stderr.is_empty() {
        0
    } else {
        FAILED
    }
}
