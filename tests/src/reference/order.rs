//! What the desk's program answers to an order: its text parsed, the first line and a line for each pair, and the new board.

use super::file::{demand, load, write};
use super::listing::digits;
use super::network::{bit, fits, Network};

pub const USAGE: &str = "usage: order BOARD GATE=TABLE... [-o NEW]\n";

/// Of 1 to 8.
pub const REASONS: [&str; 8] = [
    "the file ends too soon",
    "no network file, or a record out of place",
    "a count is out of bounds",
    "a fan-in is no earlier signal",
    "a gate lists a fan-in twice",
    "a bit is set past the end of a table or set",
    "an output is no signal",
    "bytes follow the last record",
];

/// The gate as typed, and the table.
#[derive(Clone, Debug, PartialEq)]
pub struct Pair {
    pub gate: String,
    pub table: u64,
}

/// The pairs of an order's words, or what is told on standard error.
pub fn pairs(words: &[Vec<u8>]) -> Result<Vec<Pair>, Vec<u8>> {
    let text: Vec<u8> = words.iter().flat_map(|w| [b" ", &w[..]].concat()).collect();
    if text.len() > 1024 {
        return Err(b"the order is too long\n".to_vec());
    }
    let words = text.split(|b| b" \t\r\n".contains(b));
    let each = words.filter(|w| !w.is_empty()).map(|w| {
        let told = || [w, b" is not GATE=TABLE\n", USAGE.as_bytes()].concat();
        pair(w).ok_or_else(told)
    });
    let pairs: Vec<Pair> = each.collect::<Result<_, _>>()?;
    if pairs.is_empty() {
        return Err(USAGE.into());
    }
    Ok(pairs)
}

/// A word, split at its last `=`, where it is a pair.
fn pair(word: &[u8]) -> Option<Pair> {
    let text = std::str::from_utf8(word).ok()?;
    let (gate, table) = text.rsplit_once('=')?;
    let printing = word.iter().all(|b| (0x21..=0x7E).contains(b));
    let digits = table.bytes().all(|b| b.is_ascii_hexdigit());
    if !printing || gate.is_empty() || !digits || table.len() > 16 {
        return None;
    }
    Some(Pair {
        gate: gate.into(),
        table: u64::from_str_radix(table, 16).ok()?,
    })
}

/// The gate's place among the gates: of 1 to 4 decimal digits that are a gate's number.
fn place(s: &Network, gate: &str) -> Option<usize> {
    let number = gate.len() <= 4 && gate.bytes().all(|b| b.is_ascii_digit());
    let signal: usize = gate.parse().ok().filter(|_| number)?;
    (s.n..s.n + s.m()).contains(&signal).then(|| signal - s.n)
}

/// The places of the pairs' gates, or the line that refuses the first pair at fault.
fn places(s: &Network, pairs: &[Pair]) -> Result<Vec<usize>, String> {
    let mut places = Vec::new();
    for Pair { gate, table } in pairs {
        let none = || format!("refused 11: {gate} is no gate\n");
        let g = place(s, gate).ok_or_else(none)?;
        let twice = |_| format!("refused 16: gate {gate} is named twice\n");
        demand(!places.contains(&g), 16).map_err(twice)?;
        let wide = |_| format!("refused 12: the table of gate {gate} is too wide\n");
        demand(fits(*table, s.fanins[g].len()), 12).map_err(wide)?;
        places.push(g);
    }
    Ok(places)
}

/// The whole text and, behind a yes, the bytes of the new board.
pub fn answer(file: &[u8], pairs: &[Pair]) -> (String, Option<Vec<u8>>) {
    judged(file, pairs).unwrap_or_else(|refused| (refused, None))
}

fn judged(file: &[u8], pairs: &[Pair]) -> Result<(String, Option<Vec<u8>>), String> {
    let reason = |k: u64| format!("refused {k}: {}\n", REASONS[k as usize - 1]);
    let s = load(file).map_err(reason)?;
    let places = places(&s, pairs)?;
    let (mut changed, open, width) = (s.clone(), s.open_tables(), digits(&s));
    let (mut lines, mut all_open) = (String::new(), true);
    for (Pair { gate, table }, g) in pairs.iter().zip(places) {
        let old = s.tables[g];
        let closed = |&t: &usize| bit(*table, t) != bit(old, t) && !bit(open[g], t);
        let entry = (0..s.entries(g)).find(closed);
        let standing = entry.map_or("open".into(), |t| format!("entry {t} is closed"));
        lines += &format!("gate {gate} from {old:0width$x} to {table:0width$x}: {standing}\n");
        all_open = all_open && entry.is_none();
        changed.tables[g] = *table;
    }
    let harm = s.harm(&changed);
    let first = match harm {
        Some((x, i)) => harm_line(&s, x, i),
        None if all_open => {
            "yes: open, also together with any other order open on this board\n".into()
        }
        None => "yes: alone, with no other order; ask the next on the changed board\n".into(),
    };
    let board = harm.is_none().then(|| write(&changed));
    Ok((first + &lines, board))
}

fn harm_line(s: &Network, x: usize, i: usize) -> String {
    let on = (0..s.n).filter(|&l| bit(x as u64, l));
    let on: Vec<String> = on.map(|l| l.to_string()).collect();
    let lines = if on.is_empty() {
        "none".into()
    } else {
        on.join(" ")
    };
    format!("no: output {i} changes at pattern {x}, lines on: {lines}\n")
}
