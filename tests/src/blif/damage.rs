//! Lines of a text with one thing wrong: one that a given refusal is for, or any.

use super::faults::*;
use super::lines::Line;
use crate::random::Random;

pub struct Damage {
    pub what: &'static str,
    /// What the text has to be refused with; nothing where that depends on the text.
    pub refused: Option<u64>,
    pub damage: Damages,
}

/// Damages the lines of a text that reads; nothing where it has no place for that.
type Damages = fn(&mut Random, &mut Vec<Line>) -> Option<()>;

const fn of(what: &'static str, number: u64, damage: Damages) -> Damage {
    let refused = if number == 0 { None } else { Some(number) };
    Damage {
        what,
        refused,
        damage,
    }
}

#[rustfmt::skip]
pub const DAMAGES: [Damage; 38] = [
    of("a byte that is not printing", 17, |rng, lines| {
        let at = rng.within(0, lines.len() - 1);
        foreign(rng, &mut lines[at]);
        Some(())
    }),
    of("a line of another kind", 17, other_kind),
    of("no more lines", 17, |rng, lines| {
        lines.truncate(rng.within(0, lines.len() - 1));
        Some(())
    }),
    of("no name of the model", 17, |_, lines| lines[0].pop().map(drop)),
    of("a second name of the model", 17, |rng, lines| insert(rng, &mut lines[0], 1)),
    of("a word behind .end", 17, |rng, lines| insert(rng, lines.last_mut()?, 1)),
    of("a line behind .end", 17, |rng, lines| {
        let line = rng.pick(lines).clone();
        lines.push(line);
        Some(())
    }),
    of("a row before the blocks", 17, |rng, lines| {
        let line = lines[row(rng, lines)?].clone();
        lines.insert(rng.within(0, 3), line);
        Some(())
    }),
    of("a row of another width", 17, |rng, lines| {
        let at = row(rng, lines)?;
        let width = lines[at][0].len();
        lines[at][0].resize(*rng.pick(&[width - 1, width + 1]), b'-');
        Some(())
    }),
    of("a row with another mark", 17, |rng, lines| {
        let at = row(rng, lines)?;
        let marks = &mut lines[at][0];
        let r = rng.within(0, marks.len() - 1);
        marks[r] = *rng.pick(b"23/x+_");
        Some(())
    }),
    of("a row with no digit", 17, |rng, lines| {
        let at = row(rng, lines)?;
        lines[at][1] = rng.pick(&["-", "2", "11", "1-", "x"]).as_bytes().to_vec();
        Some(())
    }),
    of("a row of one word", 17, |rng, lines| {
        let at = row(rng, lines)?;
        lines[at].remove(rng.within(0, 1));
        Some(())
    }),
    of("a row of three words", 17, |rng, lines| {
        let at = row(rng, lines)?;
        let word = rng.pick(&lines[at]).clone();
        lines[at].push(word);
        Some(())
    }),
    of("rows of both digits", 17, |rng, lines| both_digits(rng, lines)),
    of("two names made one", 18, |rng, lines| made_one(rng, lines)),
    of("an input twice", 18, |rng, lines| twice(rng, &mut lines[INPUTS])),
    of("an output twice", 18, |rng, lines| twice(rng, &mut lines[OUTPUTS])),
    of("a fan-in twice", 18, |rng, lines| {
        let at = block(rng, lines)?;
        let fanin = lines[at][rng.within(1, lines[at].len() - 2)].clone();
        lines[at].insert(1, fanin);
        Some(())
    }),
    of("a gate as its own fan-in", 18, |rng, lines| {
        let at = block(rng, lines)?;
        let own = lines[at].last()?.clone();
        lines[at].insert(1, own);
        Some(())
    }),
    of("a gate of a known name", 18, |rng, lines| {
        let at = block(rng, lines)?;
        *lines[at].last_mut()? = rng.pick(&known(lines, at)).clone();
        Some(())
    }),
    of("an unknown fan-in", 18, |rng, lines| {
        let (at, unknown) = (block(rng, lines)?, fresh(rng, lines));
        let fanin = rng.within(1, lines[at].len() - 2);
        lines[at][fanin] = unknown;
        Some(())
    }),
    of("an unknown output", 18, |rng, lines| {
        let (i, unknown) = (rng.within(1, lines[OUTPUTS].len() - 1), fresh(rng, lines));
        lines[OUTPUTS][i] = unknown;
        Some(())
    }),
    of("no inputs", 3, |_, lines| { lines[INPUTS].truncate(1); Some(()) }),
    of("eleven inputs", 3, |rng, lines| more_names(rng, lines, INPUTS, 11)),
    of("eleven inputs, one twice", 18, |rng, lines| {
        more_names(rng, lines, INPUTS, 11)?;
        twice(rng, &mut lines[INPUTS])
    }),
    of("no outputs", 3, |_, lines| { lines[OUTPUTS].truncate(1); Some(()) }),
    of("nine outputs", 3, |rng, lines| more_names(rng, lines, OUTPUTS, 9)),
    of("nine outputs, one twice", 18, |rng, lines| {
        more_names(rng, lines, OUTPUTS, 9)?;
        twice(rng, &mut lines[OUTPUTS])
    }),
    of("under two names", 3, |rng, lines| {
        let at = block(rng, lines)?;
        let kept = lines[at].len() - rng.within(0, 1);
        lines[at].drain(1..kept);
        Some(())
    }),
    of("seven fan-ins", 3, seven_fanins),
    of("seven fan-ins, one unknown", 18, |rng, lines| {
        let unknown = fresh(rng, lines);
        seven_fanins(rng, lines)?;
        let at = lines.len() - 2;
        let fanin = rng.within(1, 7);
        lines[at][fanin] = unknown;
        Some(())
    }),
    of("no blocks", 3, |_, lines| {
        lines[OUTPUTS] = vec![b".outputs".to_vec(), lines[INPUTS][1].clone()];
        lines.drain(3..lines.len() - 1);
        Some(())
    }),
    of("forty-one blocks", 3, forty_one),
    of("a known name in the forty-first block", 18, |rng, lines| {
        forty_one(rng, lines)?;
        let at = lines.len() - 2;
        *lines[at].last_mut()? = rng.pick(&known(lines, at)).clone();
        Some(())
    }),
    of("a line moved, removed or doubled", 0, any_line),
    of("two lines in each other's places", 0, |rng, lines| {
        let (a, b) = (rng.within(0, lines.len() - 1), rng.within(0, lines.len() - 1));
        lines.swap(a, b);
        Some(())
    }),
    of("a word removed, doubled or another", 0, |rng, lines| any_word(rng, lines)),
    of("a block moved", 0, block_moved),
];
