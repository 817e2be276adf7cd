//! Texts in which a byte, a line or the end is not what it was.
use crate::dice::Dice;
use crate::draft::{y_from, TINY, Y};
use crate::products::product;
use crate::tiny::{loose, tiny};

fn damaged_line(dice: &mut Dice, text: &[u8]) -> Vec<u8> {
    let mut lines: Vec<&[u8]> = text.split_inclusive(|b| *b == b'\n').collect();
    let (at, to) = (dice.below(lines.len()), dice.below(lines.len()));
    match dice.below(6) {
        0 => drop(lines.remove(at)),
        1 => lines.insert(to, lines[at]),
        2 => lines.swap(at, to),
        3 => lines[at] = &lines[at][..dice.below(lines[at].len())],
        _ => lines.truncate(at),
    }
    lines.concat()
}

fn damaged_somewhere(dice: &mut Dice, text: &[u8]) -> Vec<u8> {
    let (at, to) = (dice.below(text.len()), dice.below(text.len()));
    let known = dice.one(b"() \n\t\r-0123456789abemnopstxyzAZ");
    let byte = if dice.once_in(4) { dice.below(256) as u8 } else { known };
    let digits: Vec<usize> = (0..text.len()).filter(|at| text[*at].is_ascii_digit()).collect();
    let mut text = text.to_vec();
    match dice.below(9) {
        0 => text[at] = byte,
        1 => text.insert(at, byte),
        2 => drop(text.remove(at)),
        3 => text.swap(at, to),
        4 => text[dice.one(&digits)] = dice.one(b"0123456789"),
        5 => text.insert(dice.one(&digits), dice.one(b"0123456789")),
        _ => text = damaged_line(dice, &text),
    }
    text
}

/// One thing wrong: a bit turned over, the end cut off, a byte or a line that is not what it was.
pub fn spoilt(dice: &mut Dice, mut text: Vec<u8>) -> Vec<u8> {
    let at = dice.below(text.len());
    match dice.below(5) {
        0 => text[at] ^= 1 << dice.below(8),
        1 => text.truncate(at),
        _ => text = damaged_somewhere(dice, &text),
    }
    text
}

/// A text that would be accepted, or a small one, with one thing wrong.
pub fn damaged(dice: &mut Dice) -> Vec<u8> {
    let text = match dice.below(5) {
        0 => dice.one(&[Y.to_string(), y_from(3)]),
        1 => tiny(dice).text(),
        2 => loose(dice).text(),
        3 => TINY.to_string(),
        _ => product(dice, 6, false).drawn(dice).0.text(),
    };
    spoilt(dice, text.into_bytes())
}
