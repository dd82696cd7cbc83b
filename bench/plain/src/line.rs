//! Reading a line: its fields, their number and kind, their ranges.

use crate::fault::Fault;
use crate::series::{Fields, Ladder, Quote};

const LONGEST: usize = 80;
const HIGHEST: u32 = 100_000;

pub enum Line {
    Open,
    Away(usize, Quote),
    Order(Fields),
    Cancel(u32),
    Reply(u32, u32),
}

#[derive(Clone, Copy, PartialEq)]
enum Field {
    Number(u32),
    Letter(u8),
    Unreadable,
}

/// The first ten fields of a line, and how many it has in all.
struct Split {
    fields: [Field; 10],
    count: usize,
}

fn split(text: &[u8]) -> Split {
    let mut fields = [Field::Unreadable; 10];
    let mut count = 0;
    let mut at = 0;
    loop {
        let start = at;
        let mut value = 0u32;
        while at < text.len() && text[at].is_ascii_digit() {
            value = value.wrapping_mul(10).wrapping_add((text[at] - b'0') as u32);
            at += 1;
        }
        let digits = at - start;
        while at < text.len() && text[at] != b'\t' {
            at += 1;
        }
        let length = at - start;
        if count < 10 {
            fields[count] = if digits == length && (digits == 1 || (2..=8).contains(&digits) && text[start] != b'0') {
                Field::Number(value)
            } else if length == 1 && text[start].is_ascii_uppercase() {
                Field::Letter(text[start])
            } else {
                Field::Unreadable
            };
        }
        count += 1;
        if at == text.len() {
            return Split { fields, count };
        }
        at += 1;
    }
}

/// The number in a field.
#[inline]
fn number(split: &Split, field: usize) -> Result<u32, Fault> {
    match split.fields[field - 1] {
        Field::Number(value) => Ok(value),
        _ => Err(Fault::unreadable(field)),
    }
}

#[inline]
fn letter(split: &Split, field: usize) -> Result<u8, Fault> {
    match split.fields[field - 1] {
        Field::Letter(value) => Ok(value),
        _ => Err(Fault::unreadable(field)),
    }
}

#[inline]
fn fields(split: &Split, count: usize) -> Result<(), Fault> {
    if split.count == count { Ok(()) } else { Err(Fault::count(split.count)) }
}

#[inline]
fn check(fits: bool, number: u32, field: usize) -> Result<(), Fault> {
    if fits { Ok(()) } else { Err(Fault::check(number, field)) }
}

/// The letter of a line's kind.
fn kind(text: &[u8]) -> Result<u8, Fault> {
    match text {
        _ if text.len() > LONGEST => Err(Fault::LINE),
        [kind] | [kind, b'\t', ..] => Ok(*kind),
        _ => Err(Fault::LINE),
    }
}

/// The first line of a day: its ladder and its width mark.
pub fn header(text: &[u8]) -> Result<(Ladder, bool), Fault> {
    if kind(text)? != b'H' {
        return Err(Fault::LINE);
    }
    let split = split(text);
    fields(&split, 3)?;
    let ladder = letter(&split, 2)?;
    let mark = number(&split, 3)?;
    let ladder = match ladder {
        b'P' => Ladder::Penny,
        b'M' => Ladder::Nickel,
        b'N' => Ladder::Dime,
        _ => return Err(Fault::check(4, 2)),
    };
    check(mark <= 1, 4, 3)?;
    Ok((ladder, mark == 1))
}

/// Any later line.
pub fn read(text: &[u8], ladder: Ladder) -> Result<Line, Fault> {
    let kind = kind(text)?;
    if !matches!(kind, b'G' | b'A' | b'O' | b'X' | b'R') {
        return Err(Fault::LINE);
    }
    let split = split(text);
    match kind {
        b'G' => {
            fields(&split, 1)?;
            Ok(Line::Open)
        }
        b'A' => away(&split, ladder),
        b'O' => order(&split, ladder),
        b'X' => {
            fields(&split, 2)?;
            let id = number(&split, 2)?;
            check((1..=999_999).contains(&id), 4, 2)?;
            Ok(Line::Cancel(id))
        }
        _ => {
            fields(&split, 3)?;
            let slip = number(&split, 2)?;
            let filled = number(&split, 3)?;
            check((1..=15_000_000).contains(&slip), 4, 2)?;
            check(filled <= 9_999, 4, 3)?;
            Ok(Line::Reply(slip, filled))
        }
    }
}

fn away(split: &Split, ladder: Ladder) -> Result<Line, Fault> {
    fields(split, 6)?;
    let exchange = number(split, 2)?;
    let bid = number(split, 3)?;
    let bid_size = number(split, 4)?;
    let offer = number(split, 5)?;
    let offer_size = number(split, 6)?;
    check((1..=15).contains(&exchange), 4, 2)?;
    check(bid <= HIGHEST, 4, 3)?;
    check(bid_size <= 99_999 && (bid == 0) == (bid_size == 0), 4, 4)?;
    check(offer <= HIGHEST, 4, 5)?;
    check(offer_size <= 99_999 && (offer == 0) == (offer_size == 0), 4, 6)?;
    check(bid == 0 || ladder.rung(bid), 5, 3)?;
    check(offer == 0 || ladder.rung(offer), 5, 5)?;
    Ok(Line::Away(exchange as usize, Quote { bid, offer, offer_size, bid_size }))
}

fn order(split: &Split, ladder: Ladder) -> Result<Line, Fault> {
    fields(split, 10)?;
    let id = number(split, 2)?;
    let firm = number(split, 3)?;
    let side = letter(split, 4)?;
    let origin = letter(split, 5)?;
    let kind = letter(split, 6)?;
    let mark = letter(split, 7)?;
    let limit = number(split, 8)?;
    let size = number(split, 9)?;
    let protection = number(split, 10)?;
    check((1..=999_999).contains(&id), 4, 2)?;
    check((1..=9_999).contains(&firm), 4, 3)?;
    check(matches!(side, b'B' | b'S'), 4, 4)?;
    check(matches!(origin, b'C' | b'N'), 4, 5)?;
    check(matches!(kind, b'L' | b'M' | b'I' | b'K'), 4, 6)?;
    check(matches!(mark, b'R' | b'D'), 4, 7)?;
    check(limit <= HIGHEST && (limit == 0) == (kind == b'M'), 4, 8)?;
    check((1..=9_999).contains(&size), 4, 9)?;
    check(protection <= 20, 4, 10)?;
    check(limit == 0 || ladder.rung(limit), 5, 8)?;
    check(matches!(kind, b'L' | b'M'), 6, 6)?;
    Ok(Line::Order(Fields {
        id,
        firm,
        buy: side == b'B',
        market: kind == b'M',
        routable: origin == b'C' && mark == b'R',
        limit,
        size,
        protection,
    }))
}
