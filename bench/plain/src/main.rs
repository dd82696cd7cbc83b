//! A second opinion on the rules of docs/RULES.md, in plain Rust: reads a day on standard input and writes what each line is answered.
//! Fixed arrays, one buffer in, one buffer out, no crates.

mod fault;
mod line;
mod out;
mod series;

use fault::Fault;
use line::Line;
use out::Out;
use series::Series;
use std::io::Read;

const INPUT: usize = 65_536;

fn main() {
    let mut input = Vec::with_capacity(INPUT + 1);
    if std::io::stdin().lock().take(INPUT as u64 + 1).read_to_end(&mut input).is_err() {
        std::process::exit(1);
    }
    let mut out = Out::new();
    day(&input, &mut out);
    out.flush();
}

/// Answers every line of the input. A refused first line ends the day.
fn day(input: &[u8], out: &mut Out) {
    if input.is_empty() {
        return;
    }
    if input.len() > INPUT {
        return out.fault(Fault::LINE);
    }
    let (first, mut rest) = cut(input);
    let mut series = match line::header(first) {
        Ok((ladder, wide)) => Series::new(ladder, wide),
        Err(fault) => return out.fault(fault),
    };
    while !rest.is_empty() {
        let (text, after) = cut(rest);
        rest = after;
        if let Err(fault) = answer(&mut series, text, out) {
            out.fault(fault);
        }
        out.make_room();
    }
}

/// The first line, and what follows its ending byte.
fn cut(bytes: &[u8]) -> (&[u8], &[u8]) {
    match bytes.iter().position(|&b| b == b'\n') {
        Some(end) => (&bytes[..end], &bytes[end + 1..]),
        None => (bytes, &[]),
    }
}

fn answer(series: &mut Series, text: &[u8], out: &mut Out) -> Result<(), Fault> {
    match line::read(text, series.ladder)? {
        Line::Open => series.open(),
        Line::Away(exchange, quote) => {
            series.away(exchange, quote, out);
            Ok(())
        }
        Line::Order(fields) => series.order(&fields, out),
        Line::Cancel(id) => series.cancel(id, out),
        Line::Reply(slip, filled) => series.reply(slip, filled, out),
    }
}
