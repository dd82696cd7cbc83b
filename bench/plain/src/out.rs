//! What is written, gathered in one buffer.

use crate::fault::Fault;
use std::io::Write;

const SIZE: usize = 1 << 16;
/// No call writes more than 128 reports and 15 slips, each shorter than 56 bytes.
const ROOM: usize = 143 * 56;

pub struct Out {
    bytes: Box<[u8; SIZE]>,
    len: usize,
}

impl Out {
    pub fn new() -> Out {
        Out { bytes: Box::new([0; SIZE]), len: 0 }
    }

    pub fn flush(&mut self) {
        if std::io::stdout().lock().write_all(&self.bytes[..self.len]).is_err() {
            std::process::exit(1);
        }
        self.len = 0;
    }

    /// Makes sure that the next call's answer fits.
    #[inline]
    pub fn make_room(&mut self) {
        if self.len > SIZE - ROOM {
            self.flush();
        }
    }

    pub fn fault(&mut self, fault: Fault) {
        self.byte(b'E');
        self.number(fault.number);
        self.byte(b'\t');
        self.byte(fault.layer);
        self.number(fault.place);
        self.byte(b'\n');
    }

    /// One record: its letter, then each number after a tab.
    #[inline]
    pub fn record<const N: usize>(&mut self, letter: u8, numbers: [u32; N]) {
        self.byte(letter);
        for number in numbers {
            self.number(number);
        }
        self.byte(b'\n');
    }

    #[inline]
    fn byte(&mut self, byte: u8) {
        self.bytes[self.len] = byte;
        self.len += 1;
    }

    /// A tab and the number in base ten.
    #[inline]
    fn number(&mut self, mut number: u32) {
        let digits = match number {
            0..=9 => 1,
            10..=99 => 2,
            100..=999 => 3,
            1_000..=9_999 => 4,
            10_000..=99_999 => 5,
            100_000..=999_999 => 6,
            1_000_000..=9_999_999 => 7,
            _ => 8,
        };
        let field = &mut self.bytes[self.len..self.len + 1 + digits];
        field[0] = b'\t';
        for digit in field[1..].iter_mut().rev() {
            *digit = b'0' + (number % 10) as u8;
            number /= 10;
        }
        self.len += 1 + digits;
    }
}
