//! Reads the rows of a series file, and prints snapshots.

use std::io::Write;

pub type Cell = Option<i64>;

#[derive(Clone, Copy)]
pub struct Row {
    pub start: i64,
    pub end: i64,
    pub value: i64,
}

/// The rows of a file one by one. Only plain files are read: three numbers of at most 18 digits in each line, in order.
pub struct Rows {
    rest: &'static [u8],
    last: i64,
}

impl Rows {
    /// The bytes of the file are kept to the end of the program.
    pub fn of_file(name: &str) -> Rows {
        let bytes = std::fs::read(name).unwrap_or_else(|_| refuse()).leak();
        let rest = bytes.strip_prefix(b"start,end,value\n").unwrap_or_else(|| refuse());
        Rows { rest, last: i64::MIN }
    }

    fn row(&mut self) -> Option<Row> {
        let (start, rest) = number(self.rest, b',')?;
        let (end, rest) = number(rest, b',')?;
        let (value, rest) = number(rest, b'\n')?;
        self.rest = rest;
        if self.last <= start && start < end { Some(Row { start, end, value }) } else { None }
    }
}

impl Iterator for Rows {
    type Item = Row;

    fn next(&mut self) -> Option<Row> {
        if self.rest.is_empty() {
            return None;
        }
        let row = self.row().unwrap_or_else(|| refuse());
        self.last = row.end;
        Some(row)
    }
}

/// A number, and what is left after it and the byte that has to follow it.
fn number(text: &[u8], after: u8) -> Option<(i64, &[u8])> {
    let unsigned = text.strip_prefix(b"-").unwrap_or(text);
    let (mut number, mut rest) = (0_i64, unsigned);
    while let [digit @ b'0'..=b'9', more @ ..] = rest {
        number = number.wrapping_mul(10).wrapping_add((digit - b'0') as i64);
        rest = more;
    }
    let is_number = (1..=18).contains(&(unsigned.len() - rest.len()));
    let rest = rest.strip_prefix(&[after])?;
    let signed = if unsigned.len() < text.len() { -number } else { number };
    if is_number { Some((signed, rest)) } else { None }
}

pub fn refuse() -> ! {
    eprintln!("bad words, or a file that can't be read");
    std::process::exit(1)
}

/// Prints the snapshots that aren't null, by a buffer.
pub struct Out {
    room: Box<[u8; ROOM]>,
    used: usize,
}

const ROOM: usize = 65536;
/// The place of the byte after a number, which has at most 20 bytes, and how many bytes are copied with it.
const LAST: usize = 20;
const WIDTH: usize = 24;
/// No line takes more room.
const LINE: usize = 3 * WIDTH;

/// The decimals of two digits.
static PAIRS: [[u8; 2]; 100] = {
    let mut pairs = [[0; 2]; 100];
    let mut number = 0;
    while number < 100 {
        pairs[number] = [b'0' + number as u8 / 10, b'0' + number as u8 % 10];
        number += 1;
    }
    pairs
};

impl Out {
    pub fn new() -> Out {
        let mut out = Out { room: Box::new([0; ROOM]), used: 0 };
        let header = b"start,end,value\n";
        out.room[..header.len()].copy_from_slice(header);
        out.used = header.len();
        out
    }

    pub fn put(&mut self, start: i64, end: i64, cell: Cell) {
        if let Some(value) = cell {
            if self.used + LINE > ROOM {
                self.flush();
            }
            self.put_number(start, b',');
            self.put_number(end, b',');
            self.put_number(value, b'\n');
        }
    }

    /// Writes the digits from the last to the first, two at a time, and copies a fixed number of bytes.
    fn put_number(&mut self, number: i64, after: u8) {
        let mut text = [0; LAST + WIDTH];
        text[LAST] = after;
        let mut at = LAST;
        let mut rest = number.unsigned_abs();
        while rest >= 10 {
            at -= 2;
            text[at..at + 2].copy_from_slice(&PAIRS[(rest % 100) as usize]);
            rest /= 100;
        }
        if rest > 0 || at == LAST {
            at -= 1;
            text[at] = b'0' + rest as u8;
        }
        if number < 0 {
            at -= 1;
            text[at] = b'-';
        }
        self.room[self.used..self.used + WIDTH].copy_from_slice(&text[at..at + WIDTH]);
        self.used += LAST + 1 - at;
    }

    pub fn flush(&mut self) {
        std::io::stdout().write_all(&self.room[..self.used]).unwrap_or_else(|_| refuse());
        self.used = 0;
    }
}
