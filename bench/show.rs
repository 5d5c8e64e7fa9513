//! The work of `term3270 show` in plain Rust, to measure beside it: Erase/Write records of text,
//! Start Field, Set Buffer Address and Insert Cursor on a screen of 24 rows of 80 columns.
mod digits;

use digits::record;
use std::fmt::Write as _;
use std::io::{self, Read, Write};

const ROWS: usize = 24;
const COLS: usize = 80;
const CELLS: usize = ROWS * COLS;

#[derive(Clone, Copy, PartialEq)]
enum Cell {
    Field(u8),
    Char(u8),
}

struct Screen {
    cells: Vec<Cell>,
    spare: Vec<Cell>,
    cursor: usize,
    free: bool,
}

fn is_text(byte: u8) -> bool {
    byte >= 0x40 || matches!(byte, 0x00 | 0x0C | 0x0D | 0x15 | 0x19 | 0x1C | 0x1E | 0x3F)
}

fn address(first: u8, second: u8) -> Option<usize> {
    match first >> 6 {
        0 => Some(usize::from(first) * 256 + usize::from(second)),
        2 => None,
        _ => Some(usize::from(first % 64) * 64 + usize::from(second % 64)),
    }
}

fn well_formed(bytes: &[u8]) -> Option<()> {
    let [0x05 | 0xF5, _, orders @ ..] = bytes else { return None };
    let mut rest = orders;
    while let [first, more @ ..] = rest {
        rest = match (first, more) {
            (0x1D, [_, others @ ..]) | (0x13, others) => others,
            (0x11, [high, low, others @ ..]) => {
                address(*high, *low)?;
                others
            }
            (byte, others) if is_text(*byte) => others,
            _ => return None,
        };
    }
    Some(())
}

impl Screen {
    fn apply(&mut self, bytes: &[u8]) -> Option<()> {
        well_formed(bytes)?;
        self.spare.fill(Cell::Char(0));
        let (mut at, mut cursor) = (0, 0);
        let mut rest = &bytes[2..];
        while let [first, more @ ..] = rest {
            rest = match (first, more) {
                (0x1D, [attribute, others @ ..]) => {
                    self.spare[at] = Cell::Field(attribute % 64);
                    at = (at + 1) % CELLS;
                    others
                }
                (0x13, others) => {
                    cursor = at;
                    others
                }
                (0x11, [high, low, others @ ..]) => {
                    at = address(*high, *low).filter(|place| *place < CELLS)?;
                    others
                }
                (byte, others) => {
                    self.spare[at] = Cell::Char(*byte);
                    at = (at + 1) % CELLS;
                    others
                }
            };
        }
        std::mem::swap(&mut self.cells, &mut self.spare);
        self.cursor = cursor;
        self.free |= bytes[1] & 0x02 != 0;
        Some(())
    }

    fn glyph(&self, at: usize, hidden: bool) -> u8 {
        const RUNS: [(u8, &str); 16] = [
            (0x40, " "), (0x4B, ".<(+|&"), (0x5A, "!$*);"), (0x60, "-/"), (0x6B, ",%_>?"), (0x79, "`:#@'=\""),
            (0x81, "abcdefghi"), (0x91, "jklmnopqr"), (0xA1, "~stuvwxyz"), (0xB0, "^"), (0xBA, "[]"),
            (0xC0, "{ABCDEFGHI"), (0xD0, "}JKLMNOPQR"), (0xE0, "\\"), (0xE2, "STUVWXYZ"), (0xF0, "0123456789"),
        ];
        match self.cells[at] {
            Cell::Field(_) => b'@',
            Cell::Char(0) => b'.',
            Cell::Char(_) if hidden => b'*',
            Cell::Char(code) => RUNS
                .iter()
                .find_map(|(first, text)| code.checked_sub(*first).and_then(|n| text.as_bytes().get(usize::from(n))))
                .copied()
                .unwrap_or(b'?'),
        }
    }

    fn text(&self) -> String {
        let mut out = String::new();
        let lock = if self.free { "free" } else { "waiting" };
        let _ = writeln!(out, "screen {ROWS}x{COLS} cursor {} keyboard {lock} aid 60", self.cursor);
        let mut bits = self.cells.iter().rev().find_map(|cell| match cell {
            Cell::Field(bits) => Some(*bits),
            Cell::Char(_) => None,
        });
        for (at, cell) in self.cells.iter().enumerate() {
            if let Cell::Field(bits) = cell {
                let length = (1..CELLS)
                    .find(|n| matches!(self.cells[(at + n) % CELLS], Cell::Field(_)))
                    .unwrap_or(CELLS)
                    - 1;
                let _ = writeln!(out, "field {at} attr {bits:02X} place {} length {length}", (at + 1) % CELLS);
            }
        }
        for row in 0..ROWS {
            out.push('|');
            for at in row * COLS..(row + 1) * COLS {
                if let Cell::Field(own) = self.cells[at] {
                    bits = Some(own);
                }
                out.push(char::from(self.glyph(at, bits.is_some_and(|bits| bits / 4 % 4 == 3))));
            }
            out.push_str("|\n");
        }
        out
    }
}

/// The screen after the records of a text, whose lines of `#` are comments.
pub fn show(text: &str) -> String {
    let mut screen = Screen {
        cells: vec![Cell::Char(0); CELLS],
        spare: vec![Cell::Char(0); CELLS],
        cursor: 0,
        free: false,
    };
    for line in text.lines().filter(|line| !line.starts_with('#')) {
        screen.apply(&record(line).expect("hexadecimal")).expect("a good record");
    }
    screen.text()
}

fn main() -> io::Result<()> {
    let mut input = Vec::new();
    io::stdin().read_to_end(&mut input)?;
    let text = std::str::from_utf8(&input).expect("text");
    io::stdout().write_all(show(text).as_bytes())
}
