//! The work of `term3270 press` in plain Rust, to measure beside it: one Erase/Write record of text and Start Field on a
//! screen of 24 rows of 80 columns, and the keys that the benchmark presses.
use std::io::{self, Read, Write};

const CELLS: usize = 1920;
const PROTECTED: u8 = 0x20;
const AUTO_SKIP: u8 = 0x30;
const MODIFIED: u8 = 0x01;

#[derive(Clone, Copy)]
enum Cell {
    Field(u8),
    Char(u8),
}

struct Screen {
    cells: Vec<Cell>,
    cursor: usize,
    failed: bool,
}

fn next(at: usize) -> usize {
    (at + 1) % CELLS
}

fn back(at: usize) -> usize {
    (at + CELLS - 1) % CELLS
}

impl Screen {
    fn of(record: &[u8]) -> Option<Screen> {
        let [0x05 | 0xF5, _, orders @ ..] = record else { return None };
        let mut cells = vec![Cell::Char(0); CELLS];
        let (mut at, mut rest) = (0, orders);
        while let [first, more @ ..] = rest {
            (cells[at], rest) = match (first, more) {
                (0x1D, [attribute, others @ ..]) => (Cell::Field(attribute % 64), others),
                (code, others) => (Cell::Char(*code), others),
            };
            at = next(at);
        }
        Some(Screen { cells, cursor: 0, failed: false })
    }

    /// The attribute that governs the character at a position.
    fn governing(&self, at: usize) -> Option<usize> {
        (1..CELLS)
            .map(|back| (at + CELLS - back) % CELLS)
            .find(|place| matches!(self.cells[*place], Cell::Field(_)))
    }

    /// The attribute of the open character under the cursor.
    fn open(&self) -> Option<usize> {
        let Cell::Char(_) = self.cells[self.cursor] else { return None };
        self.governing(self.cursor).filter(|place| self.is_unprotected(*place))
    }

    fn is_unprotected(&self, at: usize) -> bool {
        matches!(self.cells[at], Cell::Field(bits) if bits & PROTECTED == 0)
    }

    fn is_start(&self, at: usize) -> bool {
        matches!(self.cells[at], Cell::Char(_)) && self.is_unprotected(back(at))
    }

    fn start(&self, step: fn(usize) -> usize) -> usize {
        let mut at = step(self.cursor);
        for _ in 0..CELLS {
            if self.is_start(at) {
                return at;
            }
            at = step(at);
        }
        0
    }

    fn modify(&mut self, place: usize) {
        if let Cell::Field(bits) = &mut self.cells[place] {
            *bits |= MODIFIED;
        }
    }

    fn settle(&mut self) {
        self.cursor = next(self.cursor);
        while let Cell::Field(bits) = self.cells[self.cursor] {
            if bits & AUTO_SKIP == AUTO_SKIP {
                self.cursor = self.start(next);
                return;
            }
            self.cursor = next(self.cursor);
        }
    }

    fn erase_to_end(&mut self) {
        let mut at = self.cursor;
        while let Cell::Char(_) = self.cells[at] {
            self.cells[at] = Cell::Char(0);
            at = next(at);
        }
    }

    fn edit(&mut self, change: impl FnOnce(&mut Screen)) {
        match self.open() {
            Some(place) => {
                change(self);
                self.modify(place);
            }
            None => self.failed = true,
        }
    }

    fn home(&mut self) {
        self.cursor = (0..CELLS)
            .find(|at| matches!(self.cells[*at], Cell::Char(_)) && self.governing(*at).is_some_and(|place| self.is_unprotected(place)))
            .unwrap_or(0);
    }

    fn press(&mut self, key: &str) -> Option<()> {
        match key {
            "tab" => self.cursor = self.start(next),
            "backtab" => self.cursor = self.start(back),
            "right" => self.cursor = next(self.cursor),
            "left" => self.cursor = back(self.cursor),
            "home" => self.home(),
            "eraseeof" => self.edit(Screen::erase_to_end),
            _ => {
                let code = u8::from_str_radix(key.strip_prefix("type ")?, 16).ok()?;
                let typed = self.cursor;
                self.edit(|screen| screen.cells[typed] = Cell::Char(code));
                if !self.failed {
                    self.settle();
                }
            }
        }
        Some(())
    }

    /// The answer to Enter.
    fn answer(&self) -> Vec<u8> {
        let mut bytes = vec![0x7D];
        push_address(&mut bytes, self.cursor);
        for at in 0..CELLS {
            let Cell::Field(attribute) = self.cells[at] else { continue };
            if attribute & MODIFIED == 0 {
                continue;
            }
            bytes.push(0x11);
            push_address(&mut bytes, next(at));
            let mut place = next(at);
            while let Cell::Char(code) = self.cells[place] {
                if code != 0 {
                    bytes.push(code);
                }
                place = next(place);
            }
        }
        bytes
    }
}

/// The graphic codes of the 64 values of six bits.
const SIX_BITS: &[u8; 64] = b"\x40\xC1\xC2\xC3\xC4\xC5\xC6\xC7\xC8\xC9\x4A\x4B\x4C\x4D\x4E\x4F\x50\xD1\xD2\xD3\xD4\xD5\xD6\xD7\xD8\xD9\x5A\x5B\x5C\x5D\x5E\x5F\x60\x61\xE2\xE3\xE4\xE5\xE6\xE7\xE8\xE9\x6A\x6B\x6C\x6D\x6E\x6F\xF0\xF1\xF2\xF3\xF4\xF5\xF6\xF7\xF8\xF9\x7A\x7B\x7C\x7D\x7E\x7F";

fn push_address(bytes: &mut Vec<u8>, address: usize) {
    bytes.push(SIX_BITS[address / 64]);
    bytes.push(SIX_BITS[address % 64]);
}

fn main() -> io::Result<()> {
    let path = std::env::args().nth(2).expect("press KEYS");
    let keys = std::fs::read_to_string(path)?;
    let mut input = String::new();
    io::stdin().read_to_string(&mut input)?;
    let digits = input.trim_end().as_bytes();
    let record: Vec<u8> = digits
        .chunks(2)
        .map(|pair| u8::from_str_radix(std::str::from_utf8(pair).expect("digits"), 16).expect("hexadecimal"))
        .collect();
    let mut screen = Screen::of(&record).expect("an Erase/Write record");
    let mut out = Vec::with_capacity(keys.len());
    for key in keys.lines() {
        if key == "enter" {
            out.extend_from_slice(b"sent ");
            for byte in screen.answer() {
                write!(out, "{byte:02X}")?;
            }
            out.push(b'\n');
            break;
        }
        screen.press(key).expect("a key of the benchmark");
        let word = if screen.failed { "inhibited" } else { "done" };
        writeln!(out, "{word} {}", screen.cursor)?;
    }
    io::stdout().write_all(&out)
}
