//! The work of `term3270 talk` and `check` in plain Rust, to measure beside them: Erase/Write records of text, Start Field, Set
//! Buffer Address and Insert Cursor on a screen of 24 rows of 80 columns, of `talk` one a turn, and layouts of inputs as the
//! benchmark writes them.
mod digits;

use digits::record;
use std::io::{self, Read, Write};

const COLS: usize = 80;
const CELLS: usize = 1920;
const PROTECTED: u8 = 0x20;
const MODIFIED: u8 = 0x01;

#[derive(Clone, Copy)]
enum Cell {
    Field(u8),
    Char,
}

struct Entry {
    name: String,
    place: usize,
    length: usize,
}

fn number(text: &str) -> Option<usize> {
    text.parse().ok()
}

/// A layout's entries, where its names and its places differ.
fn entries(text: &str) -> Option<Vec<Entry>> {
    let mut entries: Vec<Entry> = Vec::new();
    let (mut row, mut name) = (0, String::new());
    let mut col = 0;
    for line in text.lines() {
        let Some((key, value)) = line.split_once(" = ") else { continue };
        match key {
            "name" => name = value.trim_matches('"').to_string(),
            "row" => row = number(value)?,
            "col" => col = number(value)?,
            "length" => entries.push(Entry {
                name: std::mem::take(&mut name),
                place: (row - 1) * COLS + col - 1,
                length: number(value)?,
            }),
            _ => {}
        }
    }
    let mut names: Vec<&str> = entries.iter().map(|entry| entry.name.as_str()).collect();
    names.sort_unstable();
    names.windows(2).all(|pair| pair[0] != pair[1]).then_some(())?;
    Some(entries)
}

fn is_text(byte: u8) -> bool {
    byte >= 0x40 || matches!(byte, 0x00 | 0x0C | 0x0D | 0x15 | 0x19 | 0x1C | 0x1E | 0x3F)
}

fn address(first: u8, second: u8) -> Option<usize> {
    let place = match first >> 6 {
        0 => usize::from(first) * 256 + usize::from(second),
        2 => return None,
        _ => usize::from(first % 64) * 64 + usize::from(second % 64),
    };
    (place < CELLS).then_some(place)
}

/// The record on a blank screen, and whether the keyboard is free.
fn shown(cells: &mut [Cell], record: &[u8]) -> Option<bool> {
    let [0x05 | 0xF5, wcc, orders @ ..] = record else { return None };
    cells.fill(Cell::Char);
    let (mut at, mut rest) = (0, orders);
    while let [first, more @ ..] = rest {
        (cells[at], rest) = match (first, more) {
            (0x1D, [attribute, others @ ..]) => (Cell::Field(attribute % 64), others),
            (byte, others) if is_text(*byte) => (Cell::Char, others),
            (0x11, [high, low, others @ ..]) => {
                (at, rest) = (address(*high, *low)?, others);
                continue;
            }
            (0x13, others) => {
                rest = others;
                continue;
            }
            _ => return None,
        };
        at = (at + 1) % CELLS;
    }
    Some(wcc & 0x02 != 0)
}

fn length(cells: &[Cell], at: usize) -> usize {
    (1..CELLS).find(|n| matches!(cells[(at + n) % CELLS], Cell::Field(_))).unwrap_or(CELLS) - 1
}

/// Whether each field is an entry of the layout, and each entry a field.
fn conforms(cells: &[Cell], entries: &[Entry], at_place: &mut [Option<usize>]) -> bool {
    at_place.fill(None);
    for entry in entries {
        if at_place[entry.place].replace(entry.length).is_some() {
            return false;
        }
    }
    let mut found = 0;
    for (at, cell) in cells.iter().enumerate() {
        let Cell::Field(bits) = cell else { continue };
        let declared = at_place[(at + 1) % CELLS];
        let length = length(cells, at);
        let is_input = bits & PROTECTED == 0 && length > 0;
        let is_sent = bits & MODIFIED != 0;
        match declared {
            Some(_) if bits & PROTECTED != 0 => return false,
            Some(most) if length > most => return false,
            Some(_) => found += 1,
            None if is_input || is_sent => return false,
            None => {}
        }
    }
    found == entries.len()
}

/// What the operator can have left: the tag of each input is set.
fn leave(cells: &mut [Cell]) {
    for at in 0..CELLS {
        let is_empty = matches!(cells[(at + 1) % CELLS], Cell::Field(_));
        if let Cell::Field(bits) = &mut cells[at] {
            if *bits & PROTECTED == 0 && !is_empty {
                *bits |= MODIFIED;
            }
        }
    }
}

/// The records in turn on one screen, and then its fields beside the layout. Lines of `#` are comments.
pub fn check(text: &str, layout: &str) -> &'static str {
    let layout = entries(layout).expect("a layout");
    let mut cells = vec![Cell::Char; CELLS];
    let mut is_free = false;
    for line in text.lines().filter(|line| !line.starts_with('#')) {
        is_free |= shown(&mut cells, &record(line).expect("hexadecimal")).expect("a good record");
    }
    assert!(is_free);
    if !cells.iter().any(|cell| matches!(cell, Cell::Field(_))) {
        return "F7 no field\n";
    }
    assert!(conforms(&cells, &layout, &mut vec![None; CELLS]));
    "yes\n"
}

fn main() -> io::Result<()> {
    let mut input = Vec::new();
    io::stdin().read_to_end(&mut input)?;
    let text = std::str::from_utf8(&input).expect("text");
    if std::env::args().nth(1).as_deref() == Some("check") {
        let path = std::env::args().nth(2).expect("a layout");
        let words = check(text, &std::fs::read_to_string(path)?);
        io::stdout().write_all(words.as_bytes())?;
        std::process::exit(i32::from(words != "yes\n"));
    }
    let turns: Vec<Vec<u8>> = text.split("turn\n").map(|turn| record(turn.trim_end()).expect("hexadecimal")).collect();
    let mut cells = vec![Cell::Char; CELLS];
    let mut at_place = vec![None; CELLS];
    let paths: Vec<String> = std::env::args().skip(2).collect();
    assert_eq!(paths.len(), turns.len());
    for (path, turn) in paths.iter().zip(&turns) {
        let layout = entries(&std::fs::read_to_string(path)?).expect("a layout");
        let is_free = shown(&mut cells, turn).expect("a good record");
        assert!(is_free && conforms(&cells, &layout, &mut at_place));
        leave(&mut cells);
    }
    io::stdout().write_all(b"yes\n")
}
