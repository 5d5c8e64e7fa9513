//! The work of `term3270 convert` and `convert --back` in plain Rust, to measure beside them:
//! Erase/Write records of text, Start Field, Set Buffer Address and Insert Cursor.
mod digits;

use digits::{decoded, record};
use std::io::{self, Read, Write};

fn is_text(byte: u8) -> bool {
    byte >= 0x40 || matches!(byte, 0x00 | 0x0C | 0x0D | 0x15 | 0x19 | 0x1C | 0x1E | 0x3F)
}

fn address(first: u8, second: u8) -> Option<u32> {
    match first >> 6 {
        0 => Some(u32::from(first) * 256 + u32::from(second)),
        2 => None,
        _ => Some(u32::from(first % 64) * 64 + u32::from(second % 64)),
    }
}

fn six_bit_code(value: u8) -> u8 {
    match value {
        0x00 | 0x10 | 0x20 => value + 0x40,
        0x21 => 0x61,
        0x01..=0x09 | 0x11..=0x19 | 0x22..=0x29 | 0x30..=0x39 => value + 0xC0,
        _ => value + 0x40,
    }
}

/// Each byte in hexadecimal.
const SPELLED: [[u8; 2]; 256] = {
    let mut spelled = [[0; 2]; 256];
    let mut byte = 0;
    while byte < 256 {
        spelled[byte] = [b"0123456789ABCDEF"[byte / 16], b"0123456789ABCDEF"[byte % 16]];
        byte += 1;
    }
    spelled
};

fn push_hex(out: &mut Vec<u8>, bytes: &[u8]) {
    let from = out.len();
    out.resize(from + 2 * bytes.len(), 0);
    for (digits, byte) in out[from..].chunks_exact_mut(2).zip(bytes) {
        digits.copy_from_slice(&SPELLED[usize::from(*byte)]);
    }
}

fn lines(out: &mut Vec<u8>, bytes: &[u8]) -> Option<()> {
    let [0x05 | 0xF5, wcc, orders @ ..] = bytes else { return None };
    let _ = writeln!(out, "EW {wcc:02X}");
    let mut rest = orders;
    while let [first, more @ ..] = rest {
        rest = match (first, more) {
            (0x1D, [attribute, others @ ..]) => {
                let _ = writeln!(out, "SF {:02X}", attribute % 64);
                others
            }
            (0x13, others) => {
                out.extend_from_slice(b"IC\n");
                others
            }
            (0x11, [high, low, others @ ..]) => {
                let _ = writeln!(out, "SBA {}", address(*high, *low)?);
                others
            }
            _ => {
                let count = rest.iter().take_while(|byte| is_text(**byte)).count();
                if count == 0 {
                    return None;
                }
                out.extend_from_slice(b"TEXT ");
                push_hex(out, &rest[..count]);
                out.push(b'\n');
                &rest[count..]
            }
        };
    }
    out.push(b'\n');
    Some(())
}

enum Order {
    Text(Vec<u8>),
    Field(u8),
    Address(u32),
    Cursor,
}

fn order(line: &str) -> Option<Order> {
    if let Some(text) = line.strip_prefix("TEXT ") {
        decoded(text.as_bytes()).map(Order::Text)
    } else if let Some(bits) = line.strip_prefix("SF ") {
        decoded(bits.as_bytes())?.first().copied().map(Order::Field)
    } else if let Some(number) = line.strip_prefix("SBA ") {
        number.parse().ok().map(Order::Address)
    } else {
        (line == "IC").then_some(Order::Cursor)
    }
}

fn bytes_of(wcc: u8, orders: &[Order]) -> Option<Vec<u8>> {
    let mut bytes = vec![0xF5, wcc];
    for order in orders {
        match order {
            Order::Text(run) if run.iter().all(|byte| is_text(*byte)) => bytes.extend(run),
            Order::Text(_) => return None,
            Order::Field(bits) => bytes.extend([0x1D, six_bit_code(*bits)]),
            Order::Address(place) if *place < 1920 => {
                bytes.extend([0x11, six_bit_code((place / 64) as u8), six_bit_code((place % 64) as u8)]);
            }
            Order::Address(_) => return None,
            Order::Cursor => bytes.push(0x13),
        }
    }
    Some(bytes)
}

fn back(text: &str) -> Option<Vec<u8>> {
    let mut records: Vec<(u8, Vec<Order>)> = Vec::new();
    let mut open = false;
    for line in text.lines() {
        if line.is_empty() {
            open = false;
        } else if line.starts_with('#') {
        } else if open {
            records.last_mut()?.1.push(order(line)?);
        } else {
            let wcc = decoded(line.strip_prefix("EW ")?.as_bytes())?;
            records.push((*wcc.first()?, Vec::new()));
            open = true;
        }
    }
    let mut out = Vec::new();
    for (wcc, orders) in &records {
        push_hex(&mut out, &bytes_of(*wcc, orders)?);
        out.push(b'\n');
    }
    Some(out)
}

fn main() -> io::Result<()> {
    let mut input = Vec::new();
    io::stdin().read_to_end(&mut input)?;
    let text = std::str::from_utf8(&input).expect("text");
    let out = if std::env::args().any(|word| word == "--back") {
        back(text).expect("good lines")
    } else {
        let mut out = Vec::new();
        for line in text.lines().filter(|line| !line.is_empty()) {
            lines(&mut out, &record(line).expect("digits")).expect("a good record");
        }
        out
    };
    io::stdout().write_all(&out)
}
