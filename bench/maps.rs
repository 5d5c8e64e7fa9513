// Plain Rust beside `check --map FILE`: BMS source with DFHMSD, DFHMDI and DFHMDF, whose operands are POS=(line,column), LENGTH, ATTRB, INITIAL,
// TYPE, CTRL and SIZE=(24,80); other operands and forms are refused. It reads the same form of lines and statements, checks what is said of names,
// places and lengths, writes the screen, and prints the same lines: yes, M1, M2, F5, F7, F8, F9, F10, F11 and F13.
use std::collections::HashSet;
use std::fmt::Write as _;
use std::io::Write as _;
use std::process::exit;

const COLS: usize = 80;
const CELLS: usize = 1920;

struct Field {
    at: usize,
    length: usize,
    attribute: u8,
    text: Option<Vec<u8>>,
    label: String,
    line: usize,
    row: usize,
    column: usize,
}

struct Map {
    name: String,
    line: usize,
    frees: bool,
    fields: Vec<Field>,
    cursor: Option<usize>,
}

fn refuse(words: &str, line: usize, column: usize) -> ! {
    println!("map refused: {words} at line {line} column {column}");
    exit(2)
}

/// A statement: its line, its label, its operation, and its operands with the place of each character.
struct Statement {
    line: usize,
    label: String,
    operation: String,
    operands: Vec<(u8, usize, usize)>,
}

fn is_blank(columns: &[u8]) -> bool {
    columns.iter().take(71).all(|c| *c == b' ')
}

fn column(columns: &[u8], index: usize) -> u8 {
    columns.get(index).copied().unwrap_or(b' ')
}

/// The columns of a line: a character of several bytes is one of them.
fn columns_of(line: &[u8], number: usize) -> Vec<u8> {
    let Ok(text) = std::str::from_utf8(line) else { refuse("R1 NotText", number, 1) };
    let columns: Vec<u8> = if text.is_ascii() { line.to_vec() } else { text.chars().map(|c| if c.is_ascii() { c as u8 } else { 0xFF }).collect() };
    for (index, code) in columns.iter().enumerate() {
        if *code == b'\t' {
            refuse("R2 Tab", number, index + 1)
        }
        if index >= 80 && *code != b' ' {
            refuse("R3 LineTooLong", number, index + 1)
        }
    }
    columns
}

fn symbol(text: &[u8]) -> bool {
    let letter = |c: &u8| c.is_ascii_alphabetic() || b"@#$_".contains(c);
    text.first().is_some_and(letter) && text.iter().all(|c| letter(c) || c.is_ascii_digit())
}

fn word(columns: &[u8], from: usize) -> (usize, usize) {
    let begin = (from..71.min(columns.len())).find(|i| columns[*i] != b' ').unwrap_or(71.min(columns.len()));
    let end = (begin..71.min(columns.len())).find(|i| columns[*i] == b' ').unwrap_or(71.min(columns.len()));
    (begin, end)
}

/// The operands over all lines of a statement, of which the first begins at a column.
fn gathered(lines: &[(usize, Vec<u8>)], from: usize) -> Vec<(u8, usize, usize)> {
    let mut all = Vec::new();
    let (mut quoted, mut ended) = (false, false);
    for (k, (number, columns)) in lines.iter().enumerate() {
        let begin = if k == 0 { from } else { 15 };
        if ended {
            if let Some(at) = (15..71.min(columns.len())).find(|i| columns[*i] != b' ') {
                refuse("R11 AfterOperands", *number, at + 1)
            }
            continue;
        }
        if k > 0 && all.last().is_some_and(|(c, _, _)| *c == b',') && !quoted && column(columns, 15) == b' ' {
            refuse("R12 Column16", *number, word(columns, 15).0 + 1)
        }
        ended = true;
        for index in begin..71 {
            let code = column(columns, index);
            if code == b'\'' {
                quoted = !quoted
            }
            if code == b' ' && !quoted {
                ended = all.last().is_none_or(|(c, _, _)| *c != b',') || k + 1 == lines.len();
                break;
            }
            all.push((code, *number, index + 1));
            if index == 70 {
                ended = false
            }
        }
    }
    if quoted {
        let at = all.iter().find(|(c, _, _)| *c == b'\'').unwrap();
        refuse("R9 Unended", at.1, at.2)
    }
    if let Some((b',', line, at)) = all.last() {
        refuse("R10 Comma", *line, *at)
    }
    all
}

fn statements(text: &[u8], mut take: impl FnMut(Statement) -> bool) {
    let mut lines = text.split(|c| *c == b'\n').enumerate().map(|(i, l)| (i + 1, l.strip_suffix(b"\r").unwrap_or(l)));
    let last = text.split(|c| *c == b'\n').count();
    while let Some((number, line)) = lines.next() {
        let columns = columns_of(line, number);
        let marked = column(&columns, 71) != b' ';
        if is_blank(&columns) {
            if marked {
                refuse("R5 BadMark", number, 72)
            }
            continue;
        }
        let mut all = vec![(number, columns)];
        while column(&all.last().unwrap().1, 71) != b' ' {
            let Some((number, line)) = lines.next().filter(|(n, l)| *n < last || !l.is_empty()) else { refuse("R5 BadMark", all.last().unwrap().0, 72) };
            let columns = columns_of(line, number);
            if let Some(at) = (0..15.min(columns.len())).find(|i| columns[*i] != b' ') {
                refuse("R4 BadContinuation", number, at + 1)
            }
            all.push((number, columns));
        }
        let first = &all[0].1;
        if first[0] == b'*' || first.starts_with(b".*") {
            continue;
        }
        let label = if first[0] == b' ' { 0 } else { word(first, 0).1 };
        let (begin, end) = word(first, label);
        let operation = String::from_utf8_lossy(&first[begin..end]).to_uppercase();
        let from = word(first, end).0;
        let operands = gathered(&all, from);
        if operation == "END" || !take(Statement { line: number, label: String::from_utf8_lossy(&first[..label]).to_uppercase(), operation, operands }) {
            return;
        }
    }
}

/// The operands: a keyword and its value each.
fn operands(statement: &Statement) -> Vec<(String, String, usize, usize)> {
    let (mut all, mut depth, mut quoted, mut begin) = (Vec::new(), 0, false, 0);
    let letters = &statement.operands;
    for index in 0..=letters.len() {
        let code = letters.get(index).map_or(b',', |l| l.0);
        match code {
            b'\'' => quoted = !quoted,
            b'(' if !quoted => depth += 1,
            b')' if !quoted => depth -= 1,
            b',' if !quoted && depth == 0 => {
                let part: Vec<u8> = letters[begin..index].iter().map(|l| l.0).collect();
                let (line, at) = letters.get(begin).map_or((statement.line, 1), |l| (l.1, l.2));
                let Some(equals) = part.iter().position(|c| *c == b'=') else { refuse("R13 BadOperand", line, at) };
                if !symbol(&part[..equals]) || equals + 1 == part.len() {
                    refuse("R13 BadOperand", line, at)
                }
                let keyword = String::from_utf8_lossy(&part[..equals]).to_uppercase();
                if all.iter().any(|(k, _, _, _): &(String, String, usize, usize)| *k == keyword) {
                    refuse(&format!("R15 OperandTwice {keyword}"), line, at)
                }
                all.push((keyword, String::from_utf8_lossy(&part[equals + 1..]).into_owned(), line, at));
                begin = index + 1;
            }
            _ => {}
        }
    }
    all
}

fn list(value: &str) -> Vec<String> {
    let inner = value.strip_prefix('(').and_then(|v| v.strip_suffix(')')).unwrap_or(value);
    inner.split(',').map(|w| w.to_uppercase()).collect()
}

fn pair(value: &str) -> Option<(usize, usize)> {
    let (a, b) = value.strip_prefix('(')?.strip_suffix(')')?.split_once(',')?;
    Some((a.parse().ok()?, b.parse().ok()?))
}

/// EBCDIC of the letters, digits and spaces that titles have.
fn code(character: char) -> u8 {
    match character {
        'A'..='I' => 0xC1 + character as u8 - b'A',
        'J'..='R' => 0xD1 + character as u8 - b'J',
        'S'..='Z' => 0xE2 + character as u8 - b'S',
        '0'..='9' => 0xF0 + character as u8 - b'0',
        _ => 0x40,
    }
}

fn attribute(value: Option<&str>, line: usize, at: usize) -> (u8, bool) {
    let Some(value) = value else { return (0x30, false) };
    let (mut bits, mut cursor) = (0, false);
    for word in list(value) {
        bits |= match word.as_str() {
            "ASKIP" => 0x30,
            "PROT" => 0x20,
            "NUM" => 0x10,
            "BRT" => 0x08,
            "DRK" => 0x0C,
            "FSET" => 0x01,
            "UNPROT" | "NORM" => 0,
            "IC" => {
                cursor = true;
                0
            }
            _ => refuse("R17 BadValue ATTRB", line, at),
        }
    }
    (bits, cursor)
}

fn read(text: &[u8]) -> Vec<Map> {
    let (mut maps, mut frees, mut is_open, mut is_final): (Vec<Map>, bool, bool, bool) = (Vec::new(), false, false, false);
    let mut names: HashSet<String> = HashSet::new();
    let mut map_names: HashSet<String> = HashSet::new();
    let mut places = vec![false; CELLS];
    statements(text, |statement| {
        let all = operands(&statement);
        let value = |keyword: &str| all.iter().find(|o| o.0 == keyword).map(|o| (o.1.as_str(), o.2, o.3));
        match statement.operation.as_str() {
            "DFHMSD" => {
                let Some((kind, _, _)) = value("TYPE") else { refuse("R20 MissingOperand TYPE", statement.line, 10) };
                if kind.eq_ignore_ascii_case("FINAL") {
                    is_final = true;
                    return false;
                }
                is_open = true;
                frees = value("CTRL").is_some_and(|(v, _, _)| list(v).iter().any(|w| w == "FREEKB"));
            }
            "DFHMDI" if is_open => {
                if value("SIZE").and_then(|(v, _, _)| pair(v)) != Some((24, 80)) {
                    refuse("R17 BadValue SIZE", statement.line, 10)
                }
                if !map_names.insert(statement.label.clone()) {
                    refuse(&format!("R23 NameTwice {}", statement.label), statement.line, 1)
                }
                let frees = value("CTRL").map_or(frees, |(v, _, _)| list(v).iter().any(|w| w == "FREEKB"));
                names.clear();
                places.fill(false);
                maps.push(Map { name: statement.label, line: statement.line, frees, fields: Vec::new(), cursor: None });
            }
            "DFHMDF" if !maps.is_empty() => {
                let map = maps.last_mut().unwrap();
                let Some((pos, line, at)) = value("POS") else { refuse("R20 MissingOperand POS", statement.line, 10) };
                let Some((row, column)) = pair(pos) else { refuse("R17 BadValue POS", line, at) };
                let Some(length) = value("LENGTH").and_then(|(v, _, _)| v.parse::<usize>().ok()).filter(|n| *n <= 256) else { refuse("R20 MissingOperand LENGTH", statement.line, 10) };
                if !(1..=24).contains(&row) || !(1..=COLS).contains(&column) {
                    refuse("R24 PosOutside POS", line, at)
                }
                let cell = (row - 1) * COLS + column - 1;
                if std::mem::replace(&mut places[cell], true) {
                    refuse("R25 PosTwice POS", line, at)
                }
                if !statement.label.is_empty() && (length == 0 || !symbol(statement.label.as_bytes())) {
                    refuse("R6 BadLabel", statement.line, 1)
                }
                if !statement.label.is_empty() && !names.insert(statement.label.clone()) {
                    refuse(&format!("R23 NameTwice {}", statement.label), statement.line, 1)
                }
                let (bits, cursor) = attribute(value("ATTRB").map(|v| v.0), line, at);
                let text = value("INITIAL").map(|(v, line, at)| {
                    let inner = v.strip_prefix('\'').and_then(|v| v.strip_suffix('\'')).unwrap_or_else(|| refuse("R17 BadValue INITIAL", line, at));
                    let mut codes: Vec<u8> = inner.chars().map(code).collect();
                    if codes.len() > length {
                        refuse("R26 TooLong INITIAL", line, at)
                    }
                    codes.resize(length, 0x40);
                    codes
                });
                if cursor {
                    map.cursor = Some(cell)
                }
                map.fields.push(Field { at: cell, length, attribute: bits, text, label: statement.label, line: statement.line, row, column });
            }
            _ => refuse(&format!("R8 UnknownOperation {}", statement.operation), statement.line, 1),
        }
        true
    });
    if !is_final {
        refuse("R22 NoFinal", 1, 1)
    }
    for map in &mut maps {
        map.fields.sort_by_key(|f| f.at)
    }
    maps
}

fn people(field: &Field) -> String {
    if field.label.is_empty() { format!("({},{})", field.row, field.column) } else { field.label.clone() }
}

/// The lines of a map, and whether nothing is found.
fn check(map: &Map, out: &mut String) -> bool {
    let mut found = Vec::new();
    let mut tell = |field: Option<&Field>, words: String| match field {
        Some(field) => found.push(format!("{} {} line {}: {words}", map.name, people(field), field.line)),
        None => found.push(format!("{} line {}: {words}", map.name, map.line)),
    };
    for (index, field) in map.fields.iter().enumerate() {
        if let Some(other) = map.fields[..index].iter().rev().find(|other| field.at <= other.at + other.length) {
            tell(Some(field), format!("M1 overlaps {} line {}", people(other), other.line))
        }
        if field.at + field.length > CELLS - 1 {
            tell(Some(field), format!("M2 past the end by {}", field.at + field.length - (CELLS - 1)))
        }
    }
    // The screen: attributes as Some, characters as None.
    let mut cells: Vec<Option<u8>> = vec![None; CELLS];
    for field in &map.fields {
        cells[field.at] = Some(field.attribute);
        for k in 1..=field.text.as_ref().map_or(0, Vec::len) {
            cells[(field.at + k) % CELLS] = None
        }
    }
    let attributes: Vec<(usize, u8)> = cells.iter().enumerate().filter_map(|(p, c)| c.map(|bits| (p, bits))).collect();
    let cursor = map.cursor.map_or(0, |at| (at + 1) % CELLS);
    let rights = |place: usize| (place + CELLS - cursor) % CELLS;
    let spans: Vec<(usize, u8, usize)> = (0..attributes.len())
        .map(|i| {
            let next = attributes[(i + 1) % attributes.len()].0;
            ((attributes[i].0 + 1) % CELLS, attributes[i].1, (next + CELLS - attributes[i].0 - 1) % CELLS)
        })
        .collect();
    let is_declared = |f: &&Field| !f.label.is_empty() && (f.attribute & 0x20 == 0 || f.attribute & 1 == 1);
    let entries: Vec<&Field> = map.fields.iter().filter(is_declared).collect();
    if !map.frees {
        tell(None, "F5 keyboard stays locked".into())
    } else if attributes.is_empty() {
        tell(None, "F7 no field".into())
    } else {
        for (place, bits, length) in &spans {
            let field = map.fields.iter().find(|f| (f.at + 1) % CELLS == *place);
            if entries.iter().any(|e| (e.at + 1) % CELLS == *place) {
                continue;
            }
            if *length == 0 && bits & 1 == 1 {
                tell(field, format!("F13 empty modified field at {place}"))
            } else if *length > 0 && bits & 0x20 == 0 {
                tell(field, format!("F8 undeclared input at {place}, keys: right {}, type 1", rights(*place)))
            } else if *length > 0 && bits & 1 == 1 {
                tell(field, format!("F9 undeclared fixed at {place}, keys: right 0, type 0"))
            }
        }
        for entry in &entries {
            let place = (entry.at + 1) % CELLS;
            let name = entry.label.to_lowercase().replace(['@', '#', '$'], "_");
            match spans.binary_search_by_key(&entry.at, |s| (s.0 + CELLS - 1) % CELLS).ok().map(|i| spans[i]).filter(|s| s.2 > 0) {
                None => tell(Some(entry), format!("F10 missing {name}")),
                Some((_, bits, length)) if length > entry.length => {
                    let keys = if bits & 0x20 == 0 { format!(", keys: right {}, type {length}", rights(place)) } else { String::new() };
                    tell(Some(entry), format!("F11 {name} length {length}, declared {}{keys}", entry.length))
                }
                _ => {}
            }
        }
    }
    if found.is_empty() {
        let _ = writeln!(out, "{} line {}: yes", map.name, map.line);
        return true;
    }
    for line in &found {
        let _ = writeln!(out, "{line}");
    }
    false
}

fn main() {
    let path = std::env::args().nth(3).expect("check --map FILE");
    let text = std::fs::read(path).expect("a file");
    let mut out = String::new();
    let mut is_good = true;
    for map in &read(&text) {
        is_good &= check(map, &mut out)
    }
    std::io::stdout().write_all(out.as_bytes()).expect("a write");
    exit(if is_good { 0 } else { 1 })
}
