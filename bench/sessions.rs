// Both ends of sessions over loopback in plain Rust, for the measures of `attach` and `serve`.
//
// host PORT N        a host that sends N full screens to the first terminal, TN3270E with RESPONSES, and closes
// attach PORT        a terminal that takes them, in reads of 4,096 bytes, with one write for all that is due between two reads
// terminals PORT N   N terminals, one after the other, each of which sends its whole script at once and reads to the end
// serve PORT N       a host that serves one screen to N terminals, and prints what each sends
use std::io::{ErrorKind, Read, Write};
use std::net::{TcpListener, TcpStream};
use std::time::Duration;

const NAME: &[u8] = b"IBM-3278-2";
const SCREEN: &[u8] = &[0xF5, 0xC2, 0x1D, 0x60, 0xC1, 0x1D, 0x40, 0x13, 0x11, 0x40, 0xC6, 0x1D, 0xF0];

fn connect(port: u16) -> TcpStream {
    loop {
        match TcpStream::connect(("127.0.0.1", port)) {
            Ok(stream) => {
                stream.set_nodelay(true).unwrap();
                return stream;
            }
            Err(error) if error.kind() == ErrorKind::ConnectionRefused => std::thread::sleep(Duration::from_millis(1)),
            Err(error) => panic!("{error}"),
        }
    }
}

fn listen(port: u16) -> TcpListener {
    TcpListener::bind(("127.0.0.1", port)).unwrap()
}

fn push_frame(out: &mut Vec<u8>, header: &[u8], record: &[u8]) {
    for byte in header.iter().chain(record) {
        out.push(*byte);
        if *byte == 0xFF {
            out.push(0xFF);
        }
    }
    out.extend([0xFF, 0xEF]);
}

enum Event {
    Record(Vec<u8>),
    Verb(u8),
    Sub(Vec<u8>),
}

#[derive(Default)]
struct Deframer {
    record: Vec<u8>,
    sub: Option<Vec<u8>>,
    escaped: bool,
    in_verb: bool,
}

impl Deframer {
    /// The next event of these bytes, which it takes from the front. Runs of data are copied at once.
    fn next(&mut self, bytes: &mut &[u8]) -> Option<Event> {
        while let Some(first) = bytes.first() {
            if !self.escaped && !self.in_verb && self.sub.is_none() && *first != 0xFF {
                let length = bytes.iter().position(|byte| *byte == 0xFF).unwrap_or(bytes.len());
                self.record.extend_from_slice(&bytes[..length]);
                *bytes = &bytes[length..];
            } else {
                let event = self.take(*first);
                *bytes = &bytes[1..];
                if event.is_some() {
                    return event;
                }
            }
        }
        None
    }

    fn take(&mut self, byte: u8) -> Option<Event> {
        if std::mem::take(&mut self.in_verb) {
            return Some(Event::Verb(byte));
        }
        if !std::mem::take(&mut self.escaped) {
            if byte == 0xFF {
                self.escaped = true;
            } else if let Some(sub) = &mut self.sub {
                sub.push(byte);
            } else {
                self.record.push(byte);
            }
            return None;
        }
        match byte {
            0xFF => match &mut self.sub {
                Some(sub) => sub.push(byte),
                None => self.record.push(byte),
            },
            0xEF => return Some(Event::Record(std::mem::take(&mut self.record))),
            0xFA => self.sub = Some(Vec::new()),
            0xF0 => return self.sub.take().map(Event::Sub),
            0xFB..=0xFE => self.in_verb = true,
            _ => {}
        }
        None
    }
}

fn host(port: u16, count: u32) {
    let mut full = vec![0xF5, 0x40];
    full.extend((0..1920u32).map(|i| 193 + (i % 9) as u8));
    let (mut stream, _) = listen(port).accept().unwrap();
    stream.set_nodelay(true).unwrap();
    let mut reads = stream.try_clone().unwrap();
    let drain = std::thread::spawn(move || std::io::copy(&mut reads, &mut std::io::sink()).unwrap());
    let mut out = b"\xFF\xFD\x28\xFF\xFA\x28\x08\x02\xFF\xF0\xFF\xFA\x28\x02\x04".to_vec();
    out.extend(NAME);
    out.extend(b"\x01TERM3270\xFF\xF0\xFF\xFA\x28\x03\x04\x02\xFF\xF0");
    for number in 0..count {
        let sequence = (number % 32768) as u16;
        push_frame(&mut out, &[0, 0, 2, (sequence >> 8) as u8, sequence as u8], &full);
        if out.len() > 65536 {
            stream.write_all(&out).unwrap();
            out.clear();
        }
    }
    stream.write_all(&out).unwrap();
    stream.shutdown(std::net::Shutdown::Write).unwrap();
    drain.join().unwrap();
}

/// The cells that an Erase/Write of texts, addresses and attributes leaves.
fn show(cells: &mut Vec<u16>, record: &[u8]) {
    cells.clear();
    cells.resize(1920, 0);
    let (mut at, mut i) = (0, 2);
    while i < record.len() {
        match record[i] {
            0x11 => {
                at = usize::from(record[i + 1] & 63) * 64 + usize::from(record[i + 2] & 63);
                i += 3;
            }
            0x1D => {
                cells[at] = 256 + u16::from(record[i + 1] & 63);
                at = (at + 1) % 1920;
                i += 2;
            }
            0x13 => i += 1,
            byte => {
                cells[at] = u16::from(byte);
                at = (at + 1) % 1920;
                i += 1;
            }
        }
    }
}

fn attach(port: u16) {
    let mut stream = connect(port);
    let (mut deframer, mut due, mut cells, mut shown) = (Deframer::default(), Vec::new(), Vec::new(), 0u32);
    let mut buffer = [0; 4096];
    loop {
        stream.write_all(&due).unwrap();
        due.clear();
        let count = stream.read(&mut buffer).unwrap();
        if count == 0 {
            break;
        }
        let mut piece = &buffer[..count];
        while let Some(event) = deframer.next(&mut piece) {
            match event {
                Event::Verb(option) => due.extend([0xFF, 0xFB, option]),
                Event::Sub(sub) if sub[1] == 8 => {
                    due.extend(b"\xFF\xFA\x28\x02\x07");
                    due.extend(NAME);
                    due.extend(b"\xFF\xF0");
                }
                Event::Sub(sub) if sub[1] == 2 => due.extend(b"\xFF\xFA\x28\x03\x07\x02\xFF\xF0"),
                Event::Sub(_) => {}
                Event::Record(record) => {
                    show(&mut cells, &record[5..]);
                    shown += 1;
                    push_frame(&mut due, &[2, 0, 0, record[3], record[4]], &[0]);
                }
            }
        }
    }
    assert_eq!(cells[1919], 193 + 1919 % 9);
    println!("answers 0 passed 0 refused 0 end closed");
    assert_eq!(shown, 20000);
}

fn script() -> Vec<u8> {
    let mut bytes = b"\xFF\xFB\x28\xFF\xFA\x28\x02\x07".to_vec();
    bytes.extend(NAME);
    bytes.extend(b"\xFF\xF0\xFF\xFA\x28\x03\x07\x02\xFF\xF0\x02\x00\x00\x00\x00\x00\xFF\xEF");
    bytes.extend(b"\x00\x00\x00\x00\x00\x7D\x40\xC4\x11\x40\xC3\xC2\xFF\xEF");
    bytes
}

fn terminals(port: u16, count: u32) {
    let script = script();
    let mut got = Vec::new();
    for _ in 0..count {
        let mut stream = connect(port);
        stream.write_all(&script).unwrap();
        got.clear();
        stream.read_to_end(&mut got).unwrap();
        assert!(got.ends_with(b"\xFF\xEF"));
    }
}

/// One session: the attention identifier and the one field.
fn session(stream: &mut TcpStream) -> (u8, Vec<u8>) {
    let (mut deframer, mut due) = (Deframer::default(), b"\xFF\xFD\x28".to_vec());
    let mut buffer = [0; 4096];
    loop {
        stream.write_all(&due).unwrap();
        due.clear();
        let count = stream.read(&mut buffer).unwrap();
        assert!(count > 0);
        let mut piece = &buffer[..count];
        while let Some(event) = deframer.next(&mut piece) {
            match event {
                Event::Verb(_) => due.extend(b"\xFF\xFA\x28\x08\x02\xFF\xF0"),
                Event::Sub(sub) if sub[1] == 2 => {
                    due.extend(b"\xFF\xFA\x28\x02\x04");
                    due.extend(&sub[3..]);
                    due.extend(b"\x01TERM3270\xFF\xF0");
                }
                Event::Sub(_) => {
                    due.extend(b"\xFF\xFA\x28\x03\x04\x02\xFF\xF0");
                    push_frame(&mut due, &[0, 0, 2, 0, 0], SCREEN);
                }
                Event::Record(record) if record[0] == 0 => {
                    stream.write_all(&due).unwrap();
                    return (record[5], record[11..].to_vec());
                }
                Event::Record(_) => {}
            }
        }
    }
}

fn serve(port: u16, count: u32) {
    let listener = listen(port);
    for number in 1..=count {
        let (mut stream, _) = listener.accept().unwrap();
        stream.set_nodelay(true).unwrap();
        let (aid, code) = session(&mut stream);
        drop(stream);
        let hex: String = code.iter().map(|byte| format!("{byte:02X}")).collect();
        print!("terminal {number} aid {aid:02X}\ncode {hex}\n");
        std::io::stdout().flush().unwrap();
    }
}

fn main() {
    let words: Vec<String> = std::env::args().collect();
    let port = words[2].parse().unwrap();
    let count = words.get(3).map_or(0, |word| word.parse().unwrap());
    match words[1].as_str() {
        "host" => host(port, count),
        "attach" => attach(port),
        "terminals" => terminals(port, count),
        _ => serve(port, count),
    }
}
