// Times `script` beside s3270, a line at a time as tools send them: scripts PROGRAM. The most a second of seven runs in turn. The tool and the host
// are plain Rust, so that little of the time is theirs: a tool in Python takes longer for each line than either program. The sessions are classic
// ones: in TN3270E s3270 waits 40 ms for the host's acknowledgement of its response.
use std::io::{BufRead, BufReader, ErrorKind, Read, Write};
use std::net::{TcpListener, TcpStream};
use std::process::{Child, Command, Stdio};
use std::thread;
use std::time::Instant;

const REFERENCE: &[&str] = &["s3270", "-model", "3278-2", "-utf8", "-codepage", "cp037", "-xrm", "s3270.unlockDelay: False"];
const RUNS: usize = 7;
const SIGNON: &str = "F5C311405D1DF0E2C9C7D540D6D511C3F81DF0E4E2C5D9C9C411C4C21D401311C44B1DF011C5C81DF0D7C1E2E2E6D6D9C411C5D21D4C11C55B1DF0FFEF";

fn bytes_of(digits: &str) -> Vec<u8> {
    (0..digits.len()).step_by(2).map(|at| u8::from_str_radix(&digits[at..at + 2], 16).unwrap()).collect()
}

/// Reads until what came ends so, or holds so many bytes; false where the line ended.
fn read_until(line: &mut TcpStream, is_whole: impl Fn(&[u8]) -> bool) -> bool {
    let (mut came, mut piece) = (Vec::new(), [0; 4096]);
    while !is_whole(&came) {
        match line.read(&mut piece) {
            Ok(0) | Err(_) => return false,
            Ok(count) => came.extend(&piece[..count]),
        }
    }
    true
}

/// A classic host that sends a sign-on screen, and again for each record, of which it doesn't read what it says.
fn serve(listener: TcpListener) {
    let (mut line, _) = listener.accept().unwrap();
    line.set_nodelay(true).unwrap();
    let steps: [(&str, fn(&[u8]) -> bool); 3] = [
        ("FFFD18", |came| came.ends_with(&[0xFF, 0xFB, 0x18])),
        ("FFFA1801FFF0", |came| came.ends_with(&[0xFF, 0xF0])),
        ("FFFD19FFFB19FFFD00FFFB00", |came| came.len() >= 12),
    ];
    for (digits, is_whole) in steps {
        line.write_all(&bytes_of(digits)).unwrap();
        assert!(read_until(&mut line, is_whole));
    }
    let screen = bytes_of(SIGNON);
    line.write_all(&screen).unwrap();
    while read_until(&mut line, |came| came.ends_with(&[0xFF, 0xEF])) {
        if line.write_all(&screen).is_err() {
            return;
        }
    }
}

/// Sends a line, and reads up to its `ok`.
fn ask(child: &mut Child, answers: &mut impl BufRead, line: &str) {
    child.stdin.as_mut().unwrap().write_all(line.as_bytes()).unwrap();
    let mut said = String::new();
    while said != "ok\n" {
        said.clear();
        answers.read_line(&mut said).unwrap();
        assert!(!said.is_empty() && said != "error\n", "{line:?} is answered with {said:?}");
    }
}

/// How many such lines a second.
fn rate(words: &[&str], line: &str, times: u32) -> f64 {
    let listener = TcpListener::bind(("127.0.0.1", 0)).unwrap();
    let port = listener.local_addr().unwrap().port();
    let host = thread::spawn(move || serve(listener));
    let mut child = Command::new(words[0]).args(&words[1..]).stdin(Stdio::piped()).stdout(Stdio::piped()).spawn().unwrap();
    let mut answers = BufReader::new(child.stdout.take().unwrap());
    ask(&mut child, &mut answers, &format!("Connect(127.0.0.1:{port})\n"));
    let begun = Instant::now();
    for _ in 0..times {
        ask(&mut child, &mut answers, line);
    }
    let spent = begun.elapsed();
    ask(&mut child, &mut answers, "Disconnect\n");
    drop(child.stdin.take());
    child.wait().unwrap();
    host.join().unwrap();
    f64::from(times) / spent.as_secs_f64()
}

fn main() {
    let program = std::env::args().nth(1).unwrap();
    match Command::new(REFERENCE[0]).arg("-v").stdin(Stdio::null()).stdout(Stdio::null()).stderr(Stdio::null()).status() {
        Err(error) if error.kind() == ErrorKind::NotFound => return println!("script: left out, as s3270 isn't installed"),
        _ => {}
    }
    let ours = [program.as_str(), "script", "--code-page", "037"];
    for (name, line, times) in [("10,000 Ascii", "Ascii\n", 10_000), ("1,000 screens with Enter", "Enter\n", 1_000)] {
        let (mut best, mut other) = (0.0, 0.0);
        for _ in 0..RUNS {
            best = rate(&ours, line, times).max(best);
            other = rate(REFERENCE, line, times).max(other);
        }
        println!("script, {name}: {best:.0} a second, s3270 {other:.0}, ratio {:.2}", best / other);
    }
}
