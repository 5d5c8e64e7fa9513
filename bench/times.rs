//! Times programs on one input, in turn, so that a machine whose speed moves disturbs all of them alike: the least of so many
//! runs of each, in microseconds, on one line. After each turn it rests, so that the runs go over some seconds: a machine that is
//! slowed down for one of them isn't for all. Arguments: the input, where the output goes, how many runs, and the programs with
//! their words, with `::` between them.
use std::fs::File;
use std::io::{self, Error};
use std::process::Command;
use std::thread::sleep;
use std::time::{Duration, Instant};

const REST: Duration = Duration::from_millis(100);

/// One run, from its start to its end. Status 1 tells of findings.
fn run(words: &[String], input: &str, output: &str) -> io::Result<Duration> {
    let mut command = Command::new(&words[0]);
    command.args(&words[1..]).stdin(File::open(input)?).stdout(File::create(output)?);
    let begun = Instant::now();
    let status = command.status()?;
    let spent = begun.elapsed();
    match status.code() {
        Some(0 | 1) => Ok(spent),
        _ => Err(Error::other(format!("{}: {status}", words[0]))),
    }
}

fn main() -> io::Result<()> {
    let words: Vec<String> = std::env::args().skip(1).collect();
    let [input, output, count, rest @ ..] = words.as_slice() else {
        return Err(Error::other("times INPUT OUTPUT COUNT PROGRAM [WORD ..] [:: PROGRAM ..]"));
    };
    let count: u32 = count.parse().map_err(Error::other)?;
    let programs: Vec<&[String]> = rest.split(|word| word == "::").collect();
    let mut least = vec![Duration::MAX; programs.len()];
    for _ in 0..count {
        for (least, words) in least.iter_mut().zip(&programs) {
            *least = run(words, input, output)?.min(*least);
        }
        sleep(REST);
    }
    let told: Vec<String> = least.iter().map(|least| least.as_micros().to_string()).collect();
    println!("{}", told.join(" "));
    Ok(())
}
