//! Opens, reads and closes each file whose path is a line of the file that is named: what no suite of these files can do without.
use std::fs::{File, read_to_string};
use std::io::{self, Read};

fn main() -> io::Result<()> {
    let paths = read_to_string(std::env::args().nth(1).expect("a list of paths"))?;
    let mut buffer = [0; 8192];
    let mut total = 0;
    for path in paths.lines() {
        let mut file = File::open(path)?;
        loop {
            match file.read(&mut buffer)? {
                0 => break,
                count => total += count,
            }
        }
    }
    println!("{total}");
    Ok(())
}
