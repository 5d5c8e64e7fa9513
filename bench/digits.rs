//! Hexadecimal digits, for the plain Rust programs of the benchmark.

/// The value of each hexadecimal digit, and 16 for every other byte.
const VALUES: [u8; 256] = {
    let mut values = [16; 256];
    let mut value = 0;
    while value < 16 {
        values[b"0123456789ABCDEF"[value] as usize] = value as u8;
        values[b"0123456789abcdef"[value] as usize] = value as u8;
        value += 1;
    }
    values
};

pub fn decoded(digits: &[u8]) -> Option<Vec<u8>> {
    if digits.len() % 2 != 0 {
        return None;
    }
    let mut bytes = vec![0; digits.len() / 2];
    let mut worst = 0;
    for (byte, pair) in bytes.iter_mut().zip(digits.chunks_exact(2)) {
        let (high, low) = (VALUES[usize::from(pair[0])], VALUES[usize::from(pair[1])]);
        worst |= high | low;
        *byte = high % 16 * 16 + low % 16;
    }
    (worst < 16).then_some(bytes)
}

pub fn record(line: &str) -> Option<Vec<u8>> {
    if line.contains(' ') {
        let digits: Vec<u8> = line.bytes().filter(|byte| *byte != b' ').collect();
        return decoded(&digits);
    }
    decoded(line.as_bytes())
}
