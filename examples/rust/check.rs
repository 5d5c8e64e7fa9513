//! Takvorn's checker from Rust: check LAYOUT RECORDS. It links with the static or the shared library.

/// The checker behind a safe function.
mod takvorn {
    use std::num::NonZeroU8;

    #[link(name = "takvorn")]
    unsafe extern "C" {
        fn takvorn_check(
            layout: *const u8,
            layout_length: usize,
            records: *const u8,
            records_length: usize,
            demos: bool,
            out: *mut u8,
            out_length: usize,
            needed: *mut usize,
        ) -> i32;
    }

    /// `yes`, or the text of the findings (status 1), of a fault (2), or none where memory was refused (4).
    #[derive(Debug)]
    pub struct Stopped {
        pub status: NonZeroU8,
        pub text: Vec<u8>,
    }

    /// Checks records against a layout, with demos where they are asked for.
    pub fn check(layout: &[u8], records: &[u8], demos: bool) -> Result<(), Stopped> {
        let mut text = vec![0; 4096];
        loop {
            let mut needed = 0;
            // SAFETY: slices are never null and hold so many bytes; `text` and `needed` are lent to this call alone.
            let status = unsafe {
                takvorn_check(
                    layout.as_ptr(),
                    layout.len(),
                    records.as_ptr(),
                    records.len(),
                    demos,
                    text.as_mut_ptr(),
                    text.len(),
                    &mut needed,
                )
            };
            if needed > text.len() {
                text.resize(needed, 0);
                continue;
            }
            text.truncate(needed);
            return match NonZeroU8::new(status as u8) {
                None => Ok(()),
                Some(status) => Err(Stopped { status, text }),
            };
        }
    }
}

fn main() {
    let mut names = std::env::args().skip(1);
    let mut contents = || std::fs::read(names.next().expect("check LAYOUT RECORDS")).expect("a file");
    let (layout, records) = (contents(), contents());
    match takvorn::check(&layout, &records, true) {
        Ok(()) => println!("yes"),
        Err(stopped) => {
            print!("{}", String::from_utf8_lossy(&stopped.text));
            std::process::exit(stopped.status.get().into());
        }
    }
}
