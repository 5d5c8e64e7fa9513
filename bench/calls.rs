//! The work of `takvorn_show` and `takvorn_check` in plain Rust, which `library.c` calls and measures beside them: texts of records and of layouts are read
//! anew by each call, and the answer is put into a buffer of the caller's.
#[allow(dead_code)]
#[path = "show.rs"]
mod show;
#[allow(dead_code)]
#[path = "talk.rs"]
mod talk;

use std::slice;

/// A text of the caller's.
///
/// # Safety
///
/// So many bytes are there for the call.
unsafe fn text<'a>(bytes: *const u8, length: usize) -> &'a str {
    std::str::from_utf8(unsafe { slice::from_raw_parts(bytes, length) }).expect("text")
}

/// Puts an answer into a buffer, and returns its length.
///
/// # Safety
///
/// The buffer has so many bytes, and nothing else holds it.
unsafe fn put(answer: &str, out: *mut u8, room: usize) -> usize {
    let buffer = unsafe { slice::from_raw_parts_mut(out, room) };
    buffer[..answer.len()].copy_from_slice(answer.as_bytes());
    answer.len()
}

/// # Safety
///
/// As of the functions above.
#[no_mangle]
pub unsafe extern "C" fn plain_show(records: *const u8, records_length: usize, out: *mut u8, room: usize) -> usize {
    unsafe { put(&show::show(text(records, records_length)), out, room) }
}

/// # Safety
///
/// As of the functions above.
#[no_mangle]
pub unsafe extern "C" fn plain_check(layout: *const u8, layout_length: usize, records: *const u8, records_length: usize, out: *mut u8, room: usize) -> usize {
    unsafe { put(talk::check(text(records, records_length), text(layout, layout_length)), out, room) }
}
