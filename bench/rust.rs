//! Rust's standard library, with a bad byte b as the escape DC00 + b, as ours has it.

use std::{slice, str};

fn put(items: impl Iterator<Item = u32>, codes: &mut [u32]) -> usize {
    let mut made = 0;
    for item in items {
        codes[made] = item;
        made += 1;
    }
    made
}

fn read(mut bytes: &[u8], codes: &mut [u32]) -> usize {
    let mut made = 0;
    loop {
        let e = match str::from_utf8(bytes) {
            Ok(text) => return made + put(text.chars().map(u32::from), &mut codes[made..]),
            Err(e) => e,
        };
        let (good, rest) = bytes.split_at(e.valid_up_to());
        let (bad, rest) = rest.split_at(e.error_len().unwrap_or(rest.len()));
        // from_utf8 has found good to be well-formed.
        let text = unsafe { str::from_utf8_unchecked(good) };
        made += put(text.chars().map(u32::from), &mut codes[made..]);
        made += put(bad.iter().map(|&b| 0xDC00 + u32::from(b)), &mut codes[made..]);
        bytes = rest;
    }
}

/// No code above 10FFFF comes here, so what is no char is an escape.
fn write(codes: &[u32], bytes: &mut [u8]) -> usize {
    let mut made = 0;
    for &code in codes {
        if let Some(c) = char::from_u32(code) {
            made += c.encode_utf8(&mut bytes[made..]).len();
        } else {
            bytes[made] = code as u8;
            made += 1;
        }
    }
    made
}

/// The place of char k; the length if there is none.
fn place_of(text: &str, k: usize) -> usize {
    text.char_indices().nth(k).map_or(text.len(), |(place, _)| place)
}

// For C: each pointer is good for its length, and the buffers do not overlap.

#[no_mangle]
pub unsafe extern "C" fn rust_read(src: *const u8, len: usize, codes: *mut u32, room: usize) -> usize {
    read(slice::from_raw_parts(src, len), slice::from_raw_parts_mut(codes, room))
}

#[no_mangle]
pub unsafe extern "C" fn rust_write(codes: *const u32, len: usize, dst: *mut u8, room: usize) -> usize {
    write(slice::from_raw_parts(codes, len), slice::from_raw_parts_mut(dst, room))
}

/// The bytes have to be well-formed.
#[no_mangle]
pub unsafe extern "C" fn rust_place(src: *const u8, len: usize, k: usize) -> usize {
    place_of(str::from_utf8_unchecked(slice::from_raw_parts(src, len)), k)
}
