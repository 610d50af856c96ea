//! "Listing": lines into a lent page from a place on (18).

use super::config::Config;
use super::text::{text, TEXT_LIMIT};
use super::words::read;

/// 23, of a text.
fn not_too_long(text: String) -> Result<String, u32> {
    if text.len() > TEXT_LIMIT {
        Err(23)
    } else {
        Ok(text)
    }
}

/// "A line: address six digits, space, word eight, space, text or "?" and the number, newline."
pub fn line(c: &Config, address: usize, word: u32) -> String {
    let text = read(c, word).and_then(|instruction| not_too_long(text(&instruction)));
    let text = text.unwrap_or_else(|number| format!("?{number}"));
    format!("{address:06x} {word:08x} {text}\n")
}

fn has_room(page: &[u8], place: u64, bytes: &[u8]) -> bool {
    (page.len() as u64).checked_sub(place).is_some_and(|room| bytes.len() as u64 <= room)
}

/// Puts bytes on the page, whole or not at all (18).
fn put(page: &mut [u8], place: u64, bytes: &[u8]) -> Result<u64, u32> {
    if !has_room(page, place, bytes) {
        return Err(18);
    }
    let from = place as usize;
    page[from..from + bytes.len()].copy_from_slice(bytes);
    Ok(place + bytes.len() as u64)
}

/// The text of a word on the page, and the place after it. "Order is the table's": 5, 6, 7, 18, 23.
pub fn put_text(c: &Config, word: u32, page: &mut [u8], place: u64) -> Result<u64, u32> {
    let text = text(&read(c, word)?);
    if !has_room(page, place, text.as_bytes()) {
        return Err(18);
    }
    put(page, place, not_too_long(text)?.as_bytes())
}

/// The listing from an address to the image's end: number, place and next address.
pub fn list(c: &Config, image: &[u32], first: u64, page: &mut [u8], place: u64) -> (u32, u64, u64) {
    let (mut place, mut next) = (place, first);
    if place > page.len() as u64 {
        return (18, place, next);
    }
    while next < image.len() as u64 {
        let address = next as usize;
        match put(page, place, line(c, address, image[address]).as_bytes()) {
            Err(number) => return (number, place, next),
            Ok(after) => place = after,
        }
        next += 1;
    }
    (0, place, next)
}
