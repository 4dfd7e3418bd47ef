//! Calls and differences as text.

use crate::entries::{Call, Lent};
use crate::floor::Floor;

/// Differences in one slice that are shown; the rest are counted.
const SHOWN: usize = 12;

/// A call in full: its numbers, and each slice that it lends, maps row by row.
pub fn call(call: &Call) -> String {
    let mut text = String::new();
    for (name, number) in call.numbers() {
        text.push_str(&format!("  {} {}\n", name, number));
    }
    let floor = call.floor().filter(|floor| floor.lawful());
    for slice in call.lent() {
        let numbers = elements(&slice.bytes, slice.element);
        let row = row_length(&slice, numbers.len(), floor);
        text.push_str(&format!("  {} ({}{})\n", slice.name, numbers.len(), if slice.writable { "" } else { ", for reading" }));
        for row in numbers.chunks(row) {
            text.push_str(&format!("    {}\n", words(row)));
        }
    }
    text
}

/// A slice as it has to be after the call and as it came: small ones whole, and of others where they differ.
pub fn against(expected: &Lent, came: &[u8]) -> String {
    let (right, came) = (elements(&expected.bytes, expected.element), elements(came, expected.element));
    if matches!(expected.name, "result" | "cart record" | "room") {
        return format!("\nexpected: {} {}\n    came: {} {}", expected.name, words(&right), expected.name, words(&came));
    }
    let differences: Vec<usize> = (0..right.len()).filter(|&at| right[at] != came[at]).collect();
    let mut text = String::new();
    for &at in differences.iter().take(SHOWN) {
        text.push_str(&format!("\nexpected: {}[{}] {}, came {}", expected.name, at, right[at], came[at]));
    }
    if differences.len() > SHOWN {
        text.push_str(&format!("\nand {} more places of {}", differences.len() - SHOWN, expected.name));
    }
    text
}

/// How many elements a line has: a row of the floor, a record, or what a line holds well.
fn row_length(slice: &Lent, elements: usize, floor: Option<Floor>) -> usize {
    match floor {
        Some(floor) if slice.name != "trail" && elements == floor.cells() => floor.width,
        _ if slice.element == 1 => 24,
        _ => 16,
    }
}

fn elements(bytes: &[u8], size: usize) -> Vec<u64> {
    let number = |bytes: &[u8]| bytes.iter().rev().fold(0, |value, &byte| value << 8 | u64::from(byte));
    bytes.chunks(size).map(number).collect()
}

fn words(numbers: &[u64]) -> String {
    let words: Vec<String> = numbers.iter().map(u64::to_string).collect();
    words.join(" ")
}
