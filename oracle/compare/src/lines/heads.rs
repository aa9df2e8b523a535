//! Heads of lines, by exhaustion: every misfit in every place, before a body that tells what was read.

use crate::texts::exhaustive::{self, RAW};

/// The letters, their neighbours, and bytes that are none.
const LETTERS: &[u8] = b"FPKSGDEHXf \0";
/// The digits, their neighbours, and bytes that are none.
const DIGITS: &[u8] = b"0123456789/: \0\xB1";
/// The same for the columns of the captures, with more blanks.
const COLUMNS: &[u8] = b" 0123456789/:x\t\0\xA0";
const SPACES: &[u8] = b" \t\x000";

/// Every head of these alphabets. The first body needs captures, the second is one of several kinds.
pub fn products() -> Vec<u8> {
    const BODIES: [&[u8]; 2] = [b"%2", b"%a"];
    let mut input = Vec::new();
    for &letter in LETTERS {
        for &digit in DIGITS {
            for &tens in COLUMNS {
                for &ones in COLUMNS {
                    for &space in SPACES {
                        BODIES.iter().for_each(|body| push_line(&mut input, &[&[letter, digit, tens, ones, space], body]));
                    }
                }
            }
        }
    }
    input
}

/// Every byte, newlines too, in each place of heads of every form.
pub fn any_byte() -> Vec<u8> {
    const HEADS: [&[u8; 5]; 11] =
        [b"F1   ", b"P2   ", b"K3   ", b"S4   ", b"G5   ", b"G6 0 ", b"G1 9 ", b"G210 ", b"G432 ", b"D6   ", b"D7   "];
    let mut input = Vec::new();
    for head in HEADS {
        for place in 0..head.len() {
            for byte in 0..=u8::MAX {
                let mut head = *head;
                head[place] = byte;
                push_line(&mut input, &[&head, b"%2"]);
            }
        }
    }
    input
}

/// Every count, from 0 to the largest that two columns can hold, right- and left-justified and with zeros, before each digit.
pub fn counts() -> Vec<u8> {
    let mut input = Vec::new();
    for count in 0..100 {
        for columns in [format!("{count:>2}"), format!("{count:<2}"), format!("{count:02}")] {
            for version in b'0'..=b'9' {
                for digit in b'0'..=b'9' {
                    push_line(&mut input, &[&[b'G', version], columns.as_bytes(), b" %", &[digit]]);
                }
            }
        }
    }
    input
}

/// Every line of up to five bytes of a small alphabet.
pub fn short_lines() -> Vec<u8> {
    const SYMBOLS: [&[u8]; 9] = [b"F", b"G", b"1", b"7", b"0", b" ", b"x", b"\0", b"\r"];
    let mut input = Vec::new();
    exhaustive::texts(&SYMBOLS, 5, &RAW, &mut |text| push_line(&mut input, &[text]));
    input
}

fn push_line(input: &mut Vec<u8>, parts: &[&[u8]]) {
    parts.iter().for_each(|part| input.extend_from_slice(part));
    input.push(b'\n');
}
