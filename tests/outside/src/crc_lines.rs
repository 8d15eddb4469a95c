//! CRC values for a third witness: each input line is a row of bytes in hexadecimal.

use std::io::{read_to_string, stdin};

use crate::cases::settled::library_crc;
use crate::paper::crc_of;

/// Prints the paper's and the library's register after each line.
pub fn answer() {
    let input = read_to_string(stdin()).expect("text on standard input");
    for line in input.lines() {
        let bytes = bytes_of(line);
        println!("{:04X} {:04X}", crc_of(&bytes), library_crc(&bytes));
    }
}

fn bytes_of(line: &str) -> Vec<u8> {
    let digits: Vec<char> = line.chars().collect();
    let byte = |pair: &[char]| u8::from_str_radix(&pair.iter().collect::<String>(), 16).expect("two digits a byte");
    digits.chunks(2).map(byte).collect()
}
