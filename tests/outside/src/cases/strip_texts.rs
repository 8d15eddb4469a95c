//! Inputs of the strip program: in form, garbled in every way at any line, and about each limit.

use super::{HALFWAY, OVERLAP, PAIRED, REVERSED, WORKED};
use crate::paper::Eleven;
use crate::random::Random;
use crate::strip_program::Program;

/// A group of inputs.
type Group = fn(&mut Program, &mut Random);

pub const GROUPS: [(&str, Group); 6] = [
    ("fixed inputs", fixed_inputs),
    ("random inputs", random_inputs),
    ("one garbled line", garbled_lines),
    ("several garbled lines", several_garbled_lines),
    ("length of the input", input_lengths),
    ("written bytes", written_bytes),
];

/// The worked profile with B23 one too large.
const CROSSED: Eleven = [58, 29, 8, 10, 12, 36, 88, 88, 106, 106, 139];

/// The paper's example.
pub fn example() -> String {
    profile_line(&WORKED) + "mark\tA1\n"
}

fn profile_line(eleven: &Eleven) -> String {
    let numbers: Vec<String> = eleven.iter().map(|number| number.to_string()).collect();
    format!("profile\t{}\n", numbers.join("\t"))
}

/// Lines of items behind a profile; a mark line now and then holds a byte that is no mark.
fn item_lines(random: &mut Random, count: u64) -> Vec<String> {
    let mut line = || match random.between(0, 4) {
        0 => "crc\n".to_string(),
        1 => bytes_line("mark", &[random.pick(&[0xA1, 0xC2])]),
        2 if random.one_in(6) => bytes_line("mark", &[0xA1, random.byte()]),
        2 => bytes_line("mark", &[0xA1, 0xA1, 0xA1]),
        _ => {
            let length = 1 + random.length(20);
            bytes_line("data", &random.bytes(length))
        }
    };
    (0..count).map(|_| line()).collect()
}

fn bytes_line(word: &str, bytes: &[u8]) -> String {
    let fields: String = bytes.iter().map(|b| format!("\t{b:02X}")).collect();
    format!("{word}{fields}\n")
}

fn fixed_inputs(program: &mut Program, _: &mut Random) {
    let profile = profile_line(&WORKED);
    program.run(example().as_bytes());
    for input in ["", "\n", "\n\n", "profile", "profile\n", "data\t00\n", "crc\n", "\0", "\t", "\r\n"] {
        program.run(input.as_bytes());
    }
    program.run(profile.as_bytes());
    program.run(profile.trim_end().as_bytes());
    for line in
        ["data\t00\n", "data\tFF\n", "data\tA1\n", "mark\tC2\n", "crc\n", "mark\tA0\n", "mark\t00\n", "crc\ncrc\n"]
    {
        program.run((profile.clone() + line).as_bytes());
    }
    // the profile of each settled refusal, with and without a second cause behind it
    let high_rpt = [58, 29, 8, 10, 12, 36, 73, 73, 106, 106, 65535];
    for eleven in [CROSSED, PAIRED, HALFWAY, REVERSED, OVERLAP, high_rpt, [0; 11], [65535; 11]] {
        for lines in ["", "mark\t00\n", "data\tG0\n"] {
            program.run((profile_line(&eleven) + lines).as_bytes());
        }
    }
}

fn random_inputs(program: &mut Program, random: &mut Random) {
    for _ in 0..700 {
        let eleven = match random.between(0, 5) {
            0 => random.crossed_profile(),
            1 => random.unset_profile(),
            _ => random.true_profile(),
        };
        let count = random.between(0, 12);
        program.run((profile_line(&eleven) + &item_lines(random, count).concat()).as_bytes());
    }
}

/// A valid input as its lines.
fn valid_lines(random: &mut Random) -> Vec<Vec<u8>> {
    let eleven = if random.one_in(4) { random.unset_profile() } else { random.true_profile() };
    let count = random.between(0, 6);
    let lines = [vec![profile_line(&eleven)], item_lines(random, count)].concat();
    lines.into_iter().map(String::into_bytes).collect()
}

/// Ways to spoil a line; some do not fit every line and then give another faulty one.
fn garbled(line: &[u8], random: &mut Random) -> Vec<u8> {
    let text = String::from_utf8(line.to_vec()).expect("valid lines are text");
    let body = text.trim_end_matches('\n').to_string();
    let tab = body.rfind('\t').map_or(body.len(), |at| at + 1);
    let swap_field = |field: &str| format!("{}{field}\n", &body[..tab]);
    let garbled = match random.between(0, 32) {
        0 => "\n".to_string(),
        1 => format!("{body}\r\n"),
        2 => format!("{body}\t\n"),
        3 => format!("\t{body}\n"),
        4 => format!("{body} \n"),
        5 => format!(" {body}\n"),
        6 => body.replacen('\t', " ", 1) + " \n",
        7 => body.replacen('\t', "\t\t", 1) + "\t\n",
        8 => swap_field("a1"),
        9 => swap_field("G0"),
        10 => swap_field("0G"),
        11 => swap_field("+1"),
        12 => swap_field("-1"),
        13 => swap_field("65536"),
        14 => swap_field("99999"),
        15 => swap_field("4294967354"),
        16 => swap_field("18446744073709551674"),
        17 => swap_field("058"),
        18 => swap_field("00058"),
        19 => swap_field(""),
        20 => swap_field("0x58"),
        21 => "data\n".to_string(),
        22 => "mark\n".to_string(),
        23 => "crc\t00\n".to_string(),
        24 => body.to_uppercase() + "\tX\n",
        25 => format!("{}\n", &body[1..]),
        26 => format!("x{body}\n"),
        27 => format!("{body}\0\n"),
        28 => "profile\t58\t29\t8\t10\t12\t36\t73\t73\t106\t106\n".to_string(),
        29 => "profile\t58\t29\t8\t10\t12\t36\t73\t73\t106\t106\t139\t1\n".to_string(),
        30 => "profile\t58\t29\t8\t10\t12\t36\t73\t73\t106\t106\t139\n".to_string(),
        31 => "profile\t58\t29\t8\t10\t12\t36\t73\t106\t139\n".to_string(),
        _ => return [&line[..random.index(line.len())], &[random.byte() | 0x80], b"\n"].concat(),
    };
    garbled.into_bytes()
}

fn garbled_lines(program: &mut Program, random: &mut Random) {
    for _ in 0..1_000 {
        let mut lines = valid_lines(random);
        let place = random.index(lines.len());
        lines[place] = garbled(&lines[place], random);
        program.run(&lines.concat());
    }
    for _ in 0..150 {
        let mut lines = valid_lines(random);
        lines.last_mut().expect("a profile line").pop();
        program.run(&lines.concat());
        let whole = valid_lines(random).concat();
        program.run(&whole[..random.index(whole.len())]);
        let mut changed = whole.clone();
        changed[random.index(whole.len())] = random.byte();
        program.run(&changed);
    }
}

fn several_garbled_lines(program: &mut Program, random: &mut Random) {
    for _ in 0..300 {
        let mut lines = valid_lines(random);
        for _ in 0..random.between(2, 4) {
            let place = random.index(lines.len());
            lines[place] = garbled(b"data\tA1\n", random);
        }
        if random.one_in(2) {
            lines.last_mut().expect("a profile line").pop();
        }
        program.run(&lines.concat());
    }
}

/// Inputs about 16,384 bytes: in form, garbled at some line, and without the last line feed.
fn input_lengths(program: &mut Program, random: &mut Random) {
    for length in [16_383, 16_384, 16_385, 16_386, 20_000, 70_000, 1_000_000] {
        let input = padded(length);
        program.run(&input);
        let mut garbled = input.clone();
        garbled[random.index(length)] = b'?';
        program.run(&garbled);
        let mut unended = input.clone();
        unended[length - 1] = b'C';
        program.run(&unended);
        program.run(&vec![b'\n'; length]);
        program.run(&vec![b'A'; length]);
    }
}

/// An input in form of exactly so many bytes: `crc` lines of 4, and a data line of 11, 14 or 17 for the remainder.
fn padded(length: usize) -> Vec<u8> {
    let mut input = profile_line(&WORKED).into_bytes();
    let rest = length - input.len();
    let data = [0, 4, 3, 2][rest % 4];
    if data > 0 {
        input.extend(bytes_line("data", &vec![0x4E; data]).into_bytes());
    }
    while input.len() < length {
        input.extend(b"crc\n");
    }
    assert_eq!(input.len(), length);
    input
}

/// Written bytes about 512, of each kind, with and without a number that is no item.
fn written_bytes(program: &mut Program, random: &mut Random) {
    for eleven in [WORKED, CROSSED, [0; 11]] {
        for count in [511, 512, 513, 514, 600] {
            let data = random.bytes(count);
            let whole = bytes_line("data", &data);
            let with_check = bytes_line("data", &data[2..]) + "crc\n";
            let marks = bytes_line("mark", &vec![0xA1; count]);
            let checks = "crc\n".repeat(count / 2) + &bytes_line("data", &data[..1]).repeat(count % 2);
            let foreign = bytes_line("mark", &[0x00]) + &bytes_line("data", &data[1..]);
            let behind = bytes_line("data", &data[1..]) + &bytes_line("mark", &[0x77]);
            // eight cells a byte, the longest output
            let zeros = bytes_line("data", &vec![0x00; count]);
            for lines in [whole, with_check, marks, checks, foreign, behind, zeros] {
                program.run((profile_line(&eleven) + &lines).as_bytes());
            }
        }
    }
}
