//! What `ticks.rs`, `reels.rs` and `cues.rs` share: dice, and the two files of a run. Neither knows a rule.
#![allow(dead_code)] // each of them uses a part
use std::fmt::Write as _;
use std::fs::File;
use std::io::{BufWriter, Write as _};

// ---------------------------------------------------------------------------------------------------------------
// The records and the lines of the calls made so far
// ---------------------------------------------------------------------------------------------------------------

/// What follows the op in a record: a number has eight bytes, the lowest first; bytes or words are how many they are, and
/// then so many bytes or numbers.
pub enum Argument<'a> {
    Number(u64),
    Bytes(&'a [u8]),
    Words(&'a [u64]),
}

pub struct Run {
    records: BufWriter<File>,
    lines: BufWriter<File>,
    pub calls: u64,
    pub count: u64,
}

impl Run {
    /// From the program's arguments, SEED COUNT RECORDS LINES, with the dice that SEED throws.
    pub fn of_arguments(program: &str) -> (Run, Dice) {
        let words: Vec<String> = std::env::args().skip(1).collect();
        let numbers: Vec<u64> = words.iter().take(2).filter_map(|word| word.parse().ok()).collect();
        if words.len() != 4 || numbers.len() != 2 {
            eprintln!("usage: {program} SEED COUNT RECORDS LINES");
            std::process::exit(2);
        }
        let opened = |path: &str| match File::create(path) {
            Ok(file) => BufWriter::with_capacity(1 << 20, file),
            Err(fault) => {
                eprintln!("{program}: {path}: {fault}");
                std::process::exit(1);
            }
        };
        let run = Run { records: opened(&words[2]), lines: opened(&words[3]), calls: 0, count: numbers[1] };
        (run, Dice(numbers[0]))
    }

    pub fn done(&self) -> bool {
        self.calls >= self.count
    }

    pub fn record(&mut self, op: u8, arguments: &[Argument]) {
        let mut bytes = vec![op];
        let number = |bytes: &mut Vec<u8>, number: u64| bytes.extend_from_slice(&number.to_le_bytes());
        for argument in arguments {
            match argument {
                Argument::Number(value) => number(&mut bytes, *value),
                Argument::Bytes(text) => {
                    number(&mut bytes, text.len() as u64);
                    bytes.extend_from_slice(text);
                }
                Argument::Words(words) => {
                    number(&mut bytes, words.len() as u64);
                    words.iter().for_each(|&word| number(&mut bytes, word));
                }
            }
        }
        self.records.write_all(&bytes).expect("the records can be written");
    }

    /// A line is op, number, place, which is 0 for each refusal of these calls, and the values.
    pub fn line(&mut self, op: u8, number: u64, values: &[u64], out: Option<&[u64]>) {
        let mut line = begun(op, number, values);
        if let Some(words) = out {
            line.push_str(" |");
            for word in words {
                write!(line, " {word}").unwrap();
            }
        }
        self.put(&line);
    }

    /// The same for a call with an output: its bytes in hex, `-` if it has none.
    pub fn line_of_bytes(&mut self, op: u8, number: u64, values: &[u64], output: &[u8]) {
        let mut line = begun(op, number, values);
        line.push_str(if output.is_empty() { " | -" } else { " | " });
        for byte in output {
            line.push(char::from(HEX[usize::from(byte >> 4)]));
            line.push(char::from(HEX[usize::from(byte & 15)]));
        }
        self.put(&line);
    }

    fn put(&mut self, line: &str) {
        writeln!(self.lines, "{line}").expect("the lines can be written");
        self.calls += 1;
    }

    pub fn end(mut self) {
        writeln!(self.lines, "end").expect("the lines can be written");
        self.records.flush().expect("the records can be written");
        self.lines.flush().expect("the lines can be written");
    }
}

const HEX: &[u8; 16] = b"0123456789abcdef";

fn begun(op: u8, number: u64, values: &[u64]) -> String {
    let mut line = format!("{op} {number} 0");
    for value in values {
        write!(line, " {value}").unwrap();
    }
    line
}

// ---------------------------------------------------------------------------------------------------------------
// Dice
// ---------------------------------------------------------------------------------------------------------------

/// Steele, Lea and Flood's SplitMix64.
pub struct Dice(u64);

impl Dice {
    pub fn roll(&mut self) -> u64 {
        self.0 = self.0.wrapping_add(0x9e37_79b9_7f4a_7c15);
        let mut z = self.0;
        z = (z ^ (z >> 30)).wrapping_mul(0xbf58_476d_1ce4_e5b9);
        z = (z ^ (z >> 27)).wrapping_mul(0x94d0_49bb_1331_11eb);
        z ^ (z >> 31)
    }

    /// Below a limit, which is above 0.
    pub fn below(&mut self, limit: u64) -> u64 {
        ((u128::from(self.roll()) * u128::from(limit)) >> 64) as u64
    }

    pub fn one_in(&mut self, many: u64) -> bool {
        self.below(many) == 0
    }

    pub fn of<T: Copy>(&mut self, all: &[T]) -> T {
        all[self.below(all.len() as u64) as usize]
    }

    /// From 1 to a largest number, each size as likely as another.
    pub fn any_size(&mut self, largest: u64) -> u64 {
        let bits = 64 - largest.leading_zeros();
        let size = 1 + self.below(u64::from(bits));
        let top = if size == 64 { u64::MAX } else { (1 << size) - 1 };
        1 + self.below(top.min(largest))
    }

    /// A word that no rule should look at.
    pub fn noise(&mut self) -> u64 {
        match self.below(4) {
            0 => 0,
            1 => u64::MAX,
            2 => self.below(100),
            _ => self.roll(),
        }
    }

    /// So many such words.
    pub fn out(&mut self, words: u64) -> Vec<u64> {
        (0..words).map(|_| self.noise()).collect()
    }
}
