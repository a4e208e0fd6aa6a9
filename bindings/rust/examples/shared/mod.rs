//! What the examples share: numbers from the command line, a playlist from a file or from standard input, and how a
//! program ends. Exit status: 0 where all was printed, 1 where the list or a number was refused, 2 where the arguments
//! are no numbers, or where reading or writing failed.
use ledgerfern::Refusal;
use std::error::Error;
use std::ffi::{OsStr, OsString};
use std::io::{self, Read, Write};
use std::process;

/// A program's name, how it is called, its numbers with what they are where they are not given, and what it prints.
pub struct Program<const NUMBERS: usize> {
    pub name: &'static str,
    pub usage: &'static str,
    pub numbers: [(&'static str, u64); NUMBERS],
    pub lines: fn(&[u8], [u64; NUMBERS]) -> Result<String, Refusal>,
}

/// A whole word of digits: the sign that `parse` takes besides is none here.
fn number(name: &str, word: &OsStr) -> Result<u64, String> {
    let digits = word.to_str().filter(|word| !word.starts_with('+'));
    let value = digits.and_then(|word| word.parse().ok());
    value.ok_or_else(|| format!("{} is a number, and '{}' is none", name, word.to_string_lossy()))
}

/// The bytes of a file, or of standard input where none is named.
fn input(file: Option<OsString>) -> Result<Vec<u8>, String> {
    let mut text = Vec::new();
    match file {
        Some(file) => std::fs::read(&file).map_err(|error| format!("{}: {}", file.to_string_lossy(), error)),
        None => match io::stdin().read_to_end(&mut text) {
            Ok(_) => Ok(text),
            Err(error) => Err(format!("standard input: {}", error)),
        },
    }
}

impl<const NUMBERS: usize> Program<NUMBERS> {
    /// Its numbers, from the words that come first.
    fn numbers(&self, words: &mut impl Iterator<Item = OsString>) -> Result<[u64; NUMBERS], String> {
        let mut values = [0; NUMBERS];
        for (value, (name, default)) in values.iter_mut().zip(self.numbers) {
            let given = words.next().map_or(Ok(default), |word| number(name, &word));
            *value = given.map_err(|error| format!("{}\n{}", error, self.usage))?;
        }
        Ok(values)
    }

    /// Prints the lines, or the refusal; the status to end with.
    fn run(&self) -> Result<i32, Box<dyn Error>> {
        let mut words = std::env::args_os().skip(1);
        let numbers = self.numbers(&mut words)?;
        let text = input(words.next())?;
        if words.next().is_some() {
            return Err(self.usage.into());
        }
        let (lines, status) = match (self.lines)(&text, numbers) {
            Ok(lines) => (lines, 0),
            Err(refusal) => (format!("{}\n", refusal), 1),
        };
        let mut out = io::stdout();
        let sent = out.write_all(lines.as_bytes()).and_then(|()| out.flush());
        sent.map_err(|error| format!("standard output: {}", error))?;
        Ok(status)
    }

    /// Runs, and ends the process with its status.
    pub fn main(&self) {
        let status = self.run().unwrap_or_else(|error| {
            eprintln!("{}: {}", self.name, error);
            2
        });
        process::exit(status);
    }
}
