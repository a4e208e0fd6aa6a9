//! The probe's records in, the probe's lines out, for its ops 1, 2, 3 and 15.

use crate::reading::{read, verdict, Reading, Refusal, CLIP_WORDS, TAG_WORDS};
use crate::same;
use crate::writing::{write_line, Asked};
use crate::parse_media_playlist;
use std::io::{stdin, stdout, BufReader, BufWriter, ErrorKind, Read, Write};

const MOST_BYTES: u64 = 140_000;
const MOST_WORDS: u64 = 70_000;

/// How the input ended: the last line.
type End = &'static str;

pub fn run() {
    let mut input = BufReader::new(stdin());
    let mut output = BufWriter::new(stdout());
    let end = loop {
        match answer(&mut input) {
            Ok(line) => writeln!(output, "{}", line).unwrap(),
            Err(end) => break end,
        }
    };
    writeln!(output, "{}", end).unwrap();
}

fn answer(input: &mut impl Read) -> Result<String, End> {
    let mut op = [0];
    match input.read(&mut op) {
        Ok(0) => return Err("end"),
        Ok(_) => (),
        Err(_) => return Err("read failed"),
    }
    match op[0] {
        1 => Ok(verdict_line(&bytes(input)?)),
        2 => Ok(read_line(&bytes(input)?, words(input)?, words(input)?)),
        3 => Ok(write_line(asked(input)?)),
        15 => Ok(room_line(&bytes(input)?)),
        _ => Err("unknown op"),
    }
}

fn asked(input: &mut impl Read) -> Result<Asked, End> {
    let text = bytes(input)?;
    let mut head = [0; 11];
    for value in &mut head {
        *value = number(input)?;
    }
    Ok(Asked {
        text,
        head,
        clip_count: number(input)?,
        clips: words(input)?,
        tag_count: number(input)?,
        tags: words(input)?,
        output: bytes(input)?,
    })
}

fn verdict_line(text: &[u8]) -> String {
    match verdict(text) {
        Ok(master) => format!("1 0 0 {}", u64::from(master.is_some())),
        Err(Refusal { number, place }) => format!("1 {} {} 0", number, place),
    }
}

fn read_line(text: &[u8], mut clips: Vec<u64>, mut tags: Vec<u64>) -> String {
    let (refusal, reading) = match read(text).and_then(|reading| fit(text, reading, clips.len(), tags.len())) {
        Ok(reading) => (Refusal { number: 0, place: 0 }, reading),
        Err(refusal) => (refusal, Reading::default()),
    };
    for (words, clip) in clips.chunks_exact_mut(CLIP_WORDS).zip(&reading.clips) {
        words.copy_from_slice(clip);
    }
    for (words, tag) in tags.chunks_exact_mut(TAG_WORDS).zip(&reading.tags) {
        words.copy_from_slice(tag);
    }
    let mut line = format!(
        "2 {} {} {} {} {}",
        refusal.number,
        refusal.place,
        reading.clips.len(),
        reading.tags.len(),
        reading.stop
    );
    let mut append = |mark, numbers: &[u64]| {
        line += mark;
        for number in numbers {
            line += &format!(" {}", number);
        }
    };
    append("", &reading.head);
    append(" |", &clips);
    append(" |", &tags);
    line
}

/// How many segments the crate's public call returns, and how many unknown tags these have together; refusals 1 to 6 are the
/// reading's.
fn room_line(text: &[u8]) -> String {
    if let Err(Refusal { number, place }) = read(text) {
        return format!("15 {} {} 0 0", number, place);
    }
    let (_, list) = parse_media_playlist(text).expect("the text begins #EXTM3U");
    let tags: usize = list.segments.iter().map(|segment| segment.unknown_tags.len()).sum();
    format!("15 0 0 {} {}", list.segments.len(), tags)
}

/// Refusals 7 and 8, on a reading that the crate's public call confirms.
fn fit(text: &[u8], reading: Reading, clip_words: usize, tag_words: usize) -> Result<Reading, Refusal> {
    same::check(text, &reading);
    if CLIP_WORDS * reading.clips.len() > clip_words {
        return Err(Refusal { number: 7, place: 0 });
    }
    if TAG_WORDS * reading.tags.len() > tag_words {
        return Err(Refusal { number: 8, place: 0 });
    }
    Ok(reading)
}

fn bytes(input: &mut impl Read) -> Result<Vec<u8>, End> {
    let mut bytes = vec![0; length(input, MOST_BYTES)?];
    fill(input, &mut bytes)?;
    Ok(bytes)
}

fn words(input: &mut impl Read) -> Result<Vec<u64>, End> {
    let count = length(input, MOST_WORDS)?;
    (0..count).map(|_| number(input)).collect()
}

fn length(input: &mut impl Read, most: u64) -> Result<usize, End> {
    let length = number(input)?;
    if length > most { Err("too large") } else { Ok(length as usize) }
}

fn number(input: &mut impl Read) -> Result<u64, End> {
    let mut bytes = [0; 8];
    fill(input, &mut bytes)?;
    Ok(u64::from_le_bytes(bytes))
}

fn fill(input: &mut impl Read, bytes: &mut [u8]) -> Result<(), End> {
    input.read_exact(bytes).map_err(|error| match error.kind() {
        ErrorKind::UnexpectedEof => "cut short",
        _ => "read failed",
    })
}
