//! The cue file by request [3] of document 02, written once more: records for `probe`, and the lines that it must print.
//!
//!     cues SEED COUNT RECORDS LINES
//!
//! It makes COUNT calls that SEED chooses, of ops 9 and 10, and writes their records to the file RECORDS and the lines to
//! the file LINES; it prints how many there were of each kind. Nothing here comes from the library or its rules, nor from
//! `tools/oracle/cue`, which puts a file together again and compares: here a file is taken from the front, piece by piece,
//! until nothing is left. `tools/cues` builds this by plain rustc and runs the library beside it.
mod calls;

use calls::Argument::{Bytes, Number, Words};
use calls::{Dice, Run};
use std::collections::BTreeMap;

// 01: "a lent table of 64-bit words, seventeen to a clip: 0, 1 URI start and end; 2 length in ns"
const CLIP_WORDS: usize = 17;
const URI_START: usize = 0;
const URI_END: usize = 1;
const LENGTH: usize = 2;
const LENGTH_LIMIT: u64 = 1_000_000_000_000_000_000;
const MOST_NS: u64 = 1_000_000_000_000_000;
const SECOND: u64 = 1_000_000_000;
const MOST_BYTES: usize = 65_536;
// 02 [3]: "a record a clip (start seconds and nanoseconds in 32 bits each, URI length in 16)", which is ten bytes; "a trailer
// in the last twelve bytes"
const ROW_BYTES: usize = 10;
const TRAILER_BYTES: usize = 12;
const VERSION: u16 = 1;
// "a start that falls or is above 1,000,000 s"
const LATEST_START: u128 = 1_000_000 * SECOND as u128;
// the most bytes and words that a record of the probe may have
const RECORD_BYTES: usize = 140_000;
const RECORD_WORDS: usize = 70_000;
// the inverse of 17 among numbers of 64 bits: so many times a small number of words is a count that seems to fit
const SEVENTEENTH: u64 = 0xf0f0_f0f0_f0f0_f0f1;

// ---------------------------------------------------------------------------------------------------------------
// The file: rows, URI bytes, trailer, "high byte first, nothing else and no gaps"
// ---------------------------------------------------------------------------------------------------------------

/// "a list of starts and URIs" has these
#[derive(Clone, PartialEq, Debug)]
struct Cue {
    start: u128,
    uri: Vec<u8>,
}

/// The record of a clip; a row here, since the probe's records have that name.
#[derive(Clone, Copy)]
struct Row {
    seconds: u32,
    nanoseconds: u32,
    uri_length: u16,
}

/// "a trailer .. that points back: place of records and of URIs in 32 bits each, count and version 1 in 16 bits each"
#[derive(Clone, Copy)]
struct Trailer {
    rows: u32,
    uris: u32,
    count: u16,
    version: u16,
}

/// A file by its parts, right or wrong.
#[derive(Clone)]
struct CueFile {
    rows: Vec<Row>,
    uris: Vec<u8>,
    trailer: Trailer,
}

/// "high byte first"
fn number(bytes: &[u8]) -> u64 {
    bytes.iter().fold(0, |so_far, &byte| 256 * so_far + u64::from(byte))
}

impl Row {
    fn at(start: u128, uri_length: u16) -> Row {
        let second = u128::from(SECOND);
        let seconds = u32::try_from(start / second).expect("a start of at most 1,000,000 s");
        Row { seconds, nanoseconds: (start % second) as u32, uri_length }
    }

    fn of(bytes: &[u8]) -> Row {
        Row {
            seconds: number(&bytes[..4]) as u32,
            nanoseconds: number(&bytes[4..8]) as u32,
            uri_length: number(&bytes[8..]) as u16,
        }
    }

    fn start(&self) -> u128 {
        u128::from(self.seconds) * u128::from(SECOND) + u128::from(self.nanoseconds)
    }
}

impl Trailer {
    fn of(bytes: &[u8]) -> Trailer {
        Trailer {
            rows: number(&bytes[..4]) as u32,
            uris: number(&bytes[4..8]) as u32,
            count: number(&bytes[8..10]) as u16,
            version: number(&bytes[10..]) as u16,
        }
    }
}

impl CueFile {
    /// Of a list that 33 does not refuse.
    fn new(cues: &[Cue]) -> CueFile {
        let length = |cue: &Cue| u16::try_from(cue.uri.len()).expect("a URI length that its field holds");
        let rows: Vec<Row> = cues.iter().map(|cue| Row::at(cue.start, length(cue))).collect();
        let uris = cues.iter().flat_map(|cue| cue.uri.clone()).collect();
        let count = u16::try_from(rows.len()).expect("a count that its field holds");
        let trailer = Trailer { rows: 0, uris: ROW_BYTES as u32 * u32::from(count), count, version: VERSION };
        CueFile { rows, uris, trailer }
    }

    fn bytes(&self) -> Vec<u8> {
        let mut file = Vec::new();
        for row in &self.rows {
            file.extend(row.seconds.to_be_bytes());
            file.extend(row.nanoseconds.to_be_bytes());
            file.extend(row.uri_length.to_be_bytes());
        }
        file.extend(&self.uris);
        file.extend(self.trailer.rows.to_be_bytes());
        file.extend(self.trailer.uris.to_be_bytes());
        file.extend(self.trailer.count.to_be_bytes());
        file.extend(self.trailer.version.to_be_bytes());
        file
    }
}

// ---------------------------------------------------------------------------------------------------------------
// The writer: "1; 9, the clock's rule and URI spans within the text; 11; 33, a count, URI length or place too wide for its
// field; 10"
// ---------------------------------------------------------------------------------------------------------------

/// What the writer is given beside the output: the text, how many clips there are said to be, and the words.
#[derive(Clone)]
struct List {
    text: Vec<u8>,
    clips: u64,
    words: Vec<u64>,
}

/// A refusal that holds, and why.
type Refusal = (u64, &'static str);

impl List {
    fn word(&self, clip: usize, word: usize) -> u64 {
        self.words[CLIP_WORDS * clip + word]
    }

    /// As many clips as there are words for.
    fn held(&self) -> usize {
        self.words.len() / CLIP_WORDS
    }

    fn count_fits(&self) -> bool {
        u128::from(self.clips) * CLIP_WORDS as u128 <= self.words.len() as u128
    }

    /// 01, rule 9: "Clock: the clip count fits, each word 2 below 10^18"; 02: "and URI spans within the text". How the list
    /// breaks it first.
    fn broken(&self) -> Option<&'static str> {
        if !self.count_fits() {
            return Some("the count does not fit");
        }
        (0..self.clips as usize).find_map(|clip| {
            let (start, end) = (self.word(clip, URI_START), self.word(clip, URI_END));
            if self.word(clip, LENGTH) >= LENGTH_LIMIT {
                Some("a length of 10^18 ns or more")
            } else if start > end {
                Some("a URI that ends before it starts")
            } else if end > self.text.len() as u64 {
                Some("a URI that ends past the text")
            } else {
                None
            }
        })
    }

    /// The exact sum of the first lengths.
    fn sum(&self, clips: usize) -> u128 {
        (0..clips).map(|clip| u128::from(self.word(clip, LENGTH))).sum()
    }

    /// How long a clip's URI is; 0 where its span is reversed, which 9 refuses.
    fn uri_length(&self, clip: usize) -> u128 {
        u128::from(self.word(clip, URI_END).saturating_sub(self.word(clip, URI_START)))
    }

    /// "33, a count, URI length or place too wide for its field", of a list whose count fits.
    fn too_wide(&self) -> Option<&'static str> {
        if u16::try_from(self.clips).is_err() {
            Some("a count above 65,535")
        } else if (0..self.clips as usize).any(|clip| u16::try_from(self.uri_length(clip)).is_err()) {
            Some("a URI of more than 65,535 bytes")
        } else if u32::try_from(ROW_BYTES as u64 * self.clips).is_err() {
            Some("a place above 2^32 - 1")
        } else {
            None
        }
    }

    /// Rows, URIs and trailer, of a list whose count fits.
    fn file_length(&self) -> u128 {
        let uris: u128 = (0..self.clips as usize).map(|clip| self.uri_length(clip)).sum();
        ROW_BYTES as u128 * u128::from(self.clips) + uris + TRAILER_BYTES as u128
    }

    /// All refusals that hold for an output of so many bytes, in 02's order: the first is the call's. Where the count does
    /// not fit, nothing that lies behind it can be told.
    fn refusals(&self, room: usize) -> Vec<Refusal> {
        let mut all = Vec::new();
        if self.text.len() > MOST_BYTES {
            all.push((1, "a text above 65,536 bytes"));
        }
        all.extend(self.broken().map(|why| (9, why)));
        if self.count_fits() {
            let total = self.sum(self.clips as usize);
            if total > u128::from(MOST_NS) {
                let exact = total == u128::from(MOST_NS) + 1;
                let wraps = total as u64 <= MOST_NS;
                all.push((
                    11,
                    if exact {
                        "a total of 10^15 ns and 1"
                    } else if wraps {
                        "a total that has at most 10^15 in 64 bits"
                    } else {
                        "a total above"
                    },
                ));
            }
            all.extend(self.too_wide().map(|why| (33, why)));
            if self.file_length() > room as u128 {
                let short = self.file_length() == room as u128 + 1;
                all.push((
                    10,
                    if room == 0 {
                        "no output"
                    } else if short {
                        "an output that is a byte short"
                    } else {
                        "an output that is shorter"
                    },
                ));
            }
        }
        all
    }

    /// A clip's start is the clock's in turn 0, the exact sum of the lengths before it. Of a list that 9 does not refuse.
    fn cues(&self) -> Vec<Cue> {
        let uri = |clip| self.text[self.word(clip, URI_START) as usize..self.word(clip, URI_END) as usize].to_vec();
        let mut start = 0;
        let mut cues = Vec::new();
        for clip in 0..self.clips as usize {
            cues.push(Cue { start, uri: uri(clip) });
            start += u128::from(self.word(clip, LENGTH));
        }
        cues
    }

    /// The file of a list that has one: none of 1, 9, 11, 33 holds.
    fn file(&self) -> Option<Vec<u8>> {
        let keeps = self.refusals(usize::MAX).is_empty();
        keeps.then(|| CueFile::new(&self.cues()).bytes())
    }
}

// ---------------------------------------------------------------------------------------------------------------
// The reader: "19, shorter than the trailer; 20, version not 1; 21, a place, count or length that does not fit exactly; 22, a
// first start not 0, a start that falls or is above 1,000,000 s, or nanoseconds of 10^9 or more; 14"
// ---------------------------------------------------------------------------------------------------------------

/// What a file is taken for: its last twelve bytes are a trailer; from the front there are as many whole rows as the trailer
/// counts, or fewer if the bytes end; then there is the rest.
struct Taken<'a> {
    file: &'a [u8],
    trailer: Trailer,
    rows: Vec<Row>,
    rest: &'a [u8],
}

impl Taken<'_> {
    /// Nothing, where it is "shorter than the trailer".
    fn new(file: &[u8]) -> Option<Taken<'_>> {
        let (body, trailer) = file.split_at(file.len().checked_sub(TRAILER_BYTES)?);
        let trailer = Trailer::of(trailer);
        let mut rows = Vec::new();
        let mut rest = body;
        while rows.len() < usize::from(trailer.count) && rest.len() >= ROW_BYTES {
            let (row, behind) = rest.split_at(ROW_BYTES);
            rows.push(Row::of(row));
            rest = behind;
        }
        Some(Taken { file, trailer, rows, rest })
    }

    /// Where in the file these bytes begin, which are the last before the trailer.
    fn place(&self, rest: &[u8]) -> u64 {
        (self.file.len() - TRAILER_BYTES - rest.len()) as u64
    }

    /// The span of each URI; if the places, the count or a length do not fit exactly, why.
    fn spans(&self) -> Result<Vec<(u64, u64)>, &'static str> {
        if self.trailer.rows != 0 {
            return Err("the records are not at 0");
        }
        if self.rows.len() < usize::from(self.trailer.count) {
            return Err("more records than there are bytes");
        }
        let place = u64::from(self.trailer.uris);
        if place != self.place(self.rest) {
            let far = place.abs_diff(self.place(self.rest));
            return Err(match far {
                1 => "the URIs are a byte off",
                _ if far % 65_536 == 0 => "the URIs are 65,536 bytes off, or a multiple",
                _ => "the URIs are further off",
            });
        }
        let mut rest = self.rest;
        let mut spans = Vec::new();
        for row in &self.rows {
            let start = self.place(rest);
            let Some(behind) = rest.get(usize::from(row.uri_length)..) else {
                return Err(self.off("too many"));
            };
            rest = behind;
            spans.push((start, self.place(rest)));
        }
        if rest.is_empty() {
            Ok(spans)
        } else {
            Err(self.off("too few"))
        }
    }

    /// By how much the lengths miss the bytes that are there.
    fn off(&self, how: &'static str) -> &'static str {
        let said: u64 = self.rows.iter().map(|row| u64::from(row.uri_length)).sum();
        match (said.abs_diff(self.rest.len() as u64), how) {
            (1, "too many") => "the lengths are a byte too many",
            (1, _) => "the lengths are a byte too few",
            (far, _) if far % 65_536 == 0 => "the lengths are 65,536 bytes off, or a multiple",
            (_, "too many") => "the lengths are too many",
            _ => "the lengths are too few",
        }
    }

    /// What is wrong with the starts of the rows that are there.
    fn bad_starts(&self) -> Option<&'static str> {
        let starts: Vec<u128> = self.rows.iter().map(Row::start).collect();
        let first = starts.first().is_some_and(|&start| start != 0);
        let falls = starts.windows(2).any(|pair| pair[1] < pair[0]);
        let late = starts.iter().any(|&start| start > LATEST_START);
        let nanoseconds = self.rows.iter().any(|row| u64::from(row.nanoseconds) >= SECOND);
        match (first, falls, late, nanoseconds) {
            (false, false, false, false) => None,
            (true, false, false, false) => Some("the first start alone"),
            (false, true, false, false) => Some("a start that falls alone"),
            (false, false, true, false) => Some("a start above 1,000,000 s alone"),
            (false, false, false, true) => Some("nanoseconds alone"),
            (_, _, false, false) => Some("the first start, and one that falls"),
            (.., true) => Some("nanoseconds, and starts"),
            _ => Some("a start above 1,000,000 s, and others"),
        }
    }

    /// All refusals that hold, in 02's order: the first is the call's.
    fn refusals(&self, clip: u64) -> Vec<Refusal> {
        let mut all = Vec::new();
        if self.trailer.version != VERSION {
            all.push((
                20,
                match self.trailer.version {
                    0 => "version 0",
                    2 => "version 2",
                    version if version % 256 == 1 => "a version whose low byte is 1",
                    256 => "version 256",
                    65_535 => "version 65,535",
                    _ => "another version",
                },
            ));
        }
        all.extend(self.spans().err().map(|why| (21, why)));
        all.extend(self.bad_starts().map(|why| (22, why)));
        // 14: "no such clip"
        let count = u64::from(self.trailer.count);
        if clip >= count {
            let why = match clip - count {
                0 => "the clip behind the last",
                _ if clip == u64::MAX => "clip 2^64 - 1",
                _ => "a clip further behind",
            };
            all.push((14, if count == 0 { "a file of no clips" } else { why }));
        }
        all
    }
}

// ---------------------------------------------------------------------------------------------------------------
// The calls, and how many there are of each kind
// ---------------------------------------------------------------------------------------------------------------

/// What is worth counting beside the kinds.
#[derive(Default)]
struct Notes {
    full_texts: u64,
    longest_uris: u64,
    empty_uris: u64,
    overlaps: u64,
    full_totals: u64,
    latest_starts: u64,
    equal_starts: u64,
    last_ns: u64,
    no_clips: u64,
    long_lists: u64,
    long_files: u64,
    most_counts: u64,
    there_and_back: u64,
}

#[derive(Default)]
struct Tally {
    /// by op, number and kind
    kinds: BTreeMap<(u8, u64, &'static str), u64>,
    /// by op, the refusals that held at once
    at_once: BTreeMap<(u8, Vec<u64>), u64>,
    /// of the reader's files, by how they were made and by number
    made: BTreeMap<(&'static str, u64), u64>,
    notes: Notes,
}

impl Tally {
    fn add(&mut self, op: u8, refusals: &[Refusal], kind: &'static str) {
        let (number, kind) = refusals.first().copied().unwrap_or((0, kind));
        *self.kinds.entry((op, number, kind)).or_default() += 1;
        if refusals.len() > 1 {
            let numbers = refusals.iter().map(|&(number, _)| number).collect();
            *self.at_once.entry((op, numbers)).or_default() += 1;
        }
    }

    /// Of a list that was written.
    fn written(&mut self, list: &List) {
        let notes = &mut self.notes;
        let clips = list.clips as usize;
        let spans: Vec<(u64, u64)> = (0..clips).map(|k| (list.word(k, URI_START), list.word(k, URI_END))).collect();
        notes.full_texts += u64::from(list.text.len() == MOST_BYTES);
        notes.longest_uris += u64::from(spans.iter().any(|&(start, end)| end - start == 65_535));
        notes.empty_uris += u64::from(spans.iter().any(|&(start, end)| start == end));
        notes.overlaps += u64::from(spans.windows(2).any(|two| two[0].0 < two[1].1 && two[1].0 < two[0].1));
        notes.full_totals += u64::from(list.sum(clips) == u128::from(MOST_NS));
        notes.no_clips += u64::from(clips == 0);
        notes.long_lists += u64::from(clips >= 1_000);
    }

    /// Of a file that was read.
    fn read(&mut self, taken: &Taken) {
        let notes = &mut self.notes;
        let rows = &taken.rows;
        notes.latest_starts += u64::from(rows.iter().any(|row| row.start() == LATEST_START));
        notes.equal_starts += u64::from(rows.windows(2).any(|two| two[0].start() == two[1].start()));
        notes.last_ns += u64::from(rows.iter().any(|row| u64::from(row.nanoseconds) == SECOND - 1));
        notes.long_files += u64::from(rows.len() > 65_536 / ROW_BYTES);
    }

    fn print(&self) {
        for op in [9, 10] {
            println!("op {op}, by number and kind:");
            for ((_, number, kind), many) in self.kinds.iter().filter(|((of, ..), _)| *of == op) {
                println!("    {number:2} {kind}: {many}");
            }
        }
        println!("refusals that held at once, of which the first was given:");
        for ((op, numbers), many) in &self.at_once {
            let numbers: Vec<String> = numbers.iter().map(u64::to_string).collect();
            println!("    op {op}: {}: {many}", numbers.join(", "));
        }
        println!("files of op 10, by how they were made and by number:");
        let mut ways: Vec<&str> = self.made.keys().map(|&(way, _)| way).collect();
        ways.dedup();
        for way in ways {
            let mine = self.made.iter().filter(|((made, _), _)| *made == way);
            let numbers: Vec<String> = mine.map(|((_, number), many)| format!("{number}: {many}")).collect();
            println!("    {way}: {}", numbers.join(", "));
        }
        let notes = &self.notes;
        println!("lists that were written:");
        println!("    from a text of 65,536 bytes: {}", notes.full_texts);
        println!("    with a URI of 65,535 bytes: {}, with an empty one: {}", notes.longest_uris, notes.empty_uris);
        println!("    with URIs that overlap: {}", notes.overlaps);
        println!("    with a total of 10^15 ns: {}, without a clip: {}", notes.full_totals, notes.no_clips);
        println!("    with 1,000 clips or more: {}", notes.long_lists);
        println!("    that a file which was read says: {}", notes.there_and_back);
        println!("calls that read a file:");
        println!("    with a start of exactly 1,000,000 s: {}", notes.latest_starts);
        println!("    with equal starts: {}, with 999,999,999 ns: {}", notes.equal_starts, notes.last_ns);
        println!("    with records of more than 65,536 bytes: {}", notes.long_files);
        println!("files that count 65,535 clips: {}", notes.most_counts);
    }
}

struct Calls {
    run: Run,
    tally: Tally,
}

impl Calls {
    /// Op 9, where a record can have it. The file, where one was written: the output's first bytes; those behind it stay, and
    /// where the call is refused all of them.
    fn write(&mut self, list: &List, output: &[u8]) -> Option<Vec<u8>> {
        if self.run.done() || list.text.len().max(output.len()) > RECORD_BYTES || list.words.len() > RECORD_WORDS {
            return None;
        }
        self.run.record(9, &[Bytes(&list.text), Number(list.clips), Words(&list.words), Bytes(output)]);
        let refusals = list.refusals(output.len());
        if let Some(&(number, _)) = refusals.first() {
            self.tally.add(9, &refusals, "");
            self.run.line_of_bytes(9, number, &[0], output);
            return None;
        }
        let file = list.file().expect("a list that nothing refuses has a file");
        let kind = match output.len() - file.len() {
            0 => "an output that is full",
            1 => "an output with a byte to spare",
            _ => "an output with bytes to spare",
        };
        self.tally.add(9, &[], kind);
        self.tally.written(list);
        let mut after = output.to_vec();
        after[..file.len()].copy_from_slice(&file);
        self.run.line_of_bytes(9, 0, &[file.len() as u64], &after);
        Some(file)
    }

    /// Op 10, where a record can have it, on a file that was made in that way.
    fn read(&mut self, file: &[u8], clip: u64, made: &'static str) {
        if self.run.done() || file.len() > RECORD_BYTES {
            return;
        }
        self.run.record(10, &[Bytes(file), Number(clip)]);
        let taken = Taken::new(file);
        let refusals = match &taken {
            None => vec![(19, if file.len() == TRAILER_BYTES - 1 { "11 bytes" } else { "fewer bytes" })],
            Some(taken) => taken.refusals(clip),
        };
        let number = refusals.first().map_or(0, |&(number, _)| number);
        *self.tally.made.entry((made, number)).or_default() += 1;
        let mut values = [0; 3];
        let mut kind = "";
        if let Some(taken) = taken {
            self.tally.notes.most_counts += u64::from(taken.trailer.count == u16::MAX);
            if number == 0 {
                let (start, end) = taken.spans().expect("a file that fits")[clip as usize];
                values = [taken.rows[clip as usize].start() as u64, start, end];
                kind = match (clip, taken.rows.len() as u64 - 1 - clip) {
                    (_, 0) => "the last clip",
                    (0, _) => "the first clip of several",
                    _ => "a clip between",
                };
                self.tally.read(&taken);
            }
        }
        self.tally.add(10, &refusals, kind);
        self.run.line(10, number, &values, None);
    }

    /// A list with some outputs, and then, if one of them took it, clips of the file that has just been written.
    fn write_and_read(&mut self, dice: &mut Dice, list: &List, outputs: usize) {
        let mut written = None;
        for _ in 0..outputs {
            let output = dice.output(list);
            let file = self.write(list, &output);
            if let Some(file) = &file {
                // the output as it is: with bytes behind the file it is another one
                if output.len() > file.len() && dice.one_in(2) {
                    let whole = [file, &output[file.len()..]].concat();
                    let clip = dice.clip(list.clips);
                    self.read(&whole, clip, "just written, with the output's bytes behind it");
                }
            }
            written = file.or(written);
        }
        let Some(file) = written else {
            return;
        };
        for clip in dice.clips(list.clips) {
            self.read(&file, clip, "just written");
        }
    }
}

// ---------------------------------------------------------------------------------------------------------------
// Lists and files, by dice
// ---------------------------------------------------------------------------------------------------------------

impl Dice {
    fn bytes(&mut self, size: usize) -> Vec<u8> {
        let mut bytes = Vec::with_capacity(size + 8);
        while bytes.len() < size {
            bytes.extend(self.roll().to_le_bytes());
        }
        bytes.truncate(size);
        bytes
    }

    /// A URI's place in a text of that size: short, empty, all of it, at its end, any.
    fn span(&mut self, size: usize) -> (u64, u64) {
        let size = size as u64;
        let (one, other) = (self.below(size + 1), self.below(size + 1));
        let (start, end) = (one.min(other), one.max(other));
        match self.below(12) {
            0 => (end, end),
            1 => (0, size),
            2 => (size, size),
            3 => (start, size),
            4..=8 => (start, end.min(start + 4)),
            _ => (start, end),
        }
    }

    /// The same in a long text: about 65,535 bytes of it, or a few, perhaps one that is not there.
    fn long_span(&mut self, size: u64) -> (u64, u64) {
        let place = self.below(size - 9);
        let spans = [
            (0, size),
            (0, size),
            (0, 65_536),
            (0, 65_535),
            (1, 65_536),
            (size - 65_535, size),
            (0, 65_534),
            (size, size),
            (size - 1, size),
            (place, place + 9),
            (place, place + 9),
            (place, place + 9),
            (place, place + 9),
            (size - 3, size + 1),
        ];
        self.of(&spans)
    }

    /// So many lengths that add up to the total, a part of them perhaps 0.
    fn split(&mut self, total: u64, clips: usize) -> Vec<u64> {
        if clips == 0 {
            return Vec::new();
        }
        let mut cuts: Vec<u64> = (1..clips).map(|_| self.below(total + 1)).collect();
        // some cuts on others, or on the ends
        let empty = self.of(&[0, 0, 2, 4]);
        for k in 0..cuts.len() {
            if empty > 0 && self.one_in(empty) {
                let other = self.below(cuts.len() as u64) as usize;
                cuts[k] = self.of(&[0, total, cuts[other], cuts[other]]);
            }
        }
        cuts.extend([0, total]);
        cuts.sort_unstable();
        cuts.windows(2).map(|ends| ends[1] - ends[0]).collect()
    }

    /// Lengths below 10^18, of which most lists have a total that is not above 10^15.
    fn lengths(&mut self, clips: usize) -> Vec<u64> {
        match self.below(12) {
            // equal starts, and starts that are a ns apart
            0 | 1 => (0..clips).map(|_| self.below(3)).collect(),
            // whole seconds, a ns more or less: the second turns over
            2..=4 => (0..clips)
                .map(|_| {
                    let seconds = self.of(&[0, 1, 1, 2, 4]) * SECOND;
                    (seconds + self.below(3)).saturating_sub(1)
                })
                .collect(),
            // the largest total, or 1 ns more
            5 | 6 => self.split(MOST_NS, clips),
            7 => self.split(MOST_NS + 1, clips),
            // sums about 2^32 ns and 2^32 s: more than a field of 32 bits has
            8 => {
                let edges = [1 << 32, (1 << 32) - 1, 1 << 31, 1 << 33, 0, 1];
                (0..clips).map(|_| self.of(&edges)).collect()
            }
            // any, and far too long ones too
            9 => (0..clips).map(|_| self.any_size(LENGTH_LIMIT - 1)).collect(),
            _ => {
                let total = self.any_size(MOST_NS);
                self.split(total, clips)
            }
        }
    }

    /// Words that no rule looks at are anything.
    fn list(&mut self, text: Vec<u8>, spans: &[(u64, u64)], lengths: &[u64]) -> List {
        let mut words = Vec::new();
        for (&(start, end), &length) in spans.iter().zip(lengths) {
            let mut record = self.out(CLIP_WORDS as u64);
            record[URI_START] = start;
            record[URI_END] = end;
            record[LENGTH] = length;
            words.extend(record);
        }
        List { text, clips: lengths.len() as u64, words }
    }

    /// A list that keeps rule 9, over a text of that size.
    fn some_list(&mut self, size: usize, clips: usize) -> List {
        let text = self.bytes(size);
        let spans: Vec<(u64, u64)> = (0..clips).map(|_| self.span(size)).collect();
        let lengths = self.lengths(clips);
        self.list(text, &spans, &lengths)
    }

    /// Words behind the last clip that counts: a few, or whole records, whatever they say.
    fn behind(&mut self, list: &mut List) {
        let most = self.of(&[3, 17, 60]);
        let more = self.below(most);
        let words = self.out(more);
        list.words.extend(words);
    }

    /// An output of just enough bytes for the list, a byte more or fewer, none, any. Each of its bytes is another than the
    /// file would have there: one that is written shows, and one that is not written too.
    fn output(&mut self, list: &List) -> Vec<u8> {
        let known = list.count_fits() && list.file_length() <= RECORD_BYTES as u128;
        let size = if known { list.file_length() as usize } else { TRAILER_BYTES + self.below(300) as usize };
        let rooms = [
            size,
            size,
            size,
            size + 1,
            size + self.below(20) as usize,
            size - 1,
            size - 1,
            0,
            self.below(size as u64 + 1) as usize,
        ];
        let room = self.of(&rooms).min(RECORD_BYTES);
        let mut output = self.bytes(room);
        for (byte, written) in output.iter_mut().zip(list.file().unwrap_or_default()) {
            if *byte == written {
                *byte = !written;
            }
        }
        output
    }

    /// A clip of so many, or one that is not there: the next, a far one, one whose tenfold or low bits are those of one.
    fn clip(&mut self, count: u64) -> u64 {
        if count > 0 && !self.one_in(4) {
            return self.below(count);
        }
        let low = self.below(count.saturating_add(2));
        let clips = [
            count,
            count.saturating_add(1),
            u64::MAX,
            u64::MAX / 10 + 1,
            (1 << 63) + low % 65_536,
            (1 << 32) + low % 65_536,
            65_536 + low % 65_536,
        ];
        self.of(&clips)
    }

    /// Some clips of so many, the first, the last and the one behind it among them, and one by the dice.
    fn clips(&mut self, count: u64) -> Vec<u64> {
        let mut clips: Vec<u64> = if count <= 6 { (0..count).collect() } else { vec![0, count / 2, count - 1] };
        clips.push(count);
        clips.push(self.clip(count));
        clips
    }

    /// Starts that a file may have: the first is 0, none falls, none is above 1,000,000 s.
    fn starts(&mut self, clips: usize) -> Vec<u128> {
        let edges = [
            0,
            0,
            1,
            2,
            SECOND - 1,
            SECOND,
            SECOND + 1,
            2 * SECOND,
            (1 << 32) - 1,
            1 << 32,
            999_999 * SECOND + SECOND - 1,
            MOST_NS - 1,
            MOST_NS,
            MOST_NS,
        ];
        let most = self.any_size(MOST_NS);
        let at_edges = self.one_in(2);
        let mut starts: Vec<u128> = (0..clips)
            .map(|_| {
                let start = if at_edges { self.of(&edges) } else { self.below(most) };
                u128::from(start)
            })
            .collect();
        starts.sort_unstable();
        if let Some(first) = starts.first_mut() {
            *first = 0;
        }
        starts
    }

    /// A list of starts and URIs, none of which has more than so many bytes.
    fn cues(&mut self, clips: usize, most: u64) -> Vec<Cue> {
        let starts = self.starts(clips);
        let cue = |start| {
            let size = if self.one_in(4) { 0 } else { self.below(most + 1) as usize };
            Cue { start, uri: self.bytes(size) }
        };
        starts.into_iter().map(cue).collect()
    }

    /// A small file, of up to five clips.
    fn small_file(&mut self) -> CueFile {
        let clips = self.of(&[0, 1, 1, 2, 2, 2, 3, 3, 4, 5]);
        CueFile::new(&self.cues(clips, 6))
    }

    /// A list that says what the cues say: a text with all URIs, in some order and with bytes between them, each once; and
    /// lengths with which the starts come out. The last length is in no file.
    fn list_of(&mut self, cues: &[Cue]) -> List {
        let mut text: Vec<u8> = Vec::new();
        let mut spans = vec![(0, 0); cues.len()];
        let mut order: Vec<usize> = (0..cues.len()).collect();
        for k in (1..order.len()).rev() {
            let other = self.below(k as u64 + 1) as usize;
            order.swap(k, other);
        }
        for k in order {
            let uri = &cues[k].uri;
            let found = (0..text.len() + 1).find(|&at| text[at..].starts_with(uri));
            let start = found.unwrap_or_else(|| {
                let many = self.below(3) as usize;
                let between = self.bytes(many);
                text.extend(between);
                text.extend(uri);
                text.len() - uri.len()
            });
            spans[k] = (start as u64, (start + uri.len()) as u64);
        }
        let last = cues.last().map_or(0, |cue| cue.start as u64);
        let left = MOST_NS - last;
        let last_lengths = [0, left, left, self.below(left + 1)];
        let mut ends: Vec<u64> = cues.iter().skip(1).map(|cue| cue.start as u64).collect();
        ends.push(last + self.of(&last_lengths));
        let lengths: Vec<u64> = cues.iter().zip(ends).map(|(cue, end)| end - cue.start as u64).collect();
        self.list(text, &spans, &lengths)
    }
}

// ---------------------------------------------------------------------------------------------------------------
// What is called: lists, and the files that they become
// ---------------------------------------------------------------------------------------------------------------

/// Small lists, each with a few outputs; the files are read.
fn small_lists(calls: &mut Calls, dice: &mut Dice) {
    for _ in 0..20 {
        let size = if dice.one_in(8) { dice.any_size(300) } else { dice.below(16) };
        let clips = dice.of(&[0, 1, 1, 2, 2, 3, 4, 5, 8, 12, 30]);
        let mut list = dice.some_list(size as usize, clips);
        if dice.one_in(3) {
            dice.behind(&mut list);
        }
        // clips behind the count are not judged, and not written
        if dice.one_in(8) {
            list.clips = dice.below(clips as u64 + 1);
        }
        calls.write_and_read(dice, &list, 4);
    }
}

/// Files that are read, and lists made of what they say, which must become the same files.
fn there_and_back(calls: &mut Calls, dice: &mut Dice) {
    for _ in 0..10 {
        let clips = dice.of(&[0, 1, 2, 3, 4, 6, 10, 25]);
        let longest = dice.of(&[1, 4, 4, 20, 200]);
        let cues = dice.cues(clips, longest);
        let file = CueFile::new(&cues).bytes();
        for clip in dice.clips(clips as u64) {
            calls.read(&file, clip, "good");
        }
        let list = dice.list_of(&cues);
        assert_eq!(list.cues(), cues, "a list that was made of cues says others");
        assert_eq!(list.file().as_ref(), Some(&file), "a list and its cues have two files");
        for _ in 0..2 {
            let output = dice.output(&list);
            let written = calls.write(&list, &output);
            calls.tally.notes.there_and_back += u64::from(written.is_some());
        }
    }
}

/// One thing of a list is made hostile.
fn break_list(dice: &mut Dice, list: &mut List) {
    let held = list.held();
    let size = list.text.len() as u64;
    let some_clip = dice.below(held.max(1) as u64) as usize;
    let first = CLIP_WORDS * some_clip;
    match dice.below(12) {
        // a count: fewer, one too many, or one whose seventeenfold, cut to 64 bits, is within the table
        0 | 1 => {
            let wraps = dice.below(list.words.len() as u64 + 1).wrapping_mul(SEVENTEENTH);
            let counts = [
                0,
                some_clip as u64,
                held as u64 + 1,
                u64::MAX,
                1 << 60,
                u64::MAX / 17 + 1,
                wraps,
                wraps,
                1 << 32,
                65_535,
                65_536,
                65_536 + held as u64,
            ];
            list.clips = dice.of(&counts);
        }
        // a table that is short by a word, or by more
        2 => {
            let left = list.words.len() as u64;
            let gone = if dice.one_in(2) { 1 } else { dice.below(left + 1) };
            list.words.truncate(left.saturating_sub(gone) as usize);
        }
        3 | 4 if held > 0 => {
            let lengths = [LENGTH_LIMIT, LENGTH_LIMIT - 1, u64::MAX, MOST_NS, MOST_NS + 1, dice.roll(), 1 << 63, 0];
            list.words[first + LENGTH] = dice.of(&lengths);
        }
        // a total of 10^15 ns, or 1 ns more
        5 if held > 0 => {
            let others = list.sum(held) - u128::from(list.word(some_clip, LENGTH));
            let full = u128::from(MOST_NS) + u128::from(dice.below(2));
            list.words[first + LENGTH] = full.saturating_sub(others) as u64;
        }
        // nineteen lengths that are each in their limit, and whose sum is 2^64 and a little
        6 => {
            let most = LENGTH_LIMIT - 1;
            let mut lengths = vec![most; 18];
            let over = dice.of(&[0, 1, MOST_NS, MOST_NS + 1]);
            lengths.push(((1 << 64) - 18 * u128::from(most)) as u64 + over);
            let spans: Vec<(u64, u64)> = (0..19).map(|_| dice.span(size as usize)).collect();
            *list = dice.list(list.text.clone(), &spans, &lengths);
        }
        // a URI that ends at the text's end, or just past it, or far
        7 | 8 if held > 0 => {
            let ends = [size, size + 1, size + 1, size + 2, size + (1 << 32), u64::MAX, dice.roll(), 1 << 63];
            let end = dice.of(&ends);
            list.words[first + URI_END] = end;
            if dice.one_in(3) {
                list.words[first + URI_START] = end.saturating_sub(dice.below(2));
            }
        }
        // a URI that starts at its end, or just past it, or far
        9 | 10 if held > 0 => {
            let end = list.words[first + URI_END];
            let next = end.saturating_add(1);
            let starts = [end, next, next, end.saturating_add(2), u64::MAX, dice.roll(), 1 << 63];
            list.words[first + URI_START] = dice.of(&starts);
        }
        // the text loses its last bytes
        _ => list.text.truncate(size.saturating_sub(1 + dice.below(3)) as usize),
    }
}

/// Lists with up to four things wrong, or right all the same.
fn hostile_lists(calls: &mut Calls, dice: &mut Dice) {
    for _ in 0..40 {
        let size = dice.below(12) as usize;
        let clips = dice.below(7) as usize;
        let mut list = dice.some_list(size, clips);
        if dice.one_in(3) {
            dice.behind(&mut list);
        }
        for _ in 0..1 + dice.below(4) {
            break_list(dice, &mut list);
        }
        calls.write_and_read(dice, &list, 2);
    }
}

/// Texts of 65,536 bytes, some more, some fewer, with URIs of 65,535 and 65,536 bytes, at the text's end, and any.
fn long_texts(calls: &mut Calls, dice: &mut Dice) {
    for _ in 0..3 {
        let sizes = [
            MOST_BYTES,
            MOST_BYTES,
            MOST_BYTES,
            MOST_BYTES,
            MOST_BYTES - 1,
            MOST_BYTES + 1,
            MOST_BYTES + 1,
            MOST_BYTES + 2,
        ];
        let size = if dice.one_in(40) { dice.of(&[70_000, RECORD_BYTES]) } else { dice.of(&sizes) };
        let clips = 1 + dice.below(3) as usize;
        let text = dice.bytes(size);
        let spans: Vec<(u64, u64)> = (0..clips).map(|_| dice.long_span(size as u64)).collect();
        let lengths = dice.lengths(clips);
        let mut list = dice.list(text, &spans, &lengths);
        if dice.one_in(4) {
            break_list(dice, &mut list);
        }
        if dice.one_in(2) {
            calls.write_and_read(dice, &list, 1);
        }
        // the same where the output is short too
        for room in [0, dice.below(30)] {
            let output = dice.bytes(room as usize);
            calls.write(&list, &output);
        }
    }
}

/// Lists of up to so many clips as a record holds.
fn long_lists(calls: &mut Calls, dice: &mut Dice) {
    let size = dice.any_size(40) as usize;
    let clips = 100 + dice.any_size((RECORD_WORDS / CLIP_WORDS - 100) as u64) as usize;
    let mut list = dice.some_list(size, clips);
    if dice.one_in(4) {
        break_list(dice, &mut list);
    }
    calls.write_and_read(dice, &list, 2);
}

// ---------------------------------------------------------------------------------------------------------------
// What is called: files
// ---------------------------------------------------------------------------------------------------------------

/// A small file with one byte changed: each place, in several ways.
fn changed_bytes(calls: &mut Calls, dice: &mut Dice) {
    let file = dice.small_file();
    let count = u64::from(file.trailer.count);
    let file = file.bytes();
    for place in 0..file.len() {
        let old = file[place];
        let values = [old.wrapping_add(1), old.wrapping_sub(1), old ^ 0x80, 0, 255, dice.roll() as u8];
        for byte in values {
            if byte != old {
                let mut changed = file.clone();
                changed[place] = byte;
                let clip = dice.clip(count);
                calls.read(&changed, clip, "one byte changed");
            }
        }
    }
}

/// A small file with bytes cut off at its front or end, or one taken out or put in: each place.
fn cut_and_added(calls: &mut Calls, dice: &mut Dice) {
    let file = dice.small_file();
    let count = u64::from(file.trailer.count);
    let file = file.bytes();
    for place in 0..file.len() + 1 {
        let clip = dice.clip(count);
        calls.read(&file[place..], clip, "cut at the front");
        calls.read(&file[..place], clip, "cut at the end");
        if place < file.len() {
            let without = [&file[..place], &file[place + 1..]].concat();
            calls.read(&without, clip, "one byte taken out");
        }
        let near = file[place.min(file.len() - 1)];
        let byte = dice.of(&[0, 1, near, 255]);
        let with = [&file[..place], &[byte][..], &file[place..]].concat();
        calls.read(&with, clip, "one byte put in");
    }
    // several bytes at the front, before the URIs, before the trailer and behind it; a second trailer
    for many in [2, ROW_BYTES, TRAILER_BYTES, 256] {
        let row_end = ROW_BYTES * count as usize;
        for place in [0, row_end, file.len() - TRAILER_BYTES, file.len()] {
            let bytes = if dice.one_in(2) { vec![0; many] } else { dice.bytes(many) };
            let with = [&file[..place], &bytes[..], &file[place..]].concat();
            let clip = dice.clip(count);
            calls.read(&with, clip, "bytes put in");
        }
    }
    let twice = [&file[..], &file[file.len() - TRAILER_BYTES..]].concat();
    calls.read(&twice, 0, "bytes put in");
}

/// A start, or its seconds or nanoseconds, is set to an edge.
fn break_start(dice: &mut Dice, rows: &mut [Row]) {
    if rows.is_empty() {
        return;
    }
    let k = dice.below(rows.len() as u64) as usize;
    let set = |row: &mut Row, start: u128| *row = Row::at(start, row.uri_length);
    match dice.below(10) {
        // 1 ns before the one before it, 1 ns behind the next, or equal to it
        0 | 1 if k > 0 => {
            let before = rows[k - 1].start().min(LATEST_START);
            set(&mut rows[k], before.saturating_sub(1));
        }
        2 if k + 1 < rows.len() => {
            let next = rows[k + 1].start().min(LATEST_START) + u128::from(dice.below(2));
            set(&mut rows[k], next);
        }
        3 => set(&mut rows[0], u128::from(dice.of(&[1, 1, SECOND, SECOND - 1, 1 << 32]))),
        // the last starts at 1,000,000 s, and a ns about it
        4 | 5 => {
            let last = rows.len() - 1;
            let starts = [0, 0, 1, 2, u128::from(SECOND)];
            set(&mut rows[last], LATEST_START - 1 + dice.of(&starts));
        }
        6 => rows[k].nanoseconds = dice.of(&[999_999_999, 1_000_000_000, 1_000_000_001, u32::MAX, 1 << 31, 1 << 30]),
        7 => rows[k].seconds = dice.of(&[u32::MAX, 1 << 31, 1_000_000, 1_000_001, 999_999, 0]),
        // the same moment with a second too few and 10^9 ns too many
        8 if rows[k].seconds > 0 => {
            rows[k].seconds -= 1;
            rows[k].nanoseconds = rows[k].nanoseconds.saturating_add(SECOND as u32);
        }
        // all at the same moment
        _ => {
            let start = rows[k].start().min(LATEST_START);
            rows.iter_mut().skip(1).for_each(|row| set(row, start));
        }
    }
}

/// A place, count or length is off, or bytes are there that no field says.
fn break_fit(dice: &mut Dice, file: &mut CueFile) {
    let size = (ROW_BYTES * file.rows.len() + file.uris.len() + TRAILER_BYTES) as u32;
    let off = dice.of(&[1, 1, 2, 10, 12, 256, 65_536, 65_536, 2 * 65_536]);
    let up = dice.one_in(2);
    let moved = |place: u32| if up { place.wrapping_add(off) } else { place.wrapping_sub(off) };
    let rows = file.rows.len() as u64;
    match dice.below(12) {
        0 => {
            let places = [1, off, off, size, file.trailer.uris, 1 << 31, u32::MAX, 1 << 24];
            file.trailer.rows = dice.of(&places);
        }
        1 | 2 => {
            let uris = file.trailer.uris;
            let places = [
                moved(uris),
                moved(uris),
                0,
                u32::MAX,
                size,
                size - TRAILER_BYTES as u32,
                uris % 65_536,
                uris ^ (1 << 31),
            ];
            file.trailer.uris = dice.of(&places);
        }
        // a count, perhaps with the place that belongs to it
        3 | 4 => {
            let count = file.trailer.count;
            let counts = [
                count.wrapping_add(1),
                count.wrapping_sub(1),
                0,
                count.wrapping_add(256),
                count ^ (1 << 15),
                u16::MAX,
                u16::MAX,
                1,
            ];
            file.trailer.count = dice.of(&counts);
            if dice.one_in(2) {
                file.trailer.uris = ROW_BYTES as u32 * u32::from(file.trailer.count);
            }
        }
        // a length
        5 | 6 if rows > 0 => {
            let row = &mut file.rows[dice.below(rows) as usize];
            let length = row.uri_length;
            let lengths = [length.wrapping_add(1), length.wrapping_sub(1), length ^ 256, 0, u16::MAX, 1 << 15];
            row.uri_length = dice.of(&lengths);
        }
        // two lengths whose sum stays, or is 65,536 more
        7 | 8 if rows > 1 => {
            let one = dice.below(rows) as usize;
            let other = (one + 1 + dice.below(rows - 1) as usize) % rows as usize;
            let much = dice.of(&[1, 1, 2, file.rows[other].uri_length, 1 << 15]);
            file.rows[one].uri_length = file.rows[one].uri_length.wrapping_add(much);
            file.rows[other].uri_length = file.rows[other].uri_length.wrapping_sub(much);
        }
        // fewer URI bytes, or more
        9 => {
            let left = file.uris.len().saturating_sub(off as usize);
            file.uris.truncate(left);
        }
        10 => {
            let many = if dice.one_in(8) { off } else { off % 256 };
            let more = dice.bytes(many as usize);
            file.uris.extend(more);
        }
        // a record fewer, or one more
        _ => {
            if up || file.rows.pop().is_none() {
                let last = file.rows.last().map_or(0, Row::start).min(LATEST_START);
                file.rows.push(Row::at(last, 0));
            }
        }
    }
}

fn break_version(dice: &mut Dice, file: &mut CueFile) {
    let versions = [0, 2, 256, 257, 65_535, 65_281, dice.roll() as u16];
    file.trailer.version = dice.of(&versions);
}

/// Files whose fields are off, one or several at once.
fn wrong_fields(calls: &mut Calls, dice: &mut Dice) {
    for _ in 0..60 {
        let mut file = dice.small_file();
        let made = match dice.below(8) {
            0 => {
                break_version(dice, &mut file);
                "another version"
            }
            1..=3 => {
                break_fit(dice, &mut file);
                "a place, count or length off"
            }
            4 | 5 => {
                break_start(dice, &mut file.rows);
                "a start off"
            }
            _ => {
                if dice.one_in(3) {
                    break_version(dice, &mut file);
                }
                for _ in 0..dice.below(3) {
                    break_fit(dice, &mut file);
                }
                for _ in 0..1 + dice.below(2) {
                    break_start(dice, &mut file.rows);
                }
                "several things off"
            }
        };
        let count = u64::from(file.trailer.count);
        let file = file.bytes();
        for _ in 0..2 {
            let clip = dice.clip(count);
            calls.read(&file, clip, made);
        }
    }
}

/// Bytes that were never a file: of 0 to 13 bytes, each length in several ways; and longer ones whose trailer looks right.
fn no_files(calls: &mut Calls, dice: &mut Dice) {
    for size in 0..14 {
        for way in 0..6 {
            let mut file = if way < 3 { vec![0; size] } else { dice.bytes(size) };
            // the version that is asked, or 2
            if way % 3 > 0 && size >= 2 {
                file[size - 2] = 0;
                file[size - 1] = way as u8 % 3;
            }
            let count = dice.below(3);
            let clip = dice.clip(count);
            calls.read(&file, clip, "up to 13 bytes");
        }
    }
    for _ in 0..40 {
        let clips = dice.below(5) as u16;
        let size = ROW_BYTES * usize::from(clips) + dice.below(5) as usize;
        let mut file = dice.bytes(size);
        // mostly zeros, so that a part fits
        for byte in &mut file {
            if !dice.one_in(8) {
                *byte = 0;
            }
        }
        let trailer = Trailer { rows: 0, uris: ROW_BYTES as u32 * u32::from(clips), count: clips, version: VERSION };
        file.extend(CueFile { rows: Vec::new(), uris: Vec::new(), trailer }.bytes());
        let clip = dice.clip(u64::from(clips));
        calls.read(&file, clip, "noise before a trailer");
    }
}

/// Files of up to 140,000 bytes: of many clips, and with URIs whose lengths pass 65,536; right, and wrong by a multiple of
/// 65,536 or in any other way.
fn long_files(calls: &mut Calls, dice: &mut Dice) {
    let (clips, most) = match dice.below(4) {
        0 => (dice.any_size(13_000) as usize, 0),
        1 => (6_540 + dice.below(30) as usize, 1),
        2 => (1 + dice.below(4) as usize, 65_535),
        _ => (100 + dice.any_size(2_000) as usize, 20),
    };
    let mut cues = dice.cues(clips, most);
    while cues.iter().map(|cue| ROW_BYTES + cue.uri.len()).sum::<usize>() > RECORD_BYTES - TRAILER_BYTES {
        let longest = cues.iter_mut().max_by_key(|cue| cue.uri.len()).expect("a clip");
        longest.uri.truncate(longest.uri.len() / 2);
    }
    let good = CueFile::new(&cues);
    let bytes = good.bytes();
    for clip in dice.clips(clips as u64) {
        calls.read(&bytes, clip, "long, good");
    }
    for _ in 0..4 {
        let mut file = good.clone();
        match dice.below(5) {
            0 => break_start(dice, &mut file.rows),
            1 => {
                // as many URI bytes as the lengths say, and 65,536 more or fewer
                let size = file.uris.len();
                let sizes = [size + 65_536, size.saturating_sub(65_536)];
                file.uris.resize(dice.of(&sizes), 7);
            }
            _ => break_fit(dice, &mut file),
        }
        if dice.one_in(4) {
            break_start(dice, &mut file.rows);
        }
        let count = u64::from(file.trailer.count);
        let mut bytes = file.bytes();
        // a record holds no more; the front is cut, so that the trailer stays
        let over = bytes.len().saturating_sub(RECORD_BYTES);
        bytes.drain(..over);
        let clip = dice.clip(count);
        calls.read(&bytes, clip, "long, something off");
    }
}

// ---------------------------------------------------------------------------------------------------------------
// What every longer run has
// ---------------------------------------------------------------------------------------------------------------

/// 01's own list, and the largest list and file that a record holds.
fn known(calls: &mut Calls, dice: &mut Dice) {
    let text = b"#EXTM3U\n#EXTINF:9.009,bird\na.ts\n#EXTINF:0.004,\nb.ts\n#EXTINF:3.003,\nc.ts\n".to_vec();
    let sheet = dice.list(text, &[(27, 31), (47, 51), (67, 71)], &[9_009_000_000, 4_000_000, 3_003_000_000]);
    for room in 50..60 {
        let output = dice.bytes(room);
        if let Some(file) = calls.write(&sheet, &output) {
            for clip in [0, 1, 2, 3, u64::MAX] {
                calls.read(&file, clip, "just written");
            }
        }
    }
    // 4,117 clips, whose file has 140,000 bytes exactly, and one more
    let clips = RECORD_WORDS / CLIP_WORDS;
    let text = dice.bytes(24);
    let left = RECORD_BYTES - TRAILER_BYTES - ROW_BYTES * clips;
    let mut spans = vec![(0, (left / clips) as u64); clips];
    spans.iter_mut().take(left % clips).for_each(|span| span.1 += 1);
    let lengths = dice.split(MOST_NS, clips);
    let mut list = dice.list(text, &spans, &lengths);
    for more in [0, 1] {
        list.words[CLIP_WORDS * (clips - 1) + URI_END] += more;
        let output = dice.bytes(RECORD_BYTES);
        if let Some(file) = calls.write(&list, &output) {
            for clip in [0, clips / 2, clips - 1, clips] {
                calls.read(&file, clip as u64, "just written");
            }
        }
    }
    // a file that no text within the limit can say
    let cues = [Cue { start: 0, uri: vec![b'x'; 40_000] }, Cue { start: 1, uri: vec![b'y'; 40_000] }];
    for clip in [0, 1, 2] {
        calls.read(&CueFile::new(&cues).bytes(), clip, "long, good");
    }
    // 13,998 clips without a URI, one byte for the last one, and eight
    for more in [0, 1, 8] {
        let mut cues = dice.cues(13_998, 0);
        cues[13_997].uri = dice.bytes(more);
        let file = CueFile::new(&cues);
        for clip in [0, 6_553, 6_554, 13_997, 13_998] {
            calls.read(&file.bytes(), clip, "long, good");
        }
        let mut most = file;
        most.trailer.count = u16::MAX;
        most.trailer.uris = ROW_BYTES as u32 * u32::from(u16::MAX);
        calls.read(&most.bytes(), 65_534, "long, something off");
    }
}

fn main() {
    let (run, mut dice) = Run::of_arguments("cues");
    let mut calls = Calls { run, tally: Tally::default() };
    // a short run has more use for others
    if calls.run.count >= 50_000 {
        known(&mut calls, &mut dice);
    }
    while !calls.run.done() {
        match dice.below(64) {
            0..=13 => small_lists(&mut calls, &mut dice),
            14..=21 => there_and_back(&mut calls, &mut dice),
            22..=37 => hostile_lists(&mut calls, &mut dice),
            38..=40 => changed_bytes(&mut calls, &mut dice),
            41 | 42 => cut_and_added(&mut calls, &mut dice),
            43..=49 => wrong_fields(&mut calls, &mut dice),
            50 => no_files(&mut calls, &mut dice),
            51..=57 => long_texts(&mut calls, &mut dice),
            58..=60 => long_lists(&mut calls, &mut dice),
            _ => long_files(&mut calls, &mut dice),
        }
    }
    calls.run.end();
    calls.tally.print();
}
