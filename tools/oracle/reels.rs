//! The window of a clip by request [1] of document 02 and RFC 8216's sentence, written once more: records for `probe`, and
//! the lines that it must print.
//!
//!     reels SEED COUNT RECORDS LINES
//!
//! It makes COUNT calls that SEED chooses, of ops 6 and 29, and writes their records to the file RECORDS and the lines to
//! the file LINES; it prints how many there were of each kind. Nothing here comes from the library, nor from
//! `tools/oracle/clock`, which goes from the first clip on: here each clip is followed back to where its chain begins, and
//! for all windows each clip anew. `tools/reels` builds this by plain rustc and runs the library beside it.
mod calls;

use calls::Argument::{Bytes, Number, Words};
use calls::{Dice, Run};
use std::cmp::Ordering;
use std::collections::BTreeMap;

// 01: "a lent table of 64-bit words, seventeen to a clip: 0, 1 URI start and end; .. 6 flags (1 range, 2 range offset, ..);
// 7, 8 range length, offset"
const CLIP_WORDS: usize = 17;
const URI_START: usize = 0;
const URI_END: usize = 1;
const FLAGS: usize = 6;
const RANGE_LENGTH: usize = 7;
const RANGE_OFFSET: usize = 8;
const HAS_RANGE: u64 = 1;
const HAS_OFFSET: u64 = 2;
const FLAG_LIMIT: u64 = 64;
const MOST_BYTES: usize = 65_536;
const LARGEST: u128 = u64::MAX as u128;
// the most bytes and words that a record of the probe may have
const RECORD_BYTES: usize = 140_000;
const RECORD_WORDS: usize = 70_000;
// the inverse of 17 among numbers of 64 bits: so many times a small number of words is a count that seems to fit
const SEVENTEENTH: u64 = 0xf0f0_f0f0_f0f0_f0f1;

// ---------------------------------------------------------------------------------------------------------------
// RFC 8216, 4.3.2.2: "#EXT-X-BYTERANGE:<n>[@<o>]"
// ---------------------------------------------------------------------------------------------------------------

/// What both calls are given: the text, how many clips there are said to be, and the words.
struct Reel {
    text: Vec<u8>,
    clips: u64,
    words: Vec<u64>,
}

/// A number, 0 where the call is not refused; 1 or 0 for a range, start and end; and which kind of answer it is.
struct Answer {
    number: u64,
    values: [u64; 3],
    kind: &'static str,
}

fn zeros(number: u64, kind: &'static str) -> Answer {
    Answer { number, values: [0; 3], kind }
}

/// A sub-range that begins nowhere: why, and how many bytes the clips before it have that were looked at.
struct Undefined {
    kind: &'static str,
    between: u128,
}

impl Reel {
    fn word(&self, clip: usize, word: usize) -> u64 {
        self.words[CLIP_WORDS * clip + word]
    }

    fn uri(&self, clip: usize) -> &[u8] {
        &self.text[self.word(clip, URI_START) as usize..self.word(clip, URI_END) as usize]
    }

    fn is_sub_range(&self, clip: usize) -> bool {
        self.word(clip, FLAGS) & HAS_RANGE != 0
    }

    /// "n is a decimal-integer indicating the length of the sub-range in bytes"
    fn n(&self, clip: usize) -> u128 {
        u128::from(self.word(clip, RANGE_LENGTH))
    }

    /// "If present, o is a decimal-integer indicating the start of the sub-range, as a byte offset from the beginning of the
    /// resource"
    fn o(&self, clip: usize) -> Option<u128> {
        let present = self.word(clip, FLAGS) & HAS_OFFSET != 0;
        present.then(|| u128::from(self.word(clip, RANGE_OFFSET)))
    }

    /// Where a clip that is a sub-range begins: it is followed back to the first clip that has an o, which is given too.
    fn beginning(&self, clip: usize) -> Result<(usize, u128), Undefined> {
        let mut between = 0;
        let mut k = clip;
        loop {
            if let Some(o) = self.o(k) {
                return Ok((k, o + between));
            }
            let kind = |here, back| Undefined { kind: if k == clip { here } else { back }, between };
            // "If o is not present, a previous Media Segment MUST appear in the Playlist file"
            if k == 0 {
                return Err(kind("no clip before", "back along the chain no clip before"));
            }
            let previous = k - 1;
            // "and MUST be a sub-range of the same media resource, or the Media Segment is undefined"
            if !self.is_sub_range(previous) {
                return Err(kind("no range before", "back along the chain no range before"));
            }
            if self.uri(previous) != self.uri(k) {
                return Err(kind("another URI before", "back along the chain another URI before"));
            }
            // "the sub-range begins at the next byte following the sub-range of the previous Media Segment"
            between += self.n(previous);
            k = previous;
        }
    }

    fn window(&self, clip: usize, notes: &mut Notes) -> Answer {
        // 01: "without a range, the answer none, start and end 0"
        if !self.is_sub_range(clip) {
            return zeros(0, if self.o(clip).is_none() { "no range" } else { "no range, the offset's flag alone" });
        }
        let n = self.n(clip);
        // 16: "no offset and no such previous range, here or back along the chain, after 14 and before 15"
        let (first, start) = match self.beginning(clip) {
            Ok(found) => found,
            Err(undefined) => {
                notes.undefined(undefined.between + n);
                return zeros(16, undefined.kind);
            }
        };
        // 15: "window's end above 2^64 - 1"
        let Ok(end) = u64::try_from(start + n) else {
            let kind = match clip - first {
                0 => "with its own offset",
                _ if start <= LARGEST => "behind a clip that ends within 2^64 - 1",
                _ if n == 0 => "earlier on the chain, its own length 0",
                _ => "earlier on the chain",
            };
            return zeros(15, kind);
        };
        notes.window(self, clip, first, end);
        let kind = match clip - first {
            0 => "from its own offset",
            1 => "behind the clip before",
            2..=9 => "along a chain of 2 to 9",
            10..=99 => "along a chain of 10 to 99",
            _ => "along a chain of 100 or more",
        };
        Answer { number: 0, values: [1, start as u64, end], kind }
    }

    /// 02 [1]: "9 takes in every clip's flags and URI span". The first clip that breaks it, and how.
    fn broken(&self) -> Option<(usize, &'static str)> {
        (0..self.clips as usize).find_map(|clip| {
            let (start, end) = (self.word(clip, URI_START), self.word(clip, URI_END));
            if self.word(clip, FLAGS) >= FLAG_LIMIT {
                Some((clip, "flags"))
            } else if start > end || end > self.text.len() as u64 {
                Some((clip, "URI span"))
            } else {
                None
            }
        })
    }

    fn count_fits(&self) -> bool {
        u128::from(self.clips) * CLIP_WORDS as u128 <= self.words.len() as u128
    }

    /// Both calls' 1 and 9, and why; for the tally with the clip that was asked, if one was.
    fn judge(&self, asked: Option<u64>) -> Result<(), (u64, String)> {
        if self.text.len() > MOST_BYTES {
            let also =
                if !self.count_fits() || self.broken().is_some() { ", and the table breaks its rule" } else { "" };
            return Err((1, format!("the text is too long{also}")));
        }
        if !self.count_fits() {
            return Err((9, "the count does not fit".to_string()));
        }
        let Some((clip, what)) = self.broken() else {
            return Ok(());
        };
        let whose = match asked {
            None => "of a clip",
            Some(asked) if asked >= self.clips => "of a clip, and there is no clip that was asked",
            Some(asked) => match (clip as u64).cmp(&asked) {
                Ordering::Less => "of a clip before",
                Ordering::Equal => "of the clip itself",
                Ordering::Greater => "of a clip behind",
            },
        };
        Err((9, format!("{what} {whose}")))
    }
}

// ---------------------------------------------------------------------------------------------------------------
// The calls, and how many there are of each kind
// ---------------------------------------------------------------------------------------------------------------

enum Call {
    /// 6
    Window { clip: u64 },
    /// 29
    AllWindows { out: Vec<u64> },
}

/// What is worth counting beside the kinds.
#[derive(Default)]
struct Notes {
    undefined_far: u64,
    exact_ends: u64,
    other_places: u64,
    empty_places: u64,
}

impl Notes {
    /// A clip without a beginning: how many bytes it and those before it have.
    fn undefined(&mut self, sum: u128) {
        self.undefined_far += u64::from(sum > LARGEST);
    }

    fn window(&mut self, reel: &Reel, clip: usize, first: usize, end: u64) {
        self.exact_ends += u64::from(end == u64::MAX);
        if clip > first && reel.word(clip - 1, URI_START) != reel.word(clip, URI_START) {
            self.other_places += 1;
            self.empty_places += u64::from(reel.uri(clip).is_empty());
        }
    }
}

#[derive(Default)]
struct Tally {
    /// by op, number and kind; 0 stands for the clips of op 29
    kinds: BTreeMap<(u8, u64, String), u64>,
    notes: Notes,
}

impl Tally {
    fn add(&mut self, op: u8, number: u64, kind: &str) {
        match self.kinds.get_mut(&(op, number, kind.to_string())) {
            Some(many) => *many += 1,
            None => {
                self.kinds.insert((op, number, kind.to_string()), 1);
            }
        }
    }

    fn print(&self) {
        for (op, what) in [(6, "op 6"), (29, "op 29"), (0, "each clip that op 29 laid")] {
            println!("{what}, by number and kind:");
            for ((_, number, kind), many) in self.kinds.iter().filter(|((of, ..), _)| *of == op) {
                println!("    {number:2} {kind}: {many}");
            }
        }
        println!("among all of these:");
        println!("    16 though the lengths alone pass 2^64 - 1: {}", self.notes.undefined_far);
        println!("    an end of exactly 2^64 - 1: {}", self.notes.exact_ends);
        println!(
            "    behind a URI that stands elsewhere in the text: {}, empty: {}",
            self.notes.other_places, self.notes.empty_places
        );
    }
}

struct Calls {
    run: Run,
    tally: Tally,
}

impl Calls {
    /// 02's readings: "Call: text, clips, table, clip. Order 1, 9, 14, 16, 15."
    fn window(&mut self, reel: &Reel, clip: u64) {
        let answer = match reel.judge(Some(clip)) {
            Err((number, kind)) => {
                self.tally.add(6, number, &kind);
                zeros(number, "")
            }
            // 14: "no such clip"
            Ok(()) if clip >= reel.clips => {
                self.tally.add(6, 14, "no such clip");
                zeros(14, "")
            }
            Ok(()) => {
                let answer = reel.window(clip as usize, &mut self.tally.notes);
                self.tally.add(6, answer.number, answer.kind);
                answer
            }
        };
        self.run.line(6, answer.number, &answer.values, None);
    }

    /// For each clip the number that op 6 answers, and its three values; words past the last record unchanged. Refusals 1, 9,
    /// then 10 where four words a clip have no room; refused, no word changes.
    fn all_windows(&mut self, reel: &Reel, out: &[u64]) {
        if let Err((number, kind)) = reel.judge(None) {
            self.tally.add(29, number, &kind);
            return self.run.line(29, number, &[0], Some(out));
        }
        let clips = reel.clips as usize;
        if out.len() < 4 * clips {
            let kind =
                if out.len() + 1 == 4 * clips { "a table that is one word short" } else { "a table that is shorter" };
            self.tally.add(29, 10, kind);
            return self.run.line(29, 10, &[0], Some(out));
        }
        let kind = if out.len() == 4 * clips { "a table that is full" } else { "a table with words to spare" };
        self.tally.add(29, 0, kind);
        let mut after = out.to_vec();
        for clip in 0..clips {
            let answer = reel.window(clip, &mut self.tally.notes);
            self.tally.add(0, answer.number, answer.kind);
            after[4 * clip] = answer.number;
            after[4 * clip + 1..4 * clip + 4].copy_from_slice(&answer.values);
        }
        self.run.line(29, 0, &[reel.clips], Some(&after));
    }

    fn make(&mut self, reel: &Reel, call: &Call) {
        if self.run.done() {
            return;
        }
        let (text, clips, words) = (Bytes(&reel.text), Number(reel.clips), Words(&reel.words));
        match call {
            Call::Window { clip } => {
                self.run.record(6, &[text, clips, words, Number(*clip)]);
                self.window(reel, *clip);
            }
            Call::AllWindows { out } => {
                self.run.record(29, &[text, clips, words, Words(out)]);
                self.all_windows(reel, out);
            }
        }
    }
}

// ---------------------------------------------------------------------------------------------------------------
// Lists, by dice
// ---------------------------------------------------------------------------------------------------------------

/// How a list's clips are chosen.
struct Style {
    /// one clip in so many has an offset, one has no range, one has whatever URI
    offsets: u64,
    gaps: u64,
    other_uris: u64,
    /// which lengths and offsets there are
    sizes: u64,
}

impl Dice {
    /// Bytes of one to four letters, whatever bytes these are.
    fn text(&mut self, size: usize) -> Vec<u8> {
        let many = 1 + self.below(4) as usize;
        let letters: Vec<u8> = (0..many).map(|_| self.roll() as u8).collect();
        (0..size).map(|_| self.of(&letters)).collect()
    }

    fn span(&mut self, text: &[u8]) -> (usize, usize) {
        let limit = text.len() as u64 + 1;
        let (one, other) = (self.below(limit) as usize, self.below(limit) as usize);
        (one.min(other), one.max(other))
    }

    /// Some other place with the same bytes, if a few throws find one.
    fn same_bytes(&mut self, text: &[u8], (start, end): (usize, usize)) -> (usize, usize) {
        let size = end - start;
        for _ in 0..6 {
            let at = self.below((text.len() - size) as u64 + 1) as usize;
            if text[at..at + size] == text[start..end] {
                return (at, at + size);
            }
        }
        (start, end)
    }

    /// A URI that is nearly the one before: longer or shorter by a byte, moved by one, or as long and anywhere.
    fn near(&mut self, text: &[u8], (start, end): (usize, usize)) -> (usize, usize) {
        let size = end - start;
        let anywhere = self.below((text.len() - size) as u64 + 1) as usize;
        let (start, end) = match self.below(8) {
            0 => (start, end + 1),
            1 => (start + 1, end),
            2 => (start, end.saturating_sub(1)),
            3 => (start.saturating_sub(1), end),
            4 => (start + 1, end + 1),
            _ => (anywhere, anywhere + size),
        };
        let end = end.min(text.len());
        (start.min(end), end)
    }

    fn uri(&mut self, text: &[u8], style: &Style, before: Option<(usize, usize)>) -> (usize, usize) {
        match before {
            Some(before) if !self.one_in(style.other_uris) => match self.below(3) {
                0 => before,
                _ => self.same_bytes(text, before),
            },
            Some(before) if self.one_in(2) => self.near(text, before),
            _ => {
                let (start, end) = self.span(text);
                match self.below(8) {
                    0 => (end, end),
                    // short ones stand at several places
                    1..=5 => (start, end.min(start + 3)),
                    _ => (start, end),
                }
            }
        }
    }

    fn size(&mut self, style: &Style) -> u64 {
        match style.sizes {
            0 => self.below(10),
            1 => self.any_size(u64::MAX) - 1,
            2 => self.of(&[u64::MAX, u64::MAX - 1, 0, 0, 1, 1 << 63, (1 << 63) - 1, 1 << 62]),
            // a chain passes 2^64 after about so many clips
            many => u64::MAX / many - self.below(3) + self.below(3),
        }
    }

    fn style(&mut self) -> Style {
        Style {
            offsets: self.of(&[2, 4, 8, 50]),
            gaps: self.of(&[3, 8, 20, 100]),
            other_uris: self.of(&[1, 3, 8, 100]),
            sizes: self.of(&[0, 0, 1, 2, 2, 3, 4, 6]),
        }
    }

    /// A list that keeps rule 9. Words that no rule looks at are anything.
    fn reel(&mut self, text: Vec<u8>, clips: usize, style: &Style) -> Reel {
        let mut words = Vec::new();
        let mut before = None;
        for k in 0..clips {
            let (start, end) = self.uri(&text, style, before);
            before = Some((start, end));
            let range = !self.one_in(style.gaps);
            let offset = if range && k == 0 { !self.one_in(4) } else { self.one_in(style.offsets) };
            let mut record: Vec<u64> = self.out(CLIP_WORDS as u64);
            record[URI_START] = start as u64;
            record[URI_END] = end as u64;
            record[FLAGS] = u64::from(range) * HAS_RANGE + u64::from(offset) * HAS_OFFSET + 4 * self.below(16);
            if range {
                record[RANGE_LENGTH] = self.size(style);
            }
            if offset {
                record[RANGE_OFFSET] = self.size(style);
            }
            words.extend(record);
        }
        Reel { text, clips: clips as u64, words }
    }

    /// Words behind the last clip that counts: a few, or whole records, whatever they say.
    fn behind(&mut self, reel: &mut Reel) {
        let most = self.of(&[3, 17, 60]);
        let more = self.below(most);
        let words = self.out(more);
        reel.words.extend(words);
    }

    /// A clip with a beginning gets the length with which it ends at 2^64 - 1, or a byte before or behind that. The next one
    /// perhaps gets the length 0.
    fn fill(&mut self, reel: &mut Reel, clip: usize) {
        if !reel.is_sub_range(clip) {
            return;
        }
        if let Ok((_, start)) = reel.beginning(clip) {
            let left = LARGEST.saturating_sub(start) as u64;
            let length = self.of(&[left, left, left.saturating_add(1), left.saturating_add(1), left.saturating_sub(1)]);
            reel.words[CLIP_WORDS * clip + RANGE_LENGTH] = length;
        }
        let next = clip + 1;
        if self.one_in(2) && next < reel.clips as usize && reel.is_sub_range(next) {
            reel.words[CLIP_WORDS * next + RANGE_LENGTH] = 0;
        }
    }

    /// Some table for all windows: just enough words, one fewer, more, any fewer.
    fn room(&mut self, clips: u64) -> Call {
        let rooms = [
            4 * clips,
            4 * clips,
            4 * clips + 1,
            4 * clips + self.below(9),
            (4 * clips).saturating_sub(1),
            self.below(4 * clips + 1),
        ];
        let words = self.of(&rooms);
        Call::AllWindows { out: self.out(words) }
    }

    /// A clip that is not there: the next one, a far one, or one whose seventeenfold, cut to 64 bits, is within the table.
    fn no_clip(&mut self, clips: u64, words: usize) -> Call {
        let wraps = self.below(words as u64 + 1).wrapping_mul(SEVENTEENTH);
        let clip = self.of(&[clips, clips + 1, u64::MAX, 1 << 32, 1 << 63, wraps, wraps]);
        Call::Window { clip: clip.max(clips) }
    }
}

// ---------------------------------------------------------------------------------------------------------------
// What is called
// ---------------------------------------------------------------------------------------------------------------

/// Small lists, each asked for every clip, for one that is not there, and for all windows.
fn small(calls: &mut Calls, dice: &mut Dice) {
    for _ in 0..20 {
        let size = if dice.one_in(8) { dice.any_size(300) } else { dice.below(16) };
        let text = dice.text(size as usize);
        let clips = dice.of(&[1, 2, 3, 4, 5, 6, 8, 12]);
        let style = dice.style();
        let mut reel = dice.reel(text, clips, &style);
        if dice.one_in(2) {
            let clip = dice.below(clips as u64) as usize;
            dice.fill(&mut reel, clip);
        }
        if dice.one_in(3) {
            dice.behind(&mut reel);
        }
        // clips behind the count are not judged, and not counted
        if dice.one_in(8) {
            reel.clips = dice.below(clips as u64 + 1);
        }
        for clip in 0..reel.clips {
            calls.make(&reel, &Call::Window { clip });
        }
        if dice.one_in(3) {
            let call = dice.no_clip(reel.clips, reel.words.len());
            calls.make(&reel, &call);
        }
        for _ in 0..2 {
            let call = dice.room(reel.clips);
            calls.make(&reel, &call);
        }
    }
}

/// Longer lists, of which every clip is asked.
fn chains(calls: &mut Calls, dice: &mut Dice) {
    let size = dice.any_size(60) as usize;
    let text = dice.text(size);
    let clips = 10 + dice.any_size(110);
    let breaks = dice.of(&[60, 300, 1_000]);
    let sizes = dice.of(&[0, 0, 1, 2, clips / 2 + 3, clips + 3]);
    let mut reel = dice.reel(text, clips as usize, &Style { offsets: breaks, gaps: breaks, other_uris: breaks, sizes });
    if dice.one_in(2) {
        let clip = dice.below(clips) as usize;
        dice.fill(&mut reel, clip);
    }
    for clip in 0..clips {
        calls.make(&reel, &Call::Window { clip });
    }
    let call = dice.room(clips);
    calls.make(&reel, &call);
}

/// One thing is made hostile.
fn break_reel(dice: &mut Dice, reel: &mut Reel) {
    let held = reel.words.len() / CLIP_WORDS;
    let length = reel.text.len() as u64;
    let some_clip = dice.below(held.max(1) as u64) as usize;
    let first = CLIP_WORDS * some_clip;
    match dice.below(9) {
        // a count: fewer, one too many, or one whose seventeenfold, cut to 64 bits, is within the table
        0 => {
            let wraps = dice.below(reel.words.len() as u64 + 1).wrapping_mul(SEVENTEENTH);
            let counts =
                [0, some_clip as u64, held as u64 + 1, u64::MAX, 1 << 60, u64::MAX / 17 + 1, wraps, wraps, 1 << 32];
            reel.clips = dice.of(&counts);
        }
        // a table that is short by a word, or by more
        1 => {
            let left = reel.words.len() as u64;
            let gone = if dice.one_in(2) { 1 } else { dice.below(left + 1) };
            reel.words.truncate(left.saturating_sub(gone) as usize);
        }
        2 | 3 if held > 0 => {
            let flags = [
                dice.below(70),
                FLAG_LIMIT,
                FLAG_LIMIT - 1,
                FLAG_LIMIT + 1,
                67,
                1 << 32,
                (1 << 32) + 3,
                1 << 63,
                u64::MAX,
                dice.roll(),
            ];
            reel.words[first + FLAGS] = dice.of(&flags);
        }
        // a URI that ends at the text's end, or just past it, or far
        4 | 5 if held > 0 => {
            let ends = [length, length + 1, length + 1, length + 2, length + (1 << 32), u64::MAX, dice.roll(), 1 << 63];
            let end = dice.of(&ends);
            reel.words[first + URI_END] = end;
            if dice.one_in(3) {
                reel.words[first + URI_START] = end.saturating_sub(dice.below(2));
            }
        }
        // a URI that starts at its end, or just past it, or far
        6 | 7 if held > 0 => {
            let end = reel.words[first + URI_END];
            let starts = [
                end,
                end.saturating_add(1),
                end.saturating_add(1),
                end.saturating_add(2),
                u64::MAX,
                dice.roll(),
                1 << 63,
            ];
            reel.words[first + URI_START] = dice.of(&starts);
        }
        // the text loses its last bytes
        _ => reel.text.truncate(length.saturating_sub(1 + dice.below(3)) as usize),
    }
}

/// Lists with up to three things wrong, or right all the same.
fn hostile(calls: &mut Calls, dice: &mut Dice) {
    for _ in 0..40 {
        let size = dice.below(12) as usize;
        let text = dice.text(size);
        let clips = dice.below(7) as usize;
        let style = dice.style();
        let mut reel = dice.reel(text, clips, &style);
        if dice.one_in(3) {
            dice.behind(&mut reel);
        }
        for _ in 0..1 + dice.below(3) {
            break_reel(dice, &mut reel);
        }
        let held = (reel.words.len() / CLIP_WORDS) as u64;
        for _ in 0..3 {
            let clip = dice.below(held.max(1) + 1);
            calls.make(&reel, &Call::Window { clip });
        }
        if dice.one_in(2) {
            let call = dice.no_clip(reel.clips.min(held), reel.words.len());
            calls.make(&reel, &call);
        }
        let call = dice.room(held);
        calls.make(&reel, &call);
    }
}

/// Texts of 65,536 bytes, some more, some fewer, with URIs at their end and of any length.
fn long_texts(calls: &mut Calls, dice: &mut Dice) {
    for _ in 0..4 {
        let sizes =
            [MOST_BYTES, MOST_BYTES, MOST_BYTES - 1, MOST_BYTES + 1, MOST_BYTES + 1, MOST_BYTES + 1, MOST_BYTES + 2];
        let size = if dice.one_in(40) { dice.of(&[70_000, RECORD_BYTES]) } else { dice.of(&sizes) };
        let text = dice.text(size);
        let clips = 1 + dice.below(5) as usize;
        let style = dice.style();
        let mut reel = dice.reel(text, clips, &style);
        for clip in 0..clips {
            if dice.one_in(4) {
                let ends = [size as u64, size as u64, size as u64 + 1, MOST_BYTES as u64, MOST_BYTES as u64 + 1];
                reel.words[CLIP_WORDS * clip + URI_END] = dice.of(&ends);
            }
        }
        if dice.one_in(4) {
            break_reel(dice, &mut reel);
        }
        for _ in 0..3 {
            let clip = dice.below(clips as u64 + 1);
            calls.make(&reel, &Call::Window { clip });
        }
        let call = dice.room(clips as u64);
        calls.make(&reel, &call);
    }
}

/// A list of up to so many clips as a record holds, with long chains.
fn long_lists(calls: &mut Calls, dice: &mut Dice) {
    let size = dice.any_size(60) as usize;
    let text = dice.text(size);
    let clips = 100 + dice.any_size((RECORD_WORDS / CLIP_WORDS - 100) as u64) as usize;
    let breaks = dice.of(&[30, 300, 3_000, 100_000, 100_000]);
    let style = Style {
        offsets: breaks,
        gaps: breaks,
        other_uris: breaks,
        sizes: dice.of(&[0, 0, 1, 2, clips as u64 / 2 + 3, clips as u64 + 3, 2 * clips as u64]),
    };
    let mut reel = dice.reel(text, clips, &style);
    let full = dice.below(clips as u64);
    if dice.one_in(2) {
        dice.fill(&mut reel, full as usize);
    }
    if dice.one_in(4) {
        break_reel(dice, &mut reel);
    }
    let last = clips as u64 - 1;
    for clip in [full.saturating_sub(1), full, full + 1, last, last + 1] {
        calls.make(&reel, &Call::Window { clip });
    }
    for _ in 0..if clips > 500 { 4 } else { 40 } {
        let clip = dice.below(clips as u64);
        calls.make(&reel, &Call::Window { clip });
    }
    for _ in 0..2 {
        let call = dice.room(clips as u64);
        calls.make(&reel, &call);
    }
}

/// The longest list that a record can have, and two hundred clips whose URI is the longest text. Each is one chain: from its
/// offset to an end of 2^64 - 1 exactly, then to one byte behind that, then without the offset.
fn known_lists(calls: &mut Calls, dice: &mut Dice) {
    let clips = RECORD_WORDS / CLIP_WORDS;
    let style = Style { offsets: u64::MAX, gaps: u64::MAX, other_uris: u64::MAX, sizes: clips as u64 + 1 };
    for (size, many) in [(40, clips), (MOST_BYTES, 200)] {
        let text = dice.text(size);
        let mut reel = dice.reel(text, many, &style);
        for clip in 0..many {
            reel.words[CLIP_WORDS * clip + FLAGS] = HAS_RANGE;
            if size == MOST_BYTES {
                reel.words[CLIP_WORDS * clip + URI_START] = 0;
                reel.words[CLIP_WORDS * clip + URI_END] = MOST_BYTES as u64;
            }
        }
        let last = many - 1;
        let others: u128 = (0..last).map(|clip| reel.n(clip)).sum();
        let length = (LARGEST - others) as u64;
        reel.words[CLIP_WORDS * last + RANGE_LENGTH] = length;
        for (flags, offset) in [(HAS_RANGE + HAS_OFFSET, 0), (HAS_RANGE + HAS_OFFSET, 1), (HAS_RANGE, 0)] {
            reel.words[FLAGS] = flags;
            reel.words[RANGE_OFFSET] = offset;
            for clip in [0, 1, last as u64 - 1, last as u64, many as u64] {
                calls.make(&reel, &Call::Window { clip });
            }
            for words in [4 * many - 1, 4 * many, RECORD_WORDS] {
                calls.make(&reel, &Call::AllWindows { out: dice.out(words as u64) });
            }
        }
    }
}

fn main() {
    let (run, mut dice) = Run::of_arguments("reels");
    let mut calls = Calls { run, tally: Tally::default() };
    // a short run has more use for other lists
    if calls.run.count >= 50_000 {
        known_lists(&mut calls, &mut dice);
    }
    while !calls.run.done() {
        match dice.below(40) {
            0..=14 => small(&mut calls, &mut dice),
            15..=24 => hostile(&mut calls, &mut dice),
            25..=31 => chains(&mut calls, &mut dice),
            32..=37 => long_texts(&mut calls, &mut dice),
            _ => long_lists(&mut calls, &mut dice),
        }
    }
    calls.run.end();
    calls.tally.print();
}
