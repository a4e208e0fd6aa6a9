//! The cue file of the largest list, by the library and by plain C that checks nothing (plain.c).

use crate::layout::{CLIP_WORDS, LENGTH, TEXT_LIMIT, URI_END, URI_START};
use crate::lent::{self, Cue};

extern "C" {
    fn plain_cue_write(text: *const u8, count: usize, clips: *const u64, output: *mut u8) -> usize;
    fn plain_cue_read(file: *const u8, size: usize, clip: usize) -> Cue;
}

/// As many clips as a cue file holds.
pub const CLIPS: usize = 65_535;

/// The bytes of each URI: some name of a file. They overlap in the text, which has a byte for each clip.
const URI: usize = 24;

/// How many bytes the list's file has.
pub const FILE: usize = CLIPS * (10 + URI) + 12;

/// A table with clips of 3 to 10 s, whose URIs stand all over the longest text.
pub struct List {
    text: Vec<u8>,
    clips: Vec<u64>,
}

impl List {
    pub fn largest() -> List {
        let text = (0..TEXT_LIMIT).map(|k| b'a' + (k * 7 % 26) as u8).collect();
        let mut clips = vec![0; CLIPS * CLIP_WORDS];
        for (k, record) in clips.chunks_exact_mut(CLIP_WORDS).enumerate() {
            let start = k * 7919 % (TEXT_LIMIT - URI);
            record[URI_START] = start as u64;
            record[URI_END] = (start + URI) as u64;
            record[LENGTH] = 3_000_000_000 + k as u64 * 37_000_001 % 7_000_000_000;
        }
        List { text, clips }
    }

    /// The library judges text, table, total, widths and room, and then writes.
    pub fn write(&self, output: &mut [u8]) -> u64 {
        let written = lent::cue_write(&self.text, CLIPS, &self.clips, output);
        assert_eq!((written.number, written.length), (0, FILE as u64));
        written.length
    }

    /// Plain C writes.
    pub fn write_plainly(&self, output: &mut [u8]) -> usize {
        assert_eq!(output.len(), FILE);
        unsafe { plain_cue_write(self.text.as_ptr(), CLIPS, self.clips.as_ptr(), output.as_mut_ptr()) }
    }
}

/// The library judges the whole file, and then finds the last clip.
pub fn last(file: &[u8]) -> Cue {
    lent::cue_read(file, CLIPS - 1)
}

/// Plain C finds it.
pub fn last_plainly(file: &[u8]) -> Cue {
    assert_eq!(file.len(), FILE);
    unsafe { plain_cue_read(file.as_ptr(), file.len(), CLIPS - 1) }
}
