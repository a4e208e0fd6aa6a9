//! The exact clock and the byte window, over a table of clips.
use crate::refusal::{check, Refusal};
use crate::tables::Packed;
use crate::{cue, ffi, layout, List};
use std::iter::FusedIterator;
use std::ops::Range;

/// A playlist's clips as the table that the library's calls are over. A [`List`] has the same calls, without packing.
///
/// A list is played turn after turn; its turns and its clips are counted from 0, its ticks from the beginning of turn 0.
/// Each call walks the table from its beginning. So for the starts of all clips take [`Clips::starts`], which is one call:
/// [`Clips::start_tick`] for one clip after the other would walk the table once for every clip. In the same way
/// [`Clips::windows`] gives all windows.
#[derive(Clone, Debug, PartialEq, Eq)]
pub struct Clips {
    // What the words are places in: the window goes by the bytes of URIs.
    text: Vec<u8>,
    words: Vec<u64>,
}

impl Clips {
    pub(crate) fn new(packed: Packed) -> Clips {
        Clips { text: packed.text, words: packed.clips }
    }

    fn bytes(&self) -> &[u8] {
        &self.text
    }

    fn words(&self) -> &[u64] {
        &self.words
    }
}

/// The calls over a table of clips, for a type that has one, in its `words` and over its `bytes`.
macro_rules! calls_over_clips {
    ($($type:tt)*) => {
        impl $($type)* {
            /// How many clips there are.
            pub fn len(&self) -> usize {
                self.words().len() / layout::CLIP_WORDS
            }

            /// Whether there is none.
            pub fn is_empty(&self) -> bool {
                self.len() == 0
            }

            /// All lengths together, in ns. Refusals: 9, 11.
            pub fn total(&self) -> Result<u64, Refusal> {
                given(ffi::total(self.len(), self.words()))
            }

            /// A clip's start within its turn, in ns, exact: the lengths before it together. Refusals: 9, 11, 14.
            pub fn start_ns(&self, clip: usize) -> Result<u64, Refusal> {
                given(ffi::start_ns(self.len(), self.words(), clip))
            }

            /// The tick at which a clip starts in a turn, at `rate` ticks a second: the last whole tick that is not
            /// after the exact moment. Refusals: 9, 11, 12, 13, 14.
            pub fn start_tick(&self, rate: u64, turn: u64, clip: usize) -> Result<u64, Refusal> {
                given(ffi::start_tick(self.len(), self.words(), rate, turn, clip))
            }

            /// A clip's ticks in a turn: the next start minus its own, so that a turn's ticks add up. Refusals: 9, 11,
            /// 12, 13, 14.
            pub fn clip_ticks(&self, rate: u64, turn: u64, clip: usize) -> Result<u64, Refusal> {
                given(ffi::clip_ticks(self.len(), self.words(), rate, turn, clip))
            }

            /// All starts of a turn at `rate` ticks a second, in the order of the clips: what [`Clips::start_ns`] and
            /// [`Clips::start_tick`] give for each. One call makes them all, before the first is taken. Refusals: 9,
            /// 11, 12, 13.
            pub fn starts(&self, rate: u64, turn: u64) -> Result<Starts, Refusal> {
                let mut words = vec![0; self.len().saturating_mul(layout::START_WORDS)];
                let answer = ffi::starts(self.len(), self.words(), rate, turn, &mut words);
                check(answer.number, answer.place)?;
                Ok(Starts { words, left: 0..answer.clips as usize })
            }

            /// Which clip is on at a tick, at `rate` ticks a second: the last pair, by turn then clip, up to turn
            /// 999,999, whose start tick is not after the tick. So of clips that start at one tick the last is on, and
            /// a clip of length 0 never is. Refusals: 9, 11, 12, 17, 18.
            pub fn clip_at(&self, rate: u64, tick: u64) -> Result<On, Refusal> {
                let answer = ffi::clip_at(self.len(), self.words(), rate, tick);
                check(answer.number, answer.place)?;
                Ok(On { turn: answer.turn, clip: answer.clip as usize })
            }

            /// Which clip is on at a tick ([`Clips::clip_at`]), since when, and for how long. Refusals: 9, 11, 12, 17,
            /// 18.
            pub fn playing_at(&self, rate: u64, tick: u64) -> Result<Playing, Refusal> {
                let answer = ffi::playing_at(self.len(), self.words(), rate, tick);
                check(answer.number, answer.place)?;
                Ok(Playing { turn: answer.turn, clip: answer.clip as usize, since: answer.since, left: answer.left })
            }

            /// The bytes of its resource that a clip's range names, if it has one (RFC 8216, 4.3.2.2): from its offset,
            /// or without one from where the window of the clip just before ends. That clip must have a range, and the
            /// same URI, byte for byte. No clip is skipped, and a discontinuity breaks no chain.
            ///
            /// Refusals: 1 where the list's strings are above 65,535 bytes together; 9; 14; 16 where a range without an
            /// offset has no such clip before it, or one that is refused by 16 itself; 15 where the end is above
            /// 2^64 - 1.
            pub fn window(&self, clip: usize) -> Result<Option<Range<u64>>, Refusal> {
                named(ffi::window(self.bytes(), self.len(), self.words(), clip))
            }

            /// The windows of all clips, in their order: what [`Clips::window`] gives for each, so that one refused by
            /// 15 or 16 stops none behind it. One call makes them all, before the first is taken. Refusals: 1 as of
            /// [`Clips::window`], 9.
            pub fn windows(&self) -> Result<Windows, Refusal> {
                let mut words = vec![0; self.len().saturating_mul(layout::WINDOW_WORDS)];
                let answer = ffi::windows(self.bytes(), self.len(), self.words(), &mut words);
                check(answer.number, answer.place)?;
                Ok(Windows { words, left: 0..answer.clips as usize })
            }

            /// The cue file that a motor board reads (`docs/CUE-FILE.md`): each clip's start in ns and its URI.
            /// [`crate::cues`] and [`crate::read_cue`] read it. Of the last clip the length is not in it.
            ///
            /// Refusals: 1 where the list's strings are above 65,535 bytes together; 9; 11; 33 where there are over
            /// 65,535 clips.
            pub fn cue_file(&self) -> Result<Vec<u8>, Refusal> {
                cue::written(self.bytes(), self.len(), self.words())
            }

            /// Writes the cue file into lent bytes, and gives how many it has. Bytes behind it stay as they were; a
            /// refused call changes none. Refusals: those of [`Clips::cue_file`], and then 10 where the file is longer
            /// than `out`.
            pub fn write_cue_file(&self, out: &mut [u8]) -> Result<usize, Refusal> {
                cue::write(self.bytes(), self.len(), self.words(), out)
            }
        }
    };
}

calls_over_clips!(Clips);
calls_over_clips!(List<'_, '_>);

fn given(answer: ffi::Value) -> Result<u64, Refusal> {
    check(answer.number, answer.place)?;
    Ok(answer.value)
}

fn named(answer: ffi::Window) -> Result<Option<Range<u64>>, Refusal> {
    check(answer.number, answer.place)?;
    Ok((answer.present != 0).then_some(answer.start..answer.end))
}

/// A table of records, one for each clip, is taken from both ends; its `at` makes the item of a clip.
macro_rules! taken_from_both_ends {
    ($table:ty, $item:ty) => {
        impl Iterator for $table {
            type Item = $item;

            fn next(&mut self) -> Option<$item> {
                let clip = self.left.next()?;
                self.at(clip)
            }

            fn size_hint(&self) -> (usize, Option<usize>) {
                self.left.size_hint()
            }
        }

        impl DoubleEndedIterator for $table {
            fn next_back(&mut self) -> Option<$item> {
                let clip = self.left.next_back()?;
                self.at(clip)
            }
        }

        impl ExactSizeIterator for $table {}

        impl FusedIterator for $table {}
    };
}

/// When a clip starts in a turn.
#[derive(Clone, Copy, Debug, PartialEq, Eq, PartialOrd, Ord, Hash)]
pub struct Start {
    /// Within the turn, in ns, exact.
    pub ns: u64,
    /// The start tick, counted from the beginning of turn 0.
    pub tick: u64,
}

/// The starts of a turn, one for each clip, in the order of the clips ([`Clips::starts`]).
#[derive(Clone, Debug)]
pub struct Starts {
    words: Vec<u64>,
    left: Range<usize>,
}

impl Starts {
    fn at(&self, clip: usize) -> Option<Start> {
        let record = self.words.chunks_exact(layout::START_WORDS).nth(clip)?;
        Some(Start { ns: *record.get(layout::START_NS)?, tick: *record.get(layout::START_TICK)? })
    }
}

taken_from_both_ends!(Starts, Start);

/// The windows of all clips, in their order ([`Clips::windows`]): of each what [`Clips::window`] gives.
#[derive(Clone, Debug)]
pub struct Windows {
    words: Vec<u64>,
    left: Range<usize>,
}

impl Windows {
    fn at(&self, clip: usize) -> Option<Result<Option<Range<u64>>, Refusal>> {
        let record = self.words.chunks_exact(layout::WINDOW_WORDS).nth(clip)?;
        Some(named(ffi::Window {
            number: *record.get(layout::WINDOW_NUMBER)?,
            place: 0, // 15 and 16 have none
            present: *record.get(layout::WINDOW_PRESENT)?,
            start: *record.get(layout::WINDOW_START)?,
            end: *record.get(layout::WINDOW_END)?,
        }))
    }
}

taken_from_both_ends!(Windows, Result<Option<Range<u64>>, Refusal>);

/// A clip that is on. One pair is less than another where it is played before it: by turn, then by clip.
#[derive(Clone, Copy, Debug, PartialEq, Eq, PartialOrd, Ord, Hash)]
pub struct On {
    /// The turn, 0 to 999,999.
    pub turn: u64,
    /// The clip's index, as in [`crate::MediaPlaylist::segments`].
    pub clip: usize,
}

/// A clip that is on, since when, and for how long. `since + left` is what [`Clips::clip_ticks`] gives for it.
#[derive(Clone, Copy, Debug, PartialEq, Eq, Hash)]
pub struct Playing {
    /// The turn, 0 to 999,999.
    pub turn: u64,
    /// The clip's index, as in [`crate::MediaPlaylist::segments`].
    pub clip: usize,
    /// How many ticks ago it started.
    pub since: u64,
    /// In how many ticks the next start is, at least 1; after the last clip of turn 999,999 that of turn 1,000,000. This
    /// clip stays on until then.
    pub left: u64,
}
