//! Why a call gives nothing.
use std::error::Error;
use std::fmt;

/// Why a call gives nothing: the number of the reason, and the place in the text that it names, or 0.
#[derive(Clone, Copy, Debug, PartialEq, Eq, Hash)]
pub struct Refusal {
    /// 1 to 22, or 33, as `include/ledgerfern.h` has them.
    pub number: u64,
    /// A place in the text, in bytes; 0 where the reason has none.
    pub place: usize,
}

impl Refusal {
    /// What the number stands for.
    pub fn reason(&self) -> &'static str {
        match self.number {
            1 => "the text is above 65,536 bytes",
            2 => "the text is not UTF-8",
            3 => "the text does not begin with #EXTM3U",
            4 => "it is a master playlist",
            5 => "it has a tag that is left out: KEY, START, PROGRAM-DATE-TIME or DATERANGE",
            6 => "a length has over nine digits before or after the point",
            7 => "the clip table is too short",
            8 => "the tag table is too short",
            9 => "a table breaks its rule",
            10 => "the output, or the table of starts or of windows, is too short",
            11 => "the total is above 10^15 ns",
            12 => "the rate is not 1 to 90,000",
            13 => "the turn is above 999,999",
            14 => "there is no such clip",
            15 => "the window ends above 2^64 - 1",
            16 => "the range has no offset, and no range of the same URI comes just before it",
            17 => "nothing plays: there are no clips, or the total is 0",
            18 => "the tick is at or past the start tick of turn 1,000,000",
            19 => "the cue file is shorter than its trailer",
            20 => "the cue file's version is not 1",
            21 => "a place, count or length in the cue file does not fit exactly",
            22 => "a start in the cue file is not 0 in the first clip, falls, is too late, or has ns of 10^9 or more",
            33 => "there are more clips, or a longer URI, than the fields of a cue file hold",
            _ => "unknown",
        }
    }
}

impl fmt::Display for Refusal {
    fn fmt(&self, f: &mut fmt::Formatter<'_>) -> fmt::Result {
        write!(f, "refused {} at {}: {}", self.number, self.place, self.reason())
    }
}

impl Error for Refusal {}

/// The refusals that say that a reader's tables are too short.
pub const CLIP_TABLE_SHORT: u64 = 7;
pub const TAG_TABLE_SHORT: u64 = 8;

/// The refusal that an answer's number and place say, if it is one.
pub fn check(number: u64, place: u64) -> Result<(), Refusal> {
    if number == 0 {
        return Ok(());
    }
    Err(Refusal { number, place: place as usize })
}
