//! Where each word of a record stands (crates/tables/src/layout.rt).

pub const CLIP_WORDS: usize = 17;
pub const URI_START: usize = 0;
pub const URI_END: usize = 1;
pub const LENGTH: usize = 2;
pub const BITS: usize = 3;
pub const TITLE_START: usize = 4;
pub const TITLE_END: usize = 5;
pub const FLAGS: usize = 6;
pub const RANGE_LENGTH: usize = 7;
pub const RANGE_OFFSET: usize = 8;
pub const MAP_URI_START: usize = 9;
pub const MAP_URI_END: usize = 10;
pub const MAP_RANGE_LENGTH: usize = 11;
pub const MAP_RANGE_OFFSET: usize = 12;
pub const MAP_LIST_START: usize = 13;
pub const MAP_LIST_END: usize = 14;
pub const FIRST_TAG: usize = 15;
pub const TAG_COUNT: usize = 16;

pub const TAG_WORDS: usize = 4;
pub const NAME_START: usize = 0;
pub const NAME_END: usize = 1;
pub const REST_START: usize = 2;
pub const REST_END: usize = 3;

pub const START_WORDS: usize = 2;
pub const START_NS: usize = 0;
pub const START_TICK: usize = 1;

pub const WINDOW_WORDS: usize = 4;
pub const WINDOW_NUMBER: usize = 0;
pub const WINDOW_PRESENT: usize = 1;
pub const WINDOW_START: usize = 2;
pub const WINDOW_END: usize = 3;

pub const HAS_RANGE: u64 = 1;
pub const HAS_RANGE_OFFSET: u64 = 2;
pub const HAS_DISCONTINUITY: u64 = 4;
pub const HAS_MAP: u64 = 8;
pub const HAS_MAP_RANGE: u64 = 16;
pub const HAS_MAP_OFFSET: u64 = 32;

/// The longest text that is read.
pub const TEXT_LIMIT: usize = 65_536;

/// No text has more clips.
pub const MOST_CLIPS: usize = 32_765;
/// No text has more unknown tags that belong to a clip.
pub const MOST_TAGS: usize = 9_361;
