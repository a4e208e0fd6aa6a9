//! HLS media playlists read and written by a proved library, with an exact clock, in the shapes of m3u8-rs 6.0.1.
//!
//! The work is done by `libledgerfern.a`, whose calls are proved to answer every input, to end, and to touch only what
//! they are lent. This crate lends them tables, and makes values of what comes back: those that a user of m3u8-rs knows, or
//! values that borrow from the text. It has no dependency, does not panic on any input, and its unsafe code is in `ffi`: the
//! fifteen calls, and the step from bytes that were read to a `str`.
//!
//! ```no_run
//! let text = std::fs::read("list.m3u8").unwrap_or_default();
//! match ledgerfern::parse_media_playlist_res(&text) {
//!     Ok(list) => {
//!         for segment in &list.segments {
//!             println!("{} {} ns", segment.uri, segment.duration_ns);
//!         }
//!         let clips = list.clips();
//!         println!("clip 1 of turn 2: {:?}", clips.start_tick(100, 2, 1));
//!         println!("on at tick 900: {:?}", clips.clip_at(100, 900));
//!         println!("bytes of clip 1: {:?}", clips.window(1));
//!         println!("cue file: {:?}", clips.cue_file());
//!     }
//!     Err(refusal) => println!("{}", refusal),
//! }
//! ```
//!
//! # Without owned values
//!
//! A [`Reader`] keeps the tables from one text to the next, and the [`Clip`]s of a [`List`] that it read are made where they
//! are taken, of parts of the text: nothing is allocated for them. This takes about half the time.
//!
//! ```
//! let text = "#EXTM3U\n#EXTINF:9.009,bird\na.ts\n#EXTINF:0.004,\nb.ts\n";
//! let mut reader = ledgerfern::Reader::new();
//! let list = reader.read(text)?;
//! let clips: Vec<_> = list.clips().map(|clip| (clip.uri, clip.title, clip.duration_ns)).collect();
//! assert_eq!(clips, [("a.ts", Some("bird"), 9_009_000_000), ("b.ts", None, 4_000_000)]);
//! assert_eq!(list.start_tick(100, 0, 1)?, 900);
//! # Ok::<(), ledgerfern::Refusal>(())
//! ```
//!
//! # What differs from m3u8-rs
//!
//! - An error is a [`Refusal`]: a number and a place in the text. nom's error kinds are not there.
//! - Some texts are refused that m3u8-rs reads: above 65,536 bytes, not UTF-8, master playlists, the tags KEY, START,
//!   PROGRAM-DATE-TIME and DATERANGE with their colon, and lengths of over nine digits on a side. So the fields `key`,
//!   `program_date_time` and `daterange` of a segment and `start` of a playlist are not there. Nor is the playlist's
//!   `unknown_tags`, which m3u8-rs never fills: unknown tags are those of a segment.
//! - A segment has its length as exact nanoseconds too, [`MediaSegment::duration_ns`].
//! - A map keeps its attribute list as text, [`Map::attributes`], and not a `HashMap` of the attributes besides URI and
//!   BYTERANGE.
//! - Master playlists, `parse_playlist` and `WRITE_OPT_FLOAT_PRECISION` are left out.
#![deny(unsafe_code)]
#![forbid(unsafe_op_in_unsafe_fn)]
#![warn(missing_docs)]
// Nothing here can panic: no index, no sum that overflows, nothing unwrapped.
#![warn(
    clippy::indexing_slicing,
    clippy::arithmetic_side_effects,
    clippy::unwrap_used,
    clippy::expect_used,
    clippy::panic
)]

mod clock;
mod cue;
#[allow(unsafe_code)]
mod ffi;
mod layout;
mod parser;
mod playlist;
mod refusal;
mod tables;
mod view;

pub use clock::{Clips, On, Playing, Start, Starts, Windows};
pub use cue::{cues, read_cue, Cue, Cues};
pub use layout::{MOST_CLIPS, MOST_TAGS};
pub use parser::{is_master_playlist, is_master_playlist_res, parse_media_playlist, parse_media_playlist_res};
pub use playlist::{ByteRange, ExtTag, Map, MediaPlaylist, MediaPlaylistType, MediaSegment};
pub use refusal::Refusal;
pub use view::{Clip, ExtTagRef, ExtTags, ExtTagsIter, List, ListClips, ListType, MapRef, Reader};
