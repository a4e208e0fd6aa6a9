//! Prints what is on at a tick of a playlist that is played turn after turn: the turn, the clip's number from 0, its URI,
//! how many ticks ago it started, and in how many the next one starts.
//!
//!     now [RATE [TICK [FILE]]]
//!
//! The rate is 100 ticks a second and the tick 0 where they are not given; without a file the playlist
//! is standard input. The exit status is as `shared` has it.
use ledgerfern::{parse_media_playlist_res, Refusal};

mod shared;

fn lines(text: &[u8], [rate, tick]: [u64; 2]) -> Result<String, Refusal> {
    let list = parse_media_playlist_res(text)?;
    let now = list.playing_at(rate, tick)?;
    let uri = list.segments.get(now.clip).map_or("", |segment| &segment.uri);
    Ok(format!("turn\t{}\nclip\t{}\nuri\t{}\nsince\t{}\nleft\t{}\n", now.turn, now.clip, uri, now.since, now.left))
}

pub fn main() {
    let usage = "usage: now [RATE [TICK [FILE]]], or < list.m3u8";
    shared::Program { name: "now", usage, numbers: [("RATE", 100), ("TICK", 0)], lines }.main()
}
