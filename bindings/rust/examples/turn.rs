//! Prints a turn of a playlist: each clip's start tick and URI, then the total in ns.
//!
//!     turn [RATE [TURN [FILE]]]
//!
//! The rate is 100 ticks a second and the turn 0 where they are not given; without a file the playlist
//! is standard input. The exit status is as `shared` has it.
use ledgerfern::{parse_media_playlist_res, Refusal};

mod shared;

fn lines(text: &[u8], [rate, turn]: [u64; 2]) -> Result<String, Refusal> {
    let list = parse_media_playlist_res(text)?;
    let clips = list.clips();
    let mut lines = String::new();
    for (start, segment) in clips.starts(rate, turn)?.zip(&list.segments) {
        lines += &format!("{}\t{}\n", start.tick, segment.uri);
    }
    Ok(lines + &format!("total\t{}\n", clips.total()?))
}

pub fn main() {
    let usage = "usage: turn [RATE [TURN [FILE]]], or < list.m3u8";
    shared::Program { name: "turn", usage, numbers: [("RATE", 100), ("TURN", 0)], lines }.main()
}
