//! Prints which bytes to fetch for each clip of a playlist, and its URI: `START-LAST`, the form that HTTP's header Range
//! takes behind `bytes=`, the last byte included.
//!
//!     reel [FILE]
//!
//! A clip without a range is `whole`. A range of no bytes is `empty`, since HTTP has no form for it. A clip whose bytes
//! cannot be told has the refusal in its line, and the others follow. Without a file the playlist is standard input. The
//! exit status is as `shared` has it.
use ledgerfern::{parse_media_playlist_res, Refusal};
use std::ops::Range;

mod shared;

fn bytes(window: Result<Option<Range<u64>>, Refusal>) -> String {
    match window {
        Err(refusal) => format!("refused {}: {}", refusal.number, refusal.reason()),
        Ok(None) => "whole".into(),
        Ok(Some(bytes)) if bytes.is_empty() => "empty".into(),
        Ok(Some(bytes)) => format!("{}-{}", bytes.start, bytes.end - 1),
    }
}

fn lines(text: &[u8], []: [u64; 0]) -> Result<String, Refusal> {
    let list = parse_media_playlist_res(text)?;
    let mut lines = String::new();
    for (window, segment) in list.windows()?.zip(&list.segments) {
        lines += &format!("{}\t{}\n", bytes(window), segment.uri);
    }
    Ok(lines)
}

pub fn main() {
    let usage = "usage: reel [FILE], or < list.m3u8";
    shared::Program { name: "reel", usage, numbers: [], lines }.main()
}
