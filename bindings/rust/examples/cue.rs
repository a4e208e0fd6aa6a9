//! Makes the cue file of a playlist, and prints what a motor board finds in it of one clip: the clip's number from 0, its
//! start in ns, its URI, and how many clips there are.
//!
//!     cue [CLIP [FILE]]
//!
//! The clip is 0 where it is not given; without a file the playlist is standard input. The exit status is as `shared` has
//! it.
use ledgerfern::{cues, parse_media_playlist_res, read_cue, Refusal};

mod shared;

fn lines(text: &[u8], [clip]: [u64; 1]) -> Result<String, Refusal> {
    let file = parse_media_playlist_res(text)?.cue_file()?;
    let cue = read_cue(&file, clip as usize)?;
    let uri = String::from_utf8_lossy(cue.uri);
    Ok(format!("clip\t{}\nstart\t{}\nuri\t{}\nclips\t{}\n", clip, cue.start_ns, uri, cues(&file)?.len()))
}

pub fn main() {
    let usage = "usage: cue [CLIP [FILE]], or < list.m3u8";
    shared::Program { name: "cue", usage, numbers: [("CLIP", 0)], lines }.main()
}
