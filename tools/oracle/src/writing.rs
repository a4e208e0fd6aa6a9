//! The crate's writer behind op 3. It is asked for the tables of a reading alone: the list that the crate reads from the
//! text must be the one that the numbers and words show, and that list is written.

use crate::parse_media_playlist;
use crate::playlist::MediaPlaylist;
use crate::reading::{read, shown, CLIP_WORDS, NS, TAG_WORDS};

/// What op 3 hands in.
pub struct Asked {
    pub text: Vec<u8>,
    pub head: [u64; 11],
    pub clip_count: u64,
    pub clips: Vec<u64>,
    pub tag_count: u64,
    pub tags: Vec<u64>,
    pub output: Vec<u8>,
}

/// The probe's line: refusals 1 and 10, or the length; and the output after the call.
pub fn write_line(mut asked: Asked) -> String {
    let (number, length) = if asked.text.len() > 65_536 {
        (1, 0)
    } else {
        let written = written(&asked);
        if written.len() > asked.output.len() {
            (10, 0)
        } else {
            asked.output[..written.len()].copy_from_slice(&written);
            (0, written.len())
        }
    };
    let hex = asked.output.iter().map(|byte| format!("{:02x}", byte)).collect::<String>();
    format!("3 {} 0 {} | {}", number, length, if hex.is_empty() { "-" } else { &hex })
}

/// What the crate writes, each length's digits being those of its ns: the one difference that demand 2 allows.
fn written(asked: &Asked) -> Vec<u8> {
    let text = &asked.text;
    let reading = read(text).unwrap_or_else(|_| panic!("op 3 on a refused text: {}", shown(text)));
    assert_eq!(asked.head, reading.head, "{}", shown(text));
    assert_eq!(asked.clip_count, reading.clips.len() as u64, "{}", shown(text));
    assert_eq!(asked.tag_count, reading.tags.len() as u64, "{}", shown(text));
    assert_eq!(asked.clips[..CLIP_WORDS * reading.clips.len()], reading.clips.concat(), "{}", shown(text));
    assert_eq!(asked.tags[..TAG_WORDS * reading.tags.len()], reading.tags.concat(), "{}", shown(text));
    let (_, list) = parse_media_playlist(text).expect("it was read");

    // The segments' texts stand between the head's lines and ENDLIST.
    let mut by_crate = whole(&MediaPlaylist { segments: Vec::new(), end_list: false, ..list.clone() });
    let mut exact = by_crate.clone();
    for (segment, clip) in list.segments.iter().zip(&reading.clips) {
        let mut lines = Vec::new();
        segment.write_to(&mut lines).unwrap();
        by_crate.extend_from_slice(&lines);
        exact.extend_from_slice(&with_digits(text, lines, clip[NS], segment.duration));
    }
    if list.end_list {
        by_crate.extend_from_slice(b"#EXT-X-ENDLIST\n");
        exact.extend_from_slice(b"#EXT-X-ENDLIST\n");
    }
    assert_eq!(by_crate, whole(&list), "{}", shown(text));
    exact
}

fn whole(list: &MediaPlaylist) -> Vec<u8> {
    let mut bytes = Vec::new();
    list.write_to(&mut bytes).unwrap();
    bytes
}

/// The last line but one of a segment is its EXTINF, since neither a title nor a URI holds a line end.
fn with_digits(text: &[u8], lines: Vec<u8>, ns: u64, duration: f32) -> Vec<u8> {
    let ends: Vec<usize> = (0..lines.len()).filter(|&i| lines[i] == b'\n').collect();
    let start = if ends.len() > 2 { ends[ends.len() - 3] + 1 } else { 0 };
    let digits = start + b"#EXTINF:".len();
    assert!(lines[start..].starts_with(b"#EXTINF:"), "{}", shown(text));
    let comma = digits + lines[digits..].iter().position(|&byte| byte == b',').unwrap();
    let number = std::str::from_utf8(&lines[digits..comma]).unwrap();
    assert_eq!(number.parse(), Ok(duration), "{}", shown(text));
    let mut exact = format!("{}.{:09}", ns / 1_000_000_000, ns % 1_000_000_000);
    exact.truncate(exact.trim_end_matches('0').trim_end_matches('.').len());
    [&lines[..digits], exact.as_bytes(), &lines[comma..]].concat()
}
