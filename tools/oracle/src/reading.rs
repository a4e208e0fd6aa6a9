//! Document 01's answers, taken from what the crate's own functions return.
//!
//! The crate decides the verdict, what each step takes, every value, and where each of its parsers ends. Of 01's own
//! text there are the refusals, the record's layout and the exact ns. Where the crate hands back a `String` and
//! loses its place, the place is counted from the step's start and the bytes there are held against the `String`.

use crate::playlist::{ByteRange, MediaPlaylistType};
use crate::{
    contains_master_tag, float, is_master_playlist_tag_line, key_value_pair, key_value_pairs, media_playlist_tag,
    MediaPlaylistTag, SegmentTag,
};
use nom::character::complete::{multispace0, space0};
use nom::IResult;

pub struct Refusal {
    pub number: u64,
    pub place: usize,
}

fn refuse<A>(number: u64, place: usize) -> Result<A, Refusal> {
    Err(Refusal { number, place })
}

/// The head as the probe prints it: eleven numbers.
pub const VERSION_PRESENT: usize = 0;
pub const VERSION: usize = 1;
pub const TARGET: usize = 2;
pub const MEDIA_SEQUENCE: usize = 3;
pub const DISCONTINUITY_SEQUENCE: usize = 4;
pub const TYPE: usize = 5;
pub const TYPE_SPAN: usize = 6;
pub const END_LIST: usize = 8;
pub const I_FRAMES_ONLY: usize = 9;
pub const INDEPENDENT: usize = 10;

/// 01's clip record, and the record of an unknown tag.
pub const CLIP_WORDS: usize = 17;
pub const TAG_WORDS: usize = 4;
pub type ClipRecord = [u64; CLIP_WORDS];
pub type TagRecord = [u64; TAG_WORDS];

/// Where a clip's words stand.
pub const URI: usize = 0;
pub const NS: usize = 2;
pub const BITS: usize = 3;
pub const TITLE: usize = 4;
pub const FLAGS: usize = 6;
pub const RANGE: usize = 7;
pub const MAP_URI: usize = 9;
pub const MAP_RANGE: usize = 11;
pub const MAP_LIST: usize = 13;
pub const FIRST_TAG: usize = 15;
pub const TAGS: usize = 16;

pub const HAS_RANGE: u64 = 1;
pub const HAS_OFFSET: u64 = 2;
pub const DISCONTINUITY: u64 = 4;
pub const HAS_MAP: u64 = 8;
pub const HAS_MAP_RANGE: u64 = 16;
pub const HAS_MAP_OFFSET: u64 = 32;

#[derive(Default)]
pub struct Reading {
    pub head: [u64; 11],
    pub clips: Vec<ClipRecord>,
    pub tags: Vec<TagRecord>,
    pub stop: usize,
}

/// Refusals 1, 2, 3.
fn admit(text: &[u8]) -> Result<(), Refusal> {
    if text.len() > 65_536 {
        return refuse(1, 0);
    }
    if let Err(ill) = std::str::from_utf8(text) {
        return refuse(2, ill.valid_up_to());
    }
    if !text.starts_with(b"#EXTM3U") {
        return refuse(3, 0);
    }
    Ok(())
}

/// The deciding `#` of a master playlist, found line by line as `contains_master_tag` goes; none means media.
pub fn verdict(text: &[u8]) -> Result<Option<usize>, Refusal> {
    admit(text)?;
    let mut at = b"#EXTM3U".len();
    let mut decided = None;
    while decided.is_none() && at < text.len() {
        let line = at + text[at..].iter().take_while(|b| b"\r\n".contains(b)).count();
        match is_master_playlist_tag_line(&text[at..]) {
            Ok((rest, result)) => {
                at = text.len() - rest.len();
                decided = result.map(|found| (line, found));
            }
            Err(_) => break,
        }
    }
    let whole = contains_master_tag(text);
    assert_eq!(decided.as_ref().map(|(_, found)| found), whole.as_ref(), "{}", shown(text));
    Ok(decided.and_then(|(line, (master, literal))| {
        held(text, line, &literal);
        if master { Some(line) } else { None }
    }))
}

const LEFT_OUT: [&[u8]; 4] =
    [b"#EXT-X-KEY:", b"#EXT-X-START:", b"#EXT-X-PROGRAM-DATE-TIME:", b"#EXT-X-DATERANGE:"];

/// The reading, step by step; refusals 1 to 6. What a clip takes stands in `clip` and `tags` until its URI comes.
pub fn read(text: &[u8]) -> Result<Reading, Refusal> {
    if let Some(place) = verdict(text)? {
        return refuse(4, place);
    }
    let mut reading = Reading::default();
    let mut clip = [0; CLIP_WORDS];
    let mut tags = Vec::new();
    let mut at = past(text, b"#EXTM3U".len(), multispace0);
    loop {
        if LEFT_OUT.iter().any(|literal| text[at..].starts_with(literal)) {
            return refuse(5, at);
        }
        let (after, tag) = match media_playlist_tag(&text[at..]) {
            Ok((rest, tag)) => (text.len() - rest.len(), tag),
            Err(_) => break,
        };
        match tag {
            MediaPlaylistTag::Version(version) => {
                reading.head[VERSION_PRESENT] = 1;
                reading.head[VERSION] = version as u64;
            }
            MediaPlaylistTag::TargetDuration(target) => reading.head[TARGET] = target,
            MediaPlaylistTag::MediaSequence(sequence) => reading.head[MEDIA_SEQUENCE] = sequence,
            MediaPlaylistTag::DiscontinuitySequence(sequence) => reading.head[DISCONTINUITY_SEQUENCE] = sequence,
            MediaPlaylistTag::PlaylistType(kind) => {
                let (number, span) = match kind {
                    MediaPlaylistType::Event => (1, [0, 0]),
                    MediaPlaylistType::Vod => (2, [0, 0]),
                    MediaPlaylistType::Other(s) => (3, held(text, at + b"#EXT-X-PLAYLIST-TYPE:".len(), &s)),
                };
                reading.head[TYPE] = number;
                reading.head[TYPE_SPAN..][..2].copy_from_slice(&span);
            }
            MediaPlaylistTag::EndList => reading.head[END_LIST] = 1,
            MediaPlaylistTag::IFramesOnly => reading.head[I_FRAMES_ONLY] = 1,
            MediaPlaylistTag::IndependentSegments => reading.head[INDEPENDENT] = 1,
            MediaPlaylistTag::Segment(SegmentTag::Extinf(duration, title)) => {
                extinf(text, at, after, duration, title, &mut clip)?
            }
            MediaPlaylistTag::Segment(SegmentTag::ByteRange(range)) => {
                set_range(&mut clip, RANGE, HAS_RANGE, HAS_OFFSET, Some(range))
            }
            MediaPlaylistTag::Segment(SegmentTag::Discontinuity) => clip[FLAGS] |= DISCONTINUITY,
            MediaPlaylistTag::Segment(SegmentTag::Map(map)) => {
                let list = at + b"#EXT-X-MAP:".len();
                let (uri, end) = last_quoted(text, list, "URI");
                assert_eq!(end, after, "{}", shown(text));
                clip[FLAGS] |= HAS_MAP;
                clip[MAP_URI..][..2].copy_from_slice(&held(text, uri, &map.uri));
                clip[MAP_LIST..][..2].copy_from_slice(&[list as u64, end as u64]);
                set_range(&mut clip, MAP_RANGE, HAS_MAP_RANGE, HAS_MAP_OFFSET, map.byte_range);
            }
            MediaPlaylistTag::Segment(SegmentTag::Unknown(tag)) => {
                let name = held(text, at + b"#EXT-".len(), &tag.tag);
                let colon = name[1] as usize;
                let rest = match tag.rest {
                    Some(rest) => held(text, colon + usize::from(text[colon] == b':'), &rest),
                    None => [0, 0],
                };
                tags.push([name[0], name[1], rest[0], rest[1]]);
            }
            MediaPlaylistTag::Segment(SegmentTag::Comment(_)) => (),
            MediaPlaylistTag::Segment(SegmentTag::Uri(uri)) => {
                clip[URI..][..2].copy_from_slice(&held(text, at, &uri));
                clip[FIRST_TAG] = reading.tags.len() as u64;
                clip[TAGS] = tags.len() as u64;
                reading.clips.push(clip);
                reading.tags.append(&mut tags);
                clip = [0; CLIP_WORDS];
            }
            left_out => panic!("{:?} in {}", left_out, shown(text)),
        }
        at = past(text, after, multispace0);
    }
    reading.stop = at;
    Ok(reading)
}

/// An EXTINF that the crate took from `at` to `after`: its ns, bits and title; refusal 6.
fn extinf(
    text: &[u8],
    at: usize,
    after: usize,
    duration: f32,
    title: Option<String>,
    clip: &mut ClipRecord,
) -> Result<(), Refusal> {
    let digits = at + b"#EXTINF:".len();
    let comma = past(text, digits, float);
    let number = std::str::from_utf8(&text[digits..comma]).unwrap();
    let (seconds, fraction) = number.split_once('.').unwrap_or((number, ""));
    if seconds.len() > 9 || fraction.len() > 9 {
        return refuse(6, at);
    }
    clip[NS] = format!("{}{:0<9}", seconds, fraction).parse().unwrap();
    clip[BITS] = duration.to_bits().into();

    let start = comma + usize::from(text[comma] == b',');
    let (span, end) = match title {
        Some(title) => (held(text, start, &title), start + title.len()),
        None => ([0, 0], start),
    };
    clip[TITLE..][..2].copy_from_slice(&span);
    // One byte and an optional comma are left.
    assert_eq!(after, end + 1 + usize::from(text.get(end + 1) == Some(&b',')), "{}", shown(text));
    Ok(())
}

/// Walks a list of pairs as `key_value_pairs` does, for the places it doesn't hand back: where the last quoted value
/// of a name starts, and the list's end.
fn last_quoted(text: &[u8], list: usize, name: &str) -> (usize, usize) {
    let mut value = 0;
    let mut end = list;
    loop {
        let start = past(text, end, space0);
        match key_value_pair(&text[start..]) {
            Ok((rest, (left, _))) => {
                if left == name {
                    value = start + left.len() + b"=\"".len();
                }
                end = text.len() - rest.len();
            }
            Err(_) => break,
        }
    }
    assert_eq!(end, past(text, list, key_value_pairs), "{}", shown(text));
    (value, end)
}

/// A range's two words and flags; of an earlier range nothing is left.
fn set_range(clip: &mut ClipRecord, word: usize, has_range: u64, has_offset: u64, range: Option<ByteRange>) {
    clip[FLAGS] &= !(has_range | has_offset);
    clip[word..][..2].copy_from_slice(&[0, 0]);
    if let Some(range) = range {
        clip[FLAGS] |= has_range;
        clip[word] = range.length;
        if let Some(offset) = range.offset {
            clip[FLAGS] |= has_offset;
            clip[word + 1] = offset;
        }
    }
}

/// The place after what a parser of the crate takes from `at`.
fn past<'a, A>(text: &'a [u8], at: usize, parser: impl Fn(&'a [u8]) -> IResult<&'a [u8], A>) -> usize {
    match parser(&text[at..]) {
        Ok((rest, _)) => text.len() - rest.len(),
        Err(_) => panic!("nothing at {} of {}", at, shown(text)),
    }
}

/// The span at `start` whose bytes are the crate's string.
fn held(text: &[u8], start: usize, string: &str) -> [u64; 2] {
    let end = start + string.len();
    assert_eq!(&text[start..end], string.as_bytes(), "at {} of {}", start, shown(text));
    [start as u64, end as u64]
}

/// The text, for a failed check.
pub fn shown(text: &[u8]) -> String {
    format!("{:?}", String::from_utf8_lossy(text))
}
