//! A playlist and its tables: the head's numbers, the clips' and the unknown tags' words, and the text of their spans.
use crate::ffi::{self, Head};
use crate::layout::{self, CLIP_WORDS, TAG_WORDS};
use crate::refusal::{check, Refusal};
use crate::{ByteRange, Clip, ExtTag, ExtTagRef, List, ListType};
use crate::{Map, MapRef, MediaPlaylist, MediaPlaylistType, MediaSegment};
use std::fmt;

// A version is a usize, as in m3u8-rs, and a place in a text too: the library is for 64-bit machines.
const _: () = assert!(usize::BITS == 64);

// ---- views to values

/// The list as a user of m3u8-rs knows it, with strings of its own.
impl From<List<'_, '_>> for MediaPlaylist {
    fn from(list: List<'_, '_>) -> MediaPlaylist {
        MediaPlaylist {
            version: list.version(),
            target_duration: list.target_duration(),
            media_sequence: list.media_sequence(),
            segments: list.clips().map(MediaSegment::from).collect(),
            discontinuity_sequence: list.discontinuity_sequence(),
            end_list: list.end_list(),
            playlist_type: list.playlist_type().map(MediaPlaylistType::from),
            i_frames_only: list.i_frames_only(),
            independent_segments: list.independent_segments(),
        }
    }
}

impl From<ListType<'_>> for MediaPlaylistType {
    fn from(list_type: ListType<'_>) -> MediaPlaylistType {
        match list_type {
            ListType::Event => MediaPlaylistType::Event,
            ListType::Vod => MediaPlaylistType::Vod,
            ListType::Other(other) => MediaPlaylistType::Other(other.into()),
        }
    }
}

impl From<Clip<'_, '_>> for MediaSegment {
    #[inline]
    fn from(clip: Clip<'_, '_>) -> MediaSegment {
        MediaSegment {
            uri: clip.uri.into(),
            duration: clip.duration,
            duration_ns: clip.duration_ns,
            title: clip.title.map(String::from),
            byte_range: clip.byte_range,
            discontinuity: clip.discontinuity,
            map: clip.map.map(Map::from),
            unknown_tags: clip.unknown_tags.iter().map(ExtTag::from).collect(),
        }
    }
}

impl From<MapRef<'_>> for Map {
    fn from(map: MapRef<'_>) -> Map {
        Map { uri: map.uri.into(), byte_range: map.byte_range, attributes: map.attributes.into() }
    }
}

impl From<ExtTagRef<'_>> for ExtTag {
    fn from(tag: ExtTagRef<'_>) -> ExtTag {
        ExtTag { tag: tag.tag.into(), rest: tag.rest.map(String::from) }
    }
}

/// A tag as its line has it.
pub fn show_tag(f: &mut fmt::Formatter<'_>, tag: &str, rest: Option<&str>) -> fmt::Result {
    write!(f, "#EXT-{}", tag)?;
    if let Some(v) = rest {
        write!(f, ":{}", v)?;
    }
    Ok(())
}

// ---- values to tables

/// A playlist packed for the library's calls: its strings one after the other in a text, and the tables over it.
pub struct Packed {
    pub text: Vec<u8>,
    pub head: Head,
    pub clips: Vec<u64>,
    pub tags: Vec<u64>,
}

/// The tables of a playlist. A text of its own begins with a byte that no span shows, so that no part that is there has
/// two zeros for its words; so the strings may have one byte less than a text.
pub fn pack(playlist: &MediaPlaylist) -> Packed {
    let mut packed = Packed {
        text: vec![b'\n'],
        head: Head {
            version_present: playlist.version.is_some().into(),
            version: playlist.version.unwrap_or(0) as u64,
            target_duration: playlist.target_duration,
            media_sequence: playlist.media_sequence,
            discontinuity_sequence: playlist.discontinuity_sequence,
            playlist_type: 0,
            type_start: 0,
            type_end: 0,
            end_list: playlist.end_list.into(),
            i_frames_only: playlist.i_frames_only.into(),
            independent_segments: playlist.independent_segments.into(),
        },
        clips: Vec::with_capacity(playlist.segments.len().saturating_mul(CLIP_WORDS)),
        tags: Vec::new(),
    };
    match &playlist.playlist_type {
        None => {}
        Some(MediaPlaylistType::Event) => packed.head.playlist_type = 1,
        Some(MediaPlaylistType::Vod) => packed.head.playlist_type = 2,
        Some(MediaPlaylistType::Other(other)) => {
            packed.head.playlist_type = 3;
            [packed.head.type_start, packed.head.type_end] = packed.span(other);
        }
    }
    for segment in &playlist.segments {
        packed.segment(segment);
    }
    packed
}

impl Packed {
    /// Lays a string down; its span.
    fn span(&mut self, shown: &str) -> [u64; 2] {
        let start = self.text.len() as u64;
        self.text.extend_from_slice(shown.as_bytes());
        [start, self.text.len() as u64]
    }

    fn part(&mut self, part: &Option<String>) -> [u64; 2] {
        part.as_ref().map_or([0, 0], |shown| self.span(shown))
    }

    fn segment(&mut self, segment: &MediaSegment) {
        let [uri_start, uri_end] = self.span(&segment.uri);
        let [title_start, title_end] = self.part(&segment.title);
        let (range_flags, [range_length, range_offset]) =
            range(&segment.byte_range, layout::HAS_RANGE, layout::HAS_RANGE_OFFSET);
        let (map_flags, [map_uri_start, map_uri_end, map_length, map_offset]) = self.map(&segment.map);
        let discontinuity = if segment.discontinuity { layout::HAS_DISCONTINUITY } else { 0 };
        let first_tag = (self.tags.len() / TAG_WORDS) as u64;
        // In the order of the layout.
        self.clips.extend_from_slice(&[
            uri_start,
            uri_end,
            segment.duration_ns,
            segment.duration.to_bits().into(),
            title_start,
            title_end,
            range_flags | discontinuity | map_flags,
            range_length,
            range_offset,
            map_uri_start,
            map_uri_end,
            map_length,
            map_offset,
            0,
            0,
            first_tag,
            segment.unknown_tags.len() as u64,
        ]);
        for tag in &segment.unknown_tags {
            let [name_start, name_end] = self.span(&tag.tag);
            let [rest_start, rest_end] = self.part(&tag.rest);
            self.tags.extend_from_slice(&[name_start, name_end, rest_start, rest_end]);
        }
    }

    /// What the library writes of it.
    pub fn written(&self) -> Result<Vec<u8>, Refusal> {
        written(&self.text, self.head, &self.clips, &self.tags)
    }

    /// A map's flags, and its words: URI and range. The words of its list stay 0: it is not written, and laid down it
    /// would hold the URI a second time, so that a text that was read could pack to one that is too long.
    fn map(&mut self, map: &Option<Map>) -> (u64, [u64; 4]) {
        let map = match map {
            Some(map) => map,
            None => return (0, [0; 4]),
        };
        let [uri_start, uri_end] = self.span(&map.uri);
        let (flags, [length, offset]) = range(&map.byte_range, layout::HAS_MAP_RANGE, layout::HAS_MAP_OFFSET);
        (layout::HAS_MAP | flags, [uri_start, uri_end, length, offset])
    }
}

/// What the library writes of a head and two tables over a text. Besides the strings a clip takes at most 256 bytes and a
/// tag 8: what is fixed in its lines, and six numbers.
pub fn written(text: &[u8], head: Head, clips: &[u64], tags: &[u64]) -> Result<Vec<u8>, Refusal> {
    let (clip_count, tag_count) = (clips.len() / CLIP_WORDS, tags.len() / TAG_WORDS);
    let room = text.len().saturating_add(512);
    let room = room.saturating_add(clip_count.saturating_mul(256)).saturating_add(tag_count.saturating_mul(8));
    let mut out = vec![0; room];
    let answer = ffi::write(text, head, clip_count, clips, tag_count, tags, &mut out);
    check(answer.number, answer.place)?;
    out.truncate(answer.length as usize);
    Ok(out)
}

/// A range's flags, and its words.
fn range(range: &Option<ByteRange>, there: u64, offset_there: u64) -> (u64, [u64; 2]) {
    match range {
        None => (0, [0, 0]),
        Some(ByteRange { length, offset: None }) => (there, [*length, 0]),
        Some(ByteRange { length, offset: Some(offset) }) => (there | offset_there, [*length, *offset]),
    }
}
