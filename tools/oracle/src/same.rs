//! Holds a reading's numbers against the crate's public call: the list they show must be the list it returns.

use crate::playlist::{ByteRange, ExtTag, Map, MediaPlaylist, MediaPlaylistType, MediaSegment};
use crate::reading::*;
use crate::{key_value_pairs, parse_media_playlist, QuotedOrUnquoted};

/// Panics with the text unless `parse_media_playlist` gives the same list and stops at the same place.
pub fn check(text: &[u8], reading: &Reading) {
    let (rest, list) = parse_media_playlist(text).expect("the text begins #EXTM3U");
    assert_eq!(reading.stop, text.len() - rest.len(), "{}", shown(text));
    assert_eq!(playlist(text, reading), list, "{}", shown(text));
    for (clip, segment) in reading.clips.iter().zip(&list.segments) {
        assert_eq!(clip[BITS], segment.duration.to_bits().into(), "{}", shown(text));
        let seconds = format!("{}.{:09}", clip[NS] / 1_000_000_000, clip[NS] % 1_000_000_000);
        assert_eq!(seconds.parse(), Ok(segment.duration), "{}", shown(text));
    }
}

fn playlist(text: &[u8], reading: &Reading) -> MediaPlaylist {
    let head = &reading.head;
    MediaPlaylist {
        version: some(head[VERSION_PRESENT], head[VERSION] as usize),
        target_duration: head[TARGET],
        media_sequence: head[MEDIA_SEQUENCE],
        segments: reading.clips.iter().map(|clip| segment(text, clip, &reading.tags)).collect(),
        discontinuity_sequence: head[DISCONTINUITY_SEQUENCE],
        end_list: head[END_LIST] == 1,
        playlist_type: match head[TYPE] {
            0 => None,
            1 => Some(MediaPlaylistType::Event),
            2 => Some(MediaPlaylistType::Vod),
            _ => Some(MediaPlaylistType::Other(string(text, &head[TYPE_SPAN..]))),
        },
        i_frames_only: head[I_FRAMES_ONLY] == 1,
        start: None,
        independent_segments: head[INDEPENDENT] == 1,
        unknown_tags: Vec::new(),
    }
}

fn segment(text: &[u8], clip: &ClipRecord, tags: &[TagRecord]) -> MediaSegment {
    let flag = |flag| clip[FLAGS] & flag;
    let range = |word: usize, has_range, has_offset| {
        some(flag(has_range), ByteRange { length: clip[word], offset: some(flag(has_offset), clip[word + 1]) })
    };
    MediaSegment {
        uri: string(text, &clip[URI..]),
        duration: f32::from_bits(clip[BITS] as u32),
        title: present(text, &clip[TITLE..]),
        byte_range: range(RANGE, HAS_RANGE, HAS_OFFSET),
        discontinuity: flag(DISCONTINUITY) != 0,
        map: some(flag(HAS_MAP), ()).map(|()| {
            let uri = string(text, &clip[MAP_URI..]);
            let list = &text[clip[MAP_LIST] as usize..clip[MAP_LIST + 1] as usize];
            let (rest, mut other_attributes) = key_value_pairs(list).unwrap();
            assert_eq!(rest, b"", "{}", shown(text));
            assert_eq!(other_attributes.remove("URI"), Some(QuotedOrUnquoted::Quoted(uri.clone())));
            other_attributes.remove("BYTERANGE");
            Map { uri, byte_range: range(MAP_RANGE, HAS_MAP_RANGE, HAS_MAP_OFFSET), other_attributes }
        }),
        unknown_tags: tags[clip[FIRST_TAG] as usize..][..clip[TAGS] as usize]
            .iter()
            .map(|tag| ExtTag { tag: string(text, &tag[0..]), rest: present(text, &tag[2..]) })
            .collect(),
        ..MediaSegment::empty()
    }
}

fn some<A>(flag: u64, value: A) -> Option<A> {
    if flag == 0 { None } else { Some(value) }
}

fn present(text: &[u8], words: &[u64]) -> Option<String> {
    some(words[0] | words[1], ()).map(|()| string(text, words))
}

fn string(text: &[u8], words: &[u64]) -> String {
    String::from_utf8(text[words[0] as usize..words[1] as usize].to_vec()).unwrap()
}
