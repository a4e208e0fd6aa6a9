//! A playlist as it stands in its text: a reader that keeps its tables, and values that borrow from text and tables.
use crate::ffi::{self, Head};
use crate::layout::{self, CLIP_WORDS, TAG_WORDS};
use crate::refusal::{check, Refusal, CLIP_TABLE_SHORT, TAG_TABLE_SHORT};
use crate::{tables, ByteRange};
use std::fmt;
use std::iter::FusedIterator;
use std::slice::ChunksExact;

/// A reader's first tables have a clip for so many bytes of the text, and an unknown tag for twice as many. Lists as
/// encoders write them have fewer of both: the shortest clips of ffmpeg have 26 bytes.
const BYTES_FOR_A_CLIP: usize = 24;

/// Reads playlists into tables that it keeps from one text to the next.
///
/// A list that it reads borrows from the text and from these tables, so it is done with before the next one is read; its
/// strings are parts of the text, and stay. Nothing is allocated for a clip, nor for a text whose list fits the tables.
/// Where one does not, the library is asked for its room, the tables grow, and it is read again. With
/// [`Reader::with_room`] they never need to.
///
/// ```
/// let mut reader = ledgerfern::Reader::new();
/// for text in ["#EXTM3U\n#EXTINF:9.009,bird\na.ts\n#EXTINF:3.003,\nb.ts\n", "#EXTM3U\nc.ts\n"] {
///     let list = reader.read(text)?;
///     for clip in list.clips() {
///         println!("{} {:?} {} ns", clip.uri, clip.title, clip.duration_ns);
///     }
///     println!("together {} ns", list.total()?);
/// }
/// # Ok::<(), ledgerfern::Refusal>(())
/// ```
#[derive(Default)]
pub struct Reader {
    clips: Vec<u64>,
    tags: Vec<u64>,
}

impl Reader {
    /// A reader without tables: its first text makes them.
    pub const fn new() -> Reader {
        Reader { clips: Vec::new(), tags: Vec::new() }
    }

    /// A reader with tables for so many clips and so many unknown tags. With [`crate::MOST_CLIPS`] and
    /// [`crate::MOST_TAGS`], which take 4.8 MB, no text needs more.
    pub fn with_room(clips: usize, tags: usize) -> Reader {
        let mut reader = Reader::new();
        reader.make_room(clips, tags);
        reader
    }

    /// Reads a text, which may be a `str` or bytes. Refusals: 1, 2, 3, 4, then 5 or 6 whichever the reading meets first.
    pub fn read<'t, T: AsRef<[u8]> + ?Sized>(&mut self, text: &'t T) -> Result<List<'t, '_>, Refusal> {
        self.read_bytes(text.as_ref())
    }

    fn read_bytes<'t>(&mut self, text: &'t [u8]) -> Result<List<'t, '_>, Refusal> {
        if self.clips.is_empty() {
            let clips = text.len().min(layout::TEXT_LIMIT) / BYTES_FOR_A_CLIP;
            self.make_room(clips, clips / 2);
        }
        let (mut answer, mut shown) = ffi::read(text, &mut self.clips, &mut self.tags);
        if matches!(answer.number, CLIP_TABLE_SHORT | TAG_TABLE_SHORT) {
            let room = ffi::room(text);
            check(room.number, room.place)?;
            self.make_room(room.clips as usize, room.tags as usize);
            (answer, shown) = ffi::read(text, &mut self.clips, &mut self.tags);
        }
        check(answer.number, answer.place)?;
        Ok(List {
            text: shown,
            rest: shown.get(answer.stop as usize..).unwrap_or_default(),
            head: answer.head,
            clips: records(&self.clips, 0, answer.clips, CLIP_WORDS),
            tags: records(&self.tags, 0, answer.tags, TAG_WORDS),
        })
    }

    /// Tables for so many clips and unknown tags at least.
    fn make_room(&mut self, clips: usize, tags: usize) {
        grow(&mut self.clips, clips.saturating_mul(CLIP_WORDS));
        grow(&mut self.tags, tags.saturating_mul(TAG_WORDS));
    }

    /// How many words its tables have.
    pub(crate) fn words(&self) -> usize {
        self.clips.len().saturating_add(self.tags.len())
    }
}

impl fmt::Debug for Reader {
    fn fmt(&self, f: &mut fmt::Formatter<'_>) -> fmt::Result {
        let (clips, tags) = (self.clips.len() / CLIP_WORDS, self.tags.len() / TAG_WORDS);
        f.debug_struct("Reader").field("clips", &clips).field("tags", &tags).finish()
    }
}

/// Makes a table of so many words, and at least by half longer than it was: a list that grows clip by clip should not need
/// a new one each time. What stands in it is not kept.
fn grow(table: &mut Vec<u64>, words: usize) {
    if table.len() < words {
        let words = words.max(table.len().saturating_add(table.len() / 2));
        *table = Vec::new(); // so that there are never two
        *table = vec![0; words];
    }
}

/// So many records of a table from one of them on. The library gives places and counts within it.
#[inline]
fn records(table: &[u64], first: u64, count: u64, width: usize) -> &[u64] {
    let start = (first as usize).saturating_mul(width);
    let end = start.saturating_add((count as usize).saturating_mul(width));
    table.get(start..end).unwrap_or_default()
}

/// The text of a span. The library gives spans within the text that begin and end with whole characters.
#[inline]
fn span(text: &str, start: u64, end: u64) -> &str {
    text.get(start as usize..end as usize).unwrap_or_default()
}

/// What is there unless both its words are 0.
#[inline]
fn part(text: &str, start: u64, end: u64) -> Option<&str> {
    ((start, end) != (0, 0)).then(|| span(text, start, end))
}

#[inline]
fn range(there: bool, length: u64, offset_there: bool, offset: u64) -> Option<ByteRange> {
    there.then(|| ByteRange { length, offset: offset_there.then_some(offset) })
}

/// A media playlist that was read ([`Reader::read`]): a view of its text, by the reader's tables. All strings are parts of the
/// text and live as long as it does. `MediaPlaylist::from` makes an owned list of it.
///
/// It has the calls of [`crate::Clips`] too, over the tables as they are: nothing is packed for them.
#[derive(Clone, Copy, PartialEq, Eq)]
pub struct List<'t, 'r> {
    text: &'t str,
    rest: &'t str,
    head: Head,
    clips: &'r [u64],
    tags: &'r [u64],
}

impl<'t, 'r> List<'t, 'r> {
    /// The whole text.
    pub fn text(&self) -> &'t str {
        self.text
    }

    /// What follows the place where the reading stopped: nothing, unless a line has a CR without LF.
    pub fn rest(&self) -> &'t str {
        self.rest
    }

    /// `#EXT-X-VERSION:<n>`
    pub fn version(&self) -> Option<usize> {
        (self.head.version_present != 0).then_some(self.head.version as usize)
    }

    /// `#EXT-X-TARGETDURATION:<s>`
    pub fn target_duration(&self) -> u64 {
        self.head.target_duration
    }

    /// `#EXT-X-MEDIA-SEQUENCE:<number>`
    pub fn media_sequence(&self) -> u64 {
        self.head.media_sequence
    }

    /// `#EXT-X-DISCONTINUITY-SEQUENCE:<number>`
    pub fn discontinuity_sequence(&self) -> u64 {
        self.head.discontinuity_sequence
    }

    /// `#EXT-X-ENDLIST`
    pub fn end_list(&self) -> bool {
        self.head.end_list != 0
    }

    /// `#EXT-X-PLAYLIST-TYPE`
    pub fn playlist_type(&self) -> Option<ListType<'t>> {
        match self.head.playlist_type {
            0 => None,
            1 => Some(ListType::Event),
            2 => Some(ListType::Vod),
            _ => Some(ListType::Other(span(self.text, self.head.type_start, self.head.type_end))),
        }
    }

    /// `#EXT-X-I-FRAMES-ONLY`
    pub fn i_frames_only(&self) -> bool {
        self.head.i_frames_only != 0
    }

    /// `#EXT-X-INDEPENDENT-SEGMENTS`
    pub fn independent_segments(&self) -> bool {
        self.head.independent_segments != 0
    }

    /// Its clips, in order. Each is made where it is taken, and nothing is allocated for it.
    #[inline]
    pub fn clips(&self) -> ListClips<'t, 'r> {
        ListClips { text: self.text, tags: self.tags, records: self.clips.chunks_exact(CLIP_WORDS) }
    }

    /// One of its clips, counted from 0, wherever it stands.
    pub fn clip(&self, clip: usize) -> Option<Clip<'t, 'r>> {
        self.clips().nth(clip)
    }

    /// Its text as the library writes it: [`crate::MediaPlaylist::to_text`] of the owned list, with nothing packed.
    pub fn to_text(&self) -> Result<Vec<u8>, Refusal> {
        tables::written(self.text.as_bytes(), self.head, self.clips, self.tags)
    }

    /// The text that its words are places in.
    pub(crate) fn bytes(&self) -> &[u8] {
        self.text.as_bytes()
    }

    /// The words of its clips.
    pub(crate) fn words(&self) -> &[u64] {
        self.clips
    }
}

impl fmt::Debug for List<'_, '_> {
    fn fmt(&self, f: &mut fmt::Formatter<'_>) -> fmt::Result {
        f.debug_struct("List")
            .field("version", &self.version())
            .field("target_duration", &self.target_duration())
            .field("media_sequence", &self.media_sequence())
            .field("clips", &self.clips())
            .field("discontinuity_sequence", &self.discontinuity_sequence())
            .field("end_list", &self.end_list())
            .field("playlist_type", &self.playlist_type())
            .field("i_frames_only", &self.i_frames_only())
            .field("independent_segments", &self.independent_segments())
            .finish()
    }
}

impl<'t, 'r> IntoIterator for List<'t, 'r> {
    type Item = Clip<'t, 'r>;
    type IntoIter = ListClips<'t, 'r>;

    fn into_iter(self) -> ListClips<'t, 'r> {
        self.clips()
    }
}

/// `#EXT-X-PLAYLIST-TYPE:<EVENT|VOD>` ([`List::playlist_type`])
#[derive(Clone, Copy, Debug, PartialEq, Eq, PartialOrd, Ord, Hash)]
pub enum ListType<'t> {
    /// `EVENT`
    Event,
    /// `VOD`
    Vod,
    /// Another text.
    Other(&'t str),
}

/// A clip: a URI, and what the tags before it say of it. The fields are those of [`crate::MediaSegment`].
#[derive(Clone, Copy, Debug, PartialEq)]
pub struct Clip<'t, 'r> {
    /// Its line.
    pub uri: &'t str,
    /// `#EXTINF:<duration>,[<title>]`: the binary32 nearest to [`Clip::duration_ns`], in seconds.
    pub duration: f32,
    /// `#EXTINF:<duration>,[<title>]`: the length in ns, exact.
    pub duration_ns: u64,
    /// `#EXTINF:<duration>,[<title>]`
    pub title: Option<&'t str>,
    /// `#EXT-X-BYTERANGE:<n>[@<o>]`
    pub byte_range: Option<ByteRange>,
    /// `#EXT-X-DISCONTINUITY`
    pub discontinuity: bool,
    /// `#EXT-X-MAP:<attribute-list>`
    pub map: Option<MapRef<'t>>,
    /// `#EXT-`
    pub unknown_tags: ExtTags<'t, 'r>,
}

impl<'t, 'r> Clip<'t, 'r> {
    #[inline]
    fn new(text: &'t str, tags: &'r [u64], clip: &[u64; CLIP_WORDS]) -> Clip<'t, 'r> {
        let has = |flag| clip[layout::FLAGS] & flag != 0;
        Clip {
            uri: span(text, clip[layout::URI_START], clip[layout::URI_END]),
            duration: f32::from_bits(clip[layout::BITS] as u32),
            duration_ns: clip[layout::LENGTH],
            title: part(text, clip[layout::TITLE_START], clip[layout::TITLE_END]),
            byte_range: range(
                has(layout::HAS_RANGE),
                clip[layout::RANGE_LENGTH],
                has(layout::HAS_RANGE_OFFSET),
                clip[layout::RANGE_OFFSET],
            ),
            discontinuity: has(layout::HAS_DISCONTINUITY),
            map: has(layout::HAS_MAP).then(|| MapRef {
                uri: span(text, clip[layout::MAP_URI_START], clip[layout::MAP_URI_END]),
                byte_range: range(
                    has(layout::HAS_MAP_RANGE),
                    clip[layout::MAP_RANGE_LENGTH],
                    has(layout::HAS_MAP_OFFSET),
                    clip[layout::MAP_RANGE_OFFSET],
                ),
                attributes: span(text, clip[layout::MAP_LIST_START], clip[layout::MAP_LIST_END]),
            }),
            unknown_tags: ExtTags {
                text,
                words: records(tags, clip[layout::FIRST_TAG], clip[layout::TAG_COUNT], TAG_WORDS),
            },
        }
    }
}

/// `#EXT-X-MAP:<attribute-list>`
#[derive(Clone, Copy, Debug, PartialEq, Eq, Hash)]
pub struct MapRef<'t> {
    /// The attribute URI.
    pub uri: &'t str,
    /// The attribute BYTERANGE.
    pub byte_range: Option<ByteRange>,
    /// The whole attribute list as it stands in the text; nothing of it was looked for but URI and BYTERANGE.
    pub attributes: &'t str,
}

/// A simple `#EXT-` tag
#[derive(Clone, Copy, Debug, PartialEq, Eq, PartialOrd, Ord, Hash)]
pub struct ExtTagRef<'t> {
    /// Its name, behind `#EXT-`.
    pub tag: &'t str,
    /// What follows the colon, if there is any.
    pub rest: Option<&'t str>,
}

impl<'t> ExtTagRef<'t> {
    #[inline]
    fn new(text: &'t str, tag: &[u64; TAG_WORDS]) -> ExtTagRef<'t> {
        ExtTagRef {
            tag: span(text, tag[layout::NAME_START], tag[layout::NAME_END]),
            rest: part(text, tag[layout::REST_START], tag[layout::REST_END]),
        }
    }
}

impl fmt::Display for ExtTagRef<'_> {
    fn fmt(&self, f: &mut fmt::Formatter<'_>) -> fmt::Result {
        tables::show_tag(f, self.tag, self.rest)
    }
}

/// The unknown tags of a clip.
#[derive(Clone, Copy)]
pub struct ExtTags<'t, 'r> {
    text: &'t str,
    words: &'r [u64],
}

impl<'t, 'r> ExtTags<'t, 'r> {
    /// How many there are.
    pub fn len(&self) -> usize {
        self.words.len() / TAG_WORDS
    }

    /// Whether there is none.
    pub fn is_empty(&self) -> bool {
        self.words.is_empty()
    }

    /// The tags in order. Each is made where it is taken, and nothing is allocated for it.
    #[inline]
    pub fn iter(&self) -> ExtTagsIter<'t, 'r> {
        ExtTagsIter { text: self.text, records: self.words.chunks_exact(TAG_WORDS) }
    }
}

impl<'t, 'r> IntoIterator for ExtTags<'t, 'r> {
    type Item = ExtTagRef<'t>;
    type IntoIter = ExtTagsIter<'t, 'r>;

    #[inline]
    fn into_iter(self) -> ExtTagsIter<'t, 'r> {
        self.iter()
    }
}

/// Tags are the same where they show the same, wherever they stand.
impl PartialEq for ExtTags<'_, '_> {
    fn eq(&self, other: &Self) -> bool {
        self.iter().eq(other.iter())
    }
}

impl Eq for ExtTags<'_, '_> {}

impl fmt::Debug for ExtTags<'_, '_> {
    fn fmt(&self, f: &mut fmt::Formatter<'_>) -> fmt::Result {
        f.debug_list().entries(self.iter()).finish()
    }
}

/// The clips of a list, in order ([`List::clips`]).
#[derive(Clone)]
pub struct ListClips<'t, 'r> {
    text: &'t str,
    tags: &'r [u64],
    records: ChunksExact<'r, u64>,
}

impl<'t, 'r> ListClips<'t, 'r> {
    #[inline]
    fn made(&self, record: Option<&'r [u64]>) -> Option<Clip<'t, 'r>> {
        Some(Clip::new(self.text, self.tags, record?.try_into().ok()?))
    }
}

/// The unknown tags of a clip, in order ([`ExtTags::iter`]).
#[derive(Clone)]
pub struct ExtTagsIter<'t, 'r> {
    text: &'t str,
    records: ChunksExact<'r, u64>,
}

impl<'t, 'r> ExtTagsIter<'t, 'r> {
    #[inline]
    fn made(&self, record: Option<&'r [u64]>) -> Option<ExtTagRef<'t>> {
        Some(ExtTagRef::new(self.text, record?.try_into().ok()?))
    }
}

/// An iterator over the records of a table, whose `made` makes the item of one.
macro_rules! over_records {
    ($iterator:ident, $item:ty) => {
        impl<'t, 'r> Iterator for $iterator<'t, 'r> {
            type Item = $item;

            #[inline]
            fn next(&mut self) -> Option<$item> {
                let record = self.records.next();
                self.made(record)
            }

            #[inline]
            fn nth(&mut self, n: usize) -> Option<$item> {
                let record = self.records.nth(n);
                self.made(record)
            }

            #[inline]
            fn size_hint(&self) -> (usize, Option<usize>) {
                self.records.size_hint()
            }
        }

        impl<'t, 'r> DoubleEndedIterator for $iterator<'t, 'r> {
            #[inline]
            fn next_back(&mut self) -> Option<$item> {
                let record = self.records.next_back();
                self.made(record)
            }
        }

        impl<'t, 'r> ExactSizeIterator for $iterator<'t, 'r> {}

        impl<'t, 'r> FusedIterator for $iterator<'t, 'r> {}

        impl<'t, 'r> fmt::Debug for $iterator<'t, 'r> {
            fn fmt(&self, f: &mut fmt::Formatter<'_>) -> fmt::Result {
                f.debug_list().entries(self.clone()).finish()
            }
        }
    };
}

over_records!(ListClips, Clip<'t, 'r>);
over_records!(ExtTagsIter, ExtTagRef<'t>);
