//! A media playlist as values, with the names that m3u8-rs gives them.
use crate::{tables, Clips, On, Playing, Refusal, Starts, Windows};
use std::fmt;
use std::ops::Range;
use std::str::FromStr;

/// A media playlist: a list of segments, which the clock calls clips.
#[derive(Debug, Default, PartialEq, Clone)]
pub struct MediaPlaylist {
    /// `#EXT-X-VERSION:<n>`
    pub version: Option<usize>,
    /// `#EXT-X-TARGETDURATION:<s>`
    pub target_duration: u64,
    /// `#EXT-X-MEDIA-SEQUENCE:<number>`
    pub media_sequence: u64,
    /// Its segments, in order.
    pub segments: Vec<MediaSegment>,
    /// `#EXT-X-DISCONTINUITY-SEQUENCE:<number>`
    pub discontinuity_sequence: u64,
    /// `#EXT-X-ENDLIST`
    pub end_list: bool,
    /// `#EXT-X-PLAYLIST-TYPE`
    pub playlist_type: Option<MediaPlaylistType>,
    /// `#EXT-X-I-FRAMES-ONLY`
    pub i_frames_only: bool,
    /// `#EXT-X-INDEPENDENT-SEGMENTS`
    pub independent_segments: bool,
}

impl MediaPlaylist {
    /// The table of its clips, for the clock and the window. The shortcuts below make it anew at each call, which copies
    /// every string of the list: where more than one answer is wanted, make it once and ask it.
    pub fn clips(&self) -> Clips {
        Clips::new(tables::pack(self))
    }

    /// All lengths together, in ns.
    pub fn total(&self) -> Result<u64, Refusal> {
        self.clips().total()
    }

    /// A clip's start within its turn, in ns ([`Clips::start_ns`]).
    pub fn start_ns(&self, clip: usize) -> Result<u64, Refusal> {
        self.clips().start_ns(clip)
    }

    /// The tick at which a clip starts in a turn ([`Clips::start_tick`]).
    pub fn start_tick(&self, rate: u64, turn: u64, clip: usize) -> Result<u64, Refusal> {
        self.clips().start_tick(rate, turn, clip)
    }

    /// A clip's ticks in a turn ([`Clips::clip_ticks`]).
    pub fn clip_ticks(&self, rate: u64, turn: u64, clip: usize) -> Result<u64, Refusal> {
        self.clips().clip_ticks(rate, turn, clip)
    }

    /// All starts of a turn ([`Clips::starts`]): one table and one call, whatever the number of clips.
    pub fn starts(&self, rate: u64, turn: u64) -> Result<Starts, Refusal> {
        self.clips().starts(rate, turn)
    }

    /// Which clip is on at a tick ([`Clips::clip_at`]). A cabinet that asks at every tick keeps [`MediaPlaylist::clips`].
    pub fn clip_at(&self, rate: u64, tick: u64) -> Result<On, Refusal> {
        self.clips().clip_at(rate, tick)
    }

    /// Which clip is on at a tick, since when, and for how long ([`Clips::playing_at`]). Who asks again and again keeps
    /// [`MediaPlaylist::clips`].
    pub fn playing_at(&self, rate: u64, tick: u64) -> Result<Playing, Refusal> {
        self.clips().playing_at(rate, tick)
    }

    /// Its text, byte for byte as the library writes it. Refusals: 1 where its strings are above 65,535 bytes together; 9
    /// where a length is 10^18 ns or more, or its two forms do not agree ([`MediaSegment::set_duration_ns`]).
    pub fn to_text(&self) -> Result<Vec<u8>, Refusal> {
        tables::pack(self).written()
    }

    /// Writes its text, as m3u8-rs does; what the library refuses is an error of the kind `InvalidData`.
    pub fn write_to<T: std::io::Write>(&self, w: &mut T) -> std::io::Result<()> {
        match self.to_text() {
            Ok(text) => w.write_all(&text),
            Err(refusal) => Err(std::io::Error::new(std::io::ErrorKind::InvalidData, refusal)),
        }
    }

    /// The bytes of its resource that a clip's range names, if it has one; without an offset they go on from those of the
    /// clip just before ([`Clips::window`]). For every clip take [`MediaPlaylist::windows`].
    pub fn window(&self, clip: usize) -> Result<Option<Range<u64>>, Refusal> {
        self.clips().window(clip)
    }

    /// The windows of all clips ([`Clips::windows`]): one table and one call, whatever the number of clips.
    pub fn windows(&self) -> Result<Windows, Refusal> {
        self.clips().windows()
    }

    /// The cue file that a motor board reads ([`Clips::cue_file`]).
    pub fn cue_file(&self) -> Result<Vec<u8>, Refusal> {
        self.clips().cue_file()
    }
}

/// `#EXT-X-PLAYLIST-TYPE:<EVENT|VOD>`
#[derive(Debug, Default, PartialEq, Eq, PartialOrd, Ord, Hash, Clone)]
pub enum MediaPlaylistType {
    /// `EVENT`
    #[default]
    Event,
    /// `VOD`
    Vod,
    /// Another text.
    Other(String),
}

impl FromStr for MediaPlaylistType {
    type Err = String;

    fn from_str(s: &str) -> Result<MediaPlaylistType, String> {
        match s {
            "EVENT" => Ok(MediaPlaylistType::Event),
            "VOD" => Ok(MediaPlaylistType::Vod),
            _ => Ok(MediaPlaylistType::Other(String::from(s))),
        }
    }
}

impl fmt::Display for MediaPlaylistType {
    fn fmt(&self, f: &mut fmt::Formatter<'_>) -> fmt::Result {
        f.write_str(match self {
            MediaPlaylistType::Event => "EVENT",
            MediaPlaylistType::Vod => "VOD",
            MediaPlaylistType::Other(s) => s,
        })
    }
}

/// A segment: a URI, and what the tags before it say of it.
#[derive(Debug, Default, PartialEq, Clone)]
pub struct MediaSegment {
    /// Its line.
    pub uri: String,
    /// `#EXTINF:<duration>,[<title>]`: the binary32 nearest to [`MediaSegment::duration_ns`], in seconds.
    pub duration: f32,
    /// `#EXTINF:<duration>,[<title>]`: the length in ns, exact. Clock and writer go by this one.
    pub duration_ns: u64,
    /// `#EXTINF:<duration>,[<title>]`
    pub title: Option<String>,
    /// `#EXT-X-BYTERANGE:<n>[@<o>]`
    pub byte_range: Option<ByteRange>,
    /// `#EXT-X-DISCONTINUITY`
    pub discontinuity: bool,
    /// `#EXT-X-MAP:<attribute-list>`
    pub map: Option<Map>,
    /// `#EXT-`
    pub unknown_tags: Vec<ExtTag>,
}

impl MediaSegment {
    /// A segment with neither URI nor tags.
    pub fn empty() -> MediaSegment {
        Default::default()
    }

    /// Sets both forms of the length. A segment whose two lengths do not agree is refused by the writer (9).
    pub fn set_duration_ns(&mut self, ns: u64) {
        self.duration_ns = ns;
        // One correct rounding, that of the text: by way of an f64 there would be two.
        let text = format!("{}.{:09}", ns / 1_000_000_000, ns % 1_000_000_000);
        self.duration = text.parse().unwrap_or(0.0);
    }
}

/// `#EXT-X-MAP:<attribute-list>`
#[derive(Debug, Default, PartialEq, Eq, Clone)]
pub struct Map {
    /// The attribute URI.
    pub uri: String,
    /// The attribute BYTERANGE.
    pub byte_range: Option<ByteRange>,
    /// The whole attribute list as it stands in the text. It is not written: a map is written by its URI and range.
    pub attributes: String,
}

/// `#EXT-X-BYTERANGE:<n>[@<o>]`
#[derive(Debug, Default, PartialEq, Eq, Hash, Clone, Copy)]
pub struct ByteRange {
    /// How many bytes.
    pub length: u64,
    /// From which byte on. A segment's range without it goes on where that of the segment just before ends, in the same
    /// resource ([`Clips::window`]).
    pub offset: Option<u64>,
}

/// A simple `#EXT-` tag
#[derive(Debug, Default, PartialEq, Eq, Clone)]
pub struct ExtTag {
    /// Its name, behind `#EXT-`.
    pub tag: String,
    /// What follows the colon, if there is any.
    pub rest: Option<String>,
}

impl fmt::Display for ExtTag {
    fn fmt(&self, f: &mut fmt::Formatter<'_>) -> fmt::Result {
        tables::show_tag(f, &self.tag, self.rest.as_deref())
    }
}
