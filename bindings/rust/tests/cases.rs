//! The binding's tests: values by hand from the examples of documents 01 and 02, the clock, the window and the cue file beside
//! what is worked out here, and what borrows beside what owns. A program of its own (`harness = false`), so that it also runs where the usual start of a
//! Rust program can't.
use ledgerfern::*;
use std::alloc::{GlobalAlloc, Layout, System};
use std::ops::{Range, RangeInclusive};
use std::sync::atomic::{AtomicUsize, Ordering};

const SHEET: &[u8] = b"#EXTM3U\n#EXTINF:9.009,bird\na.ts\n#EXTINF:0.004,\nb.ts\n#EXTINF:3.003,\nc.ts\n";

fn parsed(text: &str) -> MediaPlaylist {
    parse_media_playlist_res(text.as_bytes()).expect("the text is read")
}

fn refused(text: &[u8]) -> (u64, usize) {
    let refusal = parse_media_playlist_res(text).expect_err("the text is refused");
    (refusal.number, refusal.place)
}

fn uris(list: &MediaPlaylist) -> Vec<&str> {
    list.segments.iter().map(|segment| segment.uri.as_str()).collect()
}

/// The clips of a list with these lengths in ns.
fn lasting(lengths: &[u64]) -> Clips {
    let mut list = MediaPlaylist::default();
    for ns in lengths {
        let mut segment = MediaSegment::empty();
        segment.set_duration_ns(*ns);
        list.segments.push(segment);
    }
    list.clips()
}

fn refusal<T>(number: u64) -> Result<T, Refusal> {
    Err(Refusal { number, place: 0 })
}

/// Numbers that nobody chose, and that are the same in each run.
struct Chance(u64);

impl Chance {
    fn upto(&mut self, most: u64) -> u64 {
        self.0 = self.0.wrapping_mul(6_364_136_223_846_793_005).wrapping_add(1_442_695_040_888_963_407);
        (self.0 >> 16) % (most + 1)
    }

    /// Up to so many lengths, a quarter of them 0.
    fn lengths(&mut self, most_clips: u64, most_ns: u64) -> Vec<u64> {
        (0..self.upto(most_clips)).map(|_| if self.upto(3) == 0 { 0 } else { self.upto(most_ns) }).collect()
    }

    /// Up to 1,000, or, one time in ten, as far below 2^64 - 1.
    fn small_or_far(&mut self) -> u64 {
        let small = self.upto(1_000);
        if self.upto(9) == 0 {
            u64::MAX - small
        } else {
            small
        }
    }

    /// So many clips, most of which go on from the one before.
    fn reel(&mut self, count: u64) -> MediaPlaylist {
        let mut list = MediaPlaylist::default();
        let mut uri = "a";
        for _ in 0..count {
            if self.upto(5) == 0 {
                uri = ["a", "b", "ab", ""][self.upto(3) as usize];
            }
            let byte_range = match self.upto(9) {
                0 => None,
                1 | 2 => at(self.small_or_far(), self.small_or_far()),
                _ => goes_on(self.small_or_far()),
            };
            let discontinuity = self.upto(3) == 0;
            list.segments.push(MediaSegment { uri: uri.into(), byte_range, discontinuity, ..Default::default() });
        }
        list
    }
}

fn the_sheet() {
    let (rest, list) = parse_media_playlist(SHEET).expect("the sheet is read");
    assert!(rest.is_empty());
    assert_eq!(uris(&list), ["a.ts", "b.ts", "c.ts"]);
    assert_eq!(list.segments[0].title.as_deref(), Some("bird"));
    assert_eq!(list.segments[1].title, None);
    let lengths: Vec<u64> = list.segments.iter().map(|segment| segment.duration_ns).collect();
    assert_eq!(lengths, [9_009_000_000, 4_000_000, 3_003_000_000]);
    assert_eq!(list.segments[0].duration, 9.009);
    let empty = MediaPlaylist { segments: list.segments.clone(), ..Default::default() };
    assert_eq!(list, empty);
}

fn the_clock() {
    let list = parse_media_playlist_res(SHEET).expect("the sheet is read");
    let clips = list.clips();
    assert_eq!(clips.len(), 3);
    assert_eq!(clips.total(), Ok(12_016_000_000));
    let ticks: Vec<_> = (0..3).map(|clip| clips.start_tick(100, 0, clip)).collect();
    assert_eq!(ticks, [Ok(0), Ok(900), Ok(901)]);
    assert_eq!(list.start_tick(100, 2, 1), Ok(3304));
    assert_eq!(list.start_tick(100, 1, 0), Ok(1201));
    let lengths: Vec<_> = (0..3).map(|clip| clips.clip_ticks(100, 0, clip)).collect();
    assert_eq!(lengths, [Ok(900), Ok(1), Ok(300)]);
    assert_eq!(clips.start_tick(0, 0, 0), Err(Refusal { number: 12, place: 0 }));
    assert_eq!(clips.start_tick(90_001, 0, 0), Err(Refusal { number: 12, place: 0 }));
    assert_eq!(clips.start_tick(100, 1_000_000, 0), Err(Refusal { number: 13, place: 0 }));
    assert_eq!(clips.clip_ticks(100, 0, 3), Err(Refusal { number: 14, place: 0 }));
    assert_eq!(MediaPlaylist::default().total(), Ok(0));
}

fn too_long_for_the_clock() {
    let mut segment = MediaSegment::empty();
    segment.set_duration_ns(1_000_000_000_000_000);
    let mut list = MediaPlaylist { segments: vec![segment.clone()], ..Default::default() };
    assert_eq!(list.total(), Ok(1_000_000_000_000_000));
    segment.set_duration_ns(1);
    list.segments.push(segment.clone());
    assert_eq!(list.total(), Err(Refusal { number: 11, place: 0 }));
    segment.set_duration_ns(u64::MAX);
    list.segments.push(segment);
    assert_eq!(list.total(), Err(Refusal { number: 9, place: 0 }));
}

fn the_starts() {
    let list = parse_media_playlist_res(SHEET).expect("the sheet is read");
    let clips = list.clips();
    let starts: Vec<_> = (0..4).map(|clip| clips.start_ns(clip)).collect();
    assert_eq!(starts, [Ok(0), Ok(9_009_000_000), Ok(9_013_000_000), refusal(14)]);
    assert_eq!(list.start_ns(1), Ok(9_009_000_000));
    for (turn, ticks) in [(0, [0, 900, 901]), (1, [1201, 2102, 2102]), (2, [2403, 3304, 3304])] {
        let starts: Vec<Start> = clips.starts(100, turn).expect("the turn has starts").collect();
        let hand = [(0, ticks[0]), (9_009_000_000, ticks[1]), (9_013_000_000, ticks[2])];
        assert_eq!(starts, hand.map(|(ns, tick)| Start { ns, tick }));
        assert!(list.starts(100, turn).expect("the turn has starts").eq(starts));
    }
}

fn starts_refused() {
    let clips = parse_media_playlist_res(SHEET).expect("the sheet is read").clips();
    let none = lasting(&[]);
    assert_eq!(none.starts(100, 0).map(|starts| starts.len()), Ok(0));
    assert_eq!(none.start_ns(0), refusal(14));
    // In the order of the calls: 9, 11, 12, 13.
    let too_long = lasting(&[1_000_000_000_000_000, 1]);
    let broken = lasting(&[1_000_000_000_000_000, 1_000_000_000_000_000_000]);
    assert_eq!(broken.starts(0, 1_000_000).err(), Some(Refusal { number: 9, place: 0 }));
    assert_eq!(too_long.starts(0, 1_000_000).err(), Some(Refusal { number: 11, place: 0 }));
    for rate in [0, 90_001, u64::MAX] {
        assert_eq!(clips.starts(rate, 1_000_000).err(), Some(Refusal { number: 12, place: 0 }));
        assert_eq!(none.starts(rate, 0).err(), Some(Refusal { number: 12, place: 0 }));
    }
    assert_eq!(clips.starts(90_000, 1_000_000).err(), Some(Refusal { number: 13, place: 0 }));
    assert_eq!(clips.starts(90_000, 999_999).map(|starts| starts.len()), Ok(3));
    assert_eq!((broken.start_ns(2), too_long.start_ns(2)), (refusal(9), refusal(11)));
}

/// The starts can be taken from both ends; what was taken is gone, and after the last there is none.
fn starts_from_both_ends() {
    let starts = lasting(&[5, 7, 0, 9]).starts(90_000, 0).expect("the turn has starts");
    let ns = |start: Start| start.ns;
    assert_eq!(starts.clone().map(ns).collect::<Vec<_>>(), [0, 5, 12, 12]);
    assert_eq!(starts.clone().rev().map(ns).collect::<Vec<_>>(), [12, 12, 5, 0]);
    let mut left = starts.clone();
    assert_eq!((left.len(), left.size_hint()), (4, (4, Some(4))));
    assert_eq!((left.next().map(ns), left.next_back().map(ns), left.len()), (Some(0), Some(12), 2));
    assert_eq!((left.nth(1).map(ns), left.len()), (Some(12), 0));
    assert_eq!((left.next(), left.next_back(), left.next()), (None, None, None));
    assert_eq!(starts.len(), 4);
    assert!(format!("{:?}", starts).starts_with("Starts"));
}

/// All starts at once are those asked one by one, and the sums that they should be.
fn starts_agree() {
    let mut chance = Chance(1);
    for digits in 0..=12 {
        for _ in 0..20 {
            let lengths = chance.lengths(40, 10u64.pow(digits));
            let (rate, turn) = (1 + chance.upto(89_999), chance.upto(999_999));
            let clips = lasting(&lengths);
            let starts = clips.starts(rate, turn).expect("the turn has starts");
            assert_eq!(starts.len(), lengths.len());
            let total: u64 = lengths.iter().sum();
            let mut before = 0;
            for (clip, start) in starts.enumerate() {
                let moment = u128::from(turn) * u128::from(total) + u128::from(before);
                let tick = moment * u128::from(rate) / 1_000_000_000;
                assert_eq!((start.ns, u128::from(start.tick)), (before, tick));
                assert_eq!(clips.start_ns(clip), Ok(start.ns));
                assert_eq!(clips.start_tick(rate, turn, clip), Ok(start.tick));
                before += lengths[clip];
            }
        }
    }
}

fn what_is_on() {
    let list = parse_media_playlist_res(SHEET).expect("the sheet is read");
    let clips = list.clips();
    for (tick, turn, clip, since, left) in [
        (0, 0, 0, 0, 900),
        (899, 0, 0, 899, 1),
        (900, 0, 1, 0, 1),
        (901, 0, 2, 0, 300),
        (1200, 0, 2, 299, 1),
        (1201, 1, 0, 0, 901),
        (2102, 1, 2, 0, 301), // clip 1 starts at the same tick
        (3304, 2, 2, 0, 300), // and here too
        (1_201_599_999, 999_999, 2, 300, 1),
    ] {
        assert_eq!(clips.clip_at(100, tick), Ok(On { turn, clip }));
        assert_eq!(clips.playing_at(100, tick), Ok(Playing { turn, clip, since, left }));
        assert_eq!(list.clip_at(100, tick), clips.clip_at(100, tick));
        assert_eq!(list.playing_at(100, tick), clips.playing_at(100, tick));
    }
    // The start tick of a clip counts, not its moment.
    let halves = lasting(&[500_000_000, 500_000_000]);
    assert_eq!(halves.playing_at(1, 0), Ok(Playing { turn: 0, clip: 1, since: 0, left: 1 }));
    assert_eq!(halves.clip_at(2, 0), Ok(On { turn: 0, clip: 0 }));
    // A million turns within one tick: the last of them.
    let shortest = lasting(&[1]);
    assert_eq!(shortest.playing_at(1000, 0), Ok(Playing { turn: 999_999, clip: 0, since: 0, left: 1 }));
    // A clip of length 0 is never on.
    let still = lasting(&[0, 1_000_000_000, 0]);
    for tick in [0, 1, 2, 999_999] {
        assert_eq!(still.playing_at(1, tick), Ok(Playing { turn: tick, clip: 1, since: 0, left: 1 }));
    }
    // The largest tick that is answered.
    let longest = lasting(&[1_000_000_000_000_000]);
    let last = Playing { turn: 999_999, clip: 0, since: 89_999_999_999, left: 1 };
    assert_eq!(longest.playing_at(90_000, 89_999_999_999_999_999), Ok(last));
    assert!(On { turn: 0, clip: 2 } < On { turn: 1, clip: 0 } && On { turn: 1, clip: 0 } < On { turn: 1, clip: 1 });
}

/// A clip that is on, by both calls, which give the same.
fn on(clips: &Clips, rate: u64, tick: u64) -> Result<Playing, Refusal> {
    let playing = clips.playing_at(rate, tick);
    assert_eq!(clips.clip_at(rate, tick), playing.map(|now| On { turn: now.turn, clip: now.clip }));
    playing
}

fn on_refused() {
    let clips = parse_media_playlist_res(SHEET).expect("the sheet is read").clips();
    let (none, nothing, shortest) = (lasting(&[]), lasting(&[0, 0]), lasting(&[1]));
    let longest = lasting(&[1_000_000_000_000_000]);
    // In the order of the calls: 9, 11, 12, 17, 18.
    assert_eq!(on(&lasting(&[1_000_000_000_000_000_000]), 0, u64::MAX), refusal(9));
    assert_eq!(on(&lasting(&[1_000_000_000_000_000, 1]), 0, u64::MAX), refusal(11));
    for rate in [0, 90_001, u64::MAX] {
        assert_eq!(on(&none, rate, u64::MAX), refusal(12));
        assert_eq!(on(&clips, rate, 0), refusal(12));
    }
    for tick in [0, u64::MAX] {
        assert_eq!(on(&none, 100, tick), refusal(17));
        assert_eq!(on(&nothing, 100, tick), refusal(17));
    }
    // The first tick that is too late, and those after it.
    for (clips, rate, end) in [
        (&clips, 100, 1_201_600_000),
        (&shortest, 999, 0),
        (&shortest, 1000, 1),
        (&longest, 90_000, 90_000_000_000_000_000),
    ] {
        for tick in [end, end + 1, 1 << 63, u64::MAX] {
            assert_eq!(on(clips, rate, tick), refusal(18));
        }
    }
    assert_eq!(Refusal { number: 17, place: 0 }.reason(), "nothing plays: there are no clips, or the total is 0");
    assert_eq!(Refusal { number: 18, place: 0 }.reason(), "the tick is at or past the start tick of turn 1,000,000");
}

/// At each tick of these turns the last pair that has started is on, by the clock's own starts and ticks. The tick after
/// them.
fn each_tick_agrees(clips: &Clips, rate: u64, turns: RangeInclusive<u64>) -> u64 {
    let mut pairs = Vec::new();
    for turn in turns {
        let starts = (0..clips.len()).map(|clip| clips.start_tick(rate, turn, clip).expect("a start"));
        pairs.extend(starts.enumerate().map(|(clip, start)| (start, On { turn, clip })));
    }
    let ticks = |on: On| clips.clip_ticks(rate, on.turn, on.clip).expect("a clip's ticks");
    let (first, (last, pair)) = (pairs[0].0, pairs[pairs.len() - 1]);
    let end = last + ticks(pair);
    for tick in first..end {
        let (start, pair) = *pairs.iter().rfind(|(start, _)| *start <= tick).expect("a pair that has started");
        let now = on(clips, rate, tick).expect("a clip is on");
        assert_eq!((now.turn, now.clip, now.since), (pair.turn, pair.clip, tick - start));
        assert!(0 < now.left && now.since + now.left == ticks(pair));
    }
    end
}

fn on_agrees() {
    let mut chance = Chance(2);
    let mut played = 0;
    for _ in 0..400 {
        let lengths = chance.lengths(6, 3_000_000_000);
        let rate = 1 + chance.upto(12);
        let clips = lasting(&lengths);
        if lengths.iter().sum::<u64>() == 0 {
            assert_eq!(on(&clips, rate, 0), refusal(17));
            continue;
        }
        played += each_tick_agrees(&clips, rate, 0..=2);
        let end = each_tick_agrees(&clips, rate, 999_998..=999_999);
        assert_eq!(on(&clips, rate, end), refusal(18));
    }
    assert!(1000 < played);
}

/// At any tick of any turn: the last moment of the tick lies in the turn and in the clip that are on.
fn on_by_sums() {
    let mut chance = Chance(3);
    for digits in 0..=14 {
        for _ in 0..40 {
            let lengths = chance.lengths(10, 10u64.pow(digits));
            let rate = 1 + chance.upto(89_999);
            let clips = lasting(&lengths);
            let total = u128::from(lengths.iter().sum::<u64>());
            let end = 1_000_000 * total * u128::from(rate) / 1_000_000_000;
            let tick = chance.upto(end as u64);
            if total == 0 || end == u128::from(tick) {
                assert_eq!(on(&clips, rate, tick), refusal(if total == 0 { 17 } else { 18 }));
                continue;
            }
            let moment = ((u128::from(tick) + 1) * 1_000_000_000 - 1) / u128::from(rate);
            let now = on(&clips, rate, tick).expect("a clip is on");
            let before = u128::from(lengths[..now.clip].iter().sum::<u64>());
            let after = before + u128::from(lengths[now.clip]);
            assert_eq!(u128::from(now.turn), moment / total);
            assert!(before <= moment % total && moment % total < after);
            assert_eq!(clips.start_tick(rate, now.turn, now.clip), Ok(tick - now.since));
            assert_eq!(clips.clip_ticks(rate, now.turn, now.clip), Ok(now.since + now.left));
        }
    }
}

/// A cabinet that waits until the next start, and asks again, is told that a clip has just started.
fn from_start_to_start() {
    let clips = lasting(&[9_009_000_000, 0, 4_000_000, 3_003_000_000]);
    let mut tick = 0;
    for _ in 0..1000 {
        let now = clips.playing_at(7, tick).expect("a clip is on");
        assert_eq!((now.since, on(&clips, 7, tick + now.left - 1).map(|later| later.since)), (0, Ok(now.left - 1)));
        tick += now.left;
    }
}

fn lengths_in_both_forms() {
    for (text, ns, bits) in [
        ("0.1", 100_000_000, 0x3DCC_CCCD),
        ("9", 9_000_000_000, 0x4110_0000),
        ("16777217", 16_777_217_000_000_000, 0x4B80_0000),
        ("999999999.999999999", 999_999_999_999_999_999, 0x4E6E_6B28),
        ("0", 0, 0),
    ] {
        let list = parsed(&format!("#EXTM3U\n#EXTINF:{},\nx\n", text));
        let read = &list.segments[0];
        assert_eq!((read.duration_ns, read.duration.to_bits()), (ns, bits));
        let mut made = MediaSegment::empty();
        made.set_duration_ns(ns);
        assert_eq!(made.duration.to_bits(), bits);
    }
}

type Window = Result<Option<Range<u64>>, Refusal>;

fn bytes(start: u64, end: u64) -> Window {
    Ok(Some(start..end))
}

/// So many bytes from an offset.
fn at(offset: u64, length: u64) -> Option<ByteRange> {
    Some(ByteRange { length, offset: Some(offset) })
}

/// So many bytes behind the range before.
fn goes_on(length: u64) -> Option<ByteRange> {
    Some(ByteRange { length, offset: None })
}

/// A list by the URIs and ranges of its clips.
fn ranged(clips: &[(&str, Option<ByteRange>)]) -> MediaPlaylist {
    let segment = |(uri, byte_range): &(&str, Option<ByteRange>)| MediaSegment {
        uri: uri.to_string(),
        byte_range: *byte_range,
        ..Default::default()
    };
    MediaPlaylist { segments: clips.iter().map(segment).collect(), ..Default::default() }
}

/// A list's windows by both calls, which give the same.
fn windows_of(list: &MediaPlaylist) -> Vec<Window> {
    let clips = list.clips();
    let windows: Vec<Window> = clips.windows().expect("the list has windows").collect();
    let one_by_one: Vec<Window> = (0..clips.len()).map(|clip| clips.window(clip)).collect();
    assert_eq!(windows, one_by_one);
    assert_eq!(clips.window(clips.len()), refusal(14));
    windows
}

fn windows() {
    let list = parsed(
        "#EXTM3U\n#EXT-X-BYTERANGE:10@5\na\n#EXT-X-BYTERANGE:7\na\n#EXT-X-BYTERANGE:7\nb\nc\n\
         #EXT-X-BYTERANGE:2@18446744073709551614\nd\n",
    );
    assert_eq!(list.segments[0].byte_range, Some(ByteRange { length: 10, offset: Some(5) }));
    assert_eq!(list.segments[1].byte_range, Some(ByteRange { length: 7, offset: None }));
    assert_eq!(windows_of(&list), [bytes(5, 15), bytes(15, 22), refusal(16), Ok(None), refusal(15)]);
    assert_eq!((list.window(1), list.window(4), list.window(5)), (bytes(15, 22), refusal(15), refusal(14)));
    assert!(list.windows().expect("the list has windows").eq(windows_of(&list)));
    assert_eq!(windows_of(&MediaPlaylist::default()), []);
    assert_eq!(
        Refusal { number: 16, place: 0 }.reason(),
        "the range has no offset, and no range of the same URI comes just before it"
    );
}

/// A list whose clips are all cut from one file, as packagers write it.
fn a_reel() {
    let text = "#EXTM3U\n#EXT-X-VERSION:4\n#EXT-X-TARGETDURATION:2\n\
                #EXTINF:2.000000,\n#EXT-X-BYTERANGE:94752@0\nreel.ts\n\
                #EXTINF:2.000000,\n#EXT-X-BYTERANGE:96068\nreel.ts\n\
                #EXTINF:2.000000,\n#EXT-X-BYTERANGE:95128\nreel.ts\n\
                #EXT-X-DISCONTINUITY\n#EXTINF:1.040000,\n#EXT-X-BYTERANGE:47564\nreel.ts\n#EXT-X-ENDLIST\n";
    let hand = [bytes(0, 94_752), bytes(94_752, 190_820), bytes(190_820, 285_948), bytes(285_948, 333_512)];
    let list = parsed(text);
    assert!(list.segments[3].discontinuity);
    assert_eq!(windows_of(&list), hand);
    // A window is the same after writing and reading again.
    let again = parse_media_playlist_res(&list.to_text().expect("it is written")).expect("it is read");
    assert_eq!(windows_of(&again), hand);
    // Without the first clip no range has a beginning, until one has an offset.
    let late = text.replace("#EXTINF:2.000000,\n#EXT-X-BYTERANGE:94752@0\nreel.ts\n", "");
    assert_eq!(windows_of(&parsed(&late)), [refusal(16), refusal(16), refusal(16)]);
    let late = late.replace("95128", "95128@190820");
    assert_eq!(windows_of(&parsed(&late)), [refusal(16), bytes(190_820, 285_948), bytes(285_948, 333_512)]);
}

fn chains() {
    // Nothing comes before the first.
    assert_eq!(windows_of(&ranged(&[("a", goes_on(4))])), [refusal(16)]);
    assert_eq!(windows_of(&ranged(&[("a", goes_on(0)), ("a", goes_on(5))])), [refusal(16), refusal(16)]);
    // An offset begins anew, also at 0 and backwards, and a range of no bytes is one.
    let list = ranged(&[("a", at(7, 5)), ("a", goes_on(0)), ("a", goes_on(3)), ("a", at(0, 2)), ("a", goes_on(9))]);
    assert_eq!(windows_of(&list), [bytes(7, 12), bytes(12, 12), bytes(12, 15), bytes(0, 2), bytes(2, 11)]);
    // A clip without a range lies between: it is not skipped, and whatever comes before it, it is whole.
    let list = ranged(&[("a", at(7, 5)), ("a", None), ("a", goes_on(1)), ("a", None), ("a", goes_on(1))]);
    assert_eq!(windows_of(&list), [bytes(7, 12), Ok(None), refusal(16), Ok(None), refusal(16)]);
    // Another URI: neither goes on from the other, nor is the clip of the other skipped.
    let list = ranged(&[("a", at(7, 5)), ("b", goes_on(1)), ("a", goes_on(1)), ("b", at(2, 3)), ("b", goes_on(1))]);
    assert_eq!(windows_of(&list), [bytes(7, 12), refusal(16), refusal(16), bytes(2, 5), bytes(5, 6)]);
    // One URI is the beginning of another, or its end, or differs in a byte; none is resolved.
    for other in ["ab", "abcd", "bc", "", "abd", "bbc", "aBc", "./abc", "abc?", "%61bc"] {
        for (one, other) in [("abc", other), (other, "abc")] {
            let list = ranged(&[(one, at(7, 5)), (other, goes_on(1))]);
            assert_eq!(windows_of(&list), [bytes(7, 12), refusal(16)]);
        }
    }
    // Empty URIs, which no text has, are the same.
    assert_eq!(windows_of(&ranged(&[("", at(3, 2)), ("", goes_on(4))])), [bytes(3, 5), bytes(5, 9)]);
    // What else a clip has does not matter.
    let mut list = ranged(&[("a", at(7, 5)), ("a", goes_on(1)), ("a", goes_on(2))]);
    let map = Map { uri: "m".into(), byte_range: at(90, 9), attributes: "URI=\"m\"".into() };
    let tag = ExtTag { tag: "X-FOO".into(), rest: Some("bar".into()) };
    list.segments[0].unknown_tags.push(tag);
    list.segments[1].discontinuity = true;
    list.segments[1].title = Some("a".into());
    list.segments[1].map = Some(map);
    list.segments[2].set_duration_ns(u64::MAX);
    assert_eq!(windows_of(&list), [bytes(7, 12), bytes(12, 13), bytes(13, 15)]);
}

/// Ends around 2^64 - 1.
fn far_windows() {
    const MOST: u64 = u64::MAX;
    let list = ranged(&[("a", at(MOST - 1, 1)), ("a", goes_on(0)), ("a", goes_on(1)), ("a", goes_on(0))]);
    assert_eq!(windows_of(&list), [bytes(MOST - 1, MOST), bytes(MOST, MOST), refusal(15), refusal(15)]);
    let list = ranged(&[("a", at(0, MOST)), ("a", goes_on(1)), ("a", goes_on(MOST)), ("a", at(0, 1))]);
    assert_eq!(windows_of(&list), [bytes(0, MOST), refusal(15), refusal(15), bytes(0, 1)]);
    let list = ranged(&[("a", at(1, MOST)), ("a", goes_on(0)), ("b", goes_on(0)), ("b", None), ("b", goes_on(MOST))]);
    assert_eq!(windows_of(&list), [refusal(15), refusal(15), refusal(16), Ok(None), refusal(16)]);
    // Without a beginning nothing is too far.
    let list = ranged(&[("a", goes_on(MOST)), ("a", goes_on(MOST)), ("a", goes_on(2))]);
    assert_eq!(windows_of(&list), [refusal(16), refusal(16), refusal(16)]);
}

/// The rule once more, clip by clip, in numbers that hold any sum: `ends` is where the range before ends, and of which URI.
fn windows_by_sums(list: &MediaPlaylist) -> Vec<Window> {
    let mut ends: Option<(&str, u128)> = None;
    let mut windows = Vec::new();
    for segment in &list.segments {
        let before = ends.take().filter(|(uri, _)| *uri == segment.uri).map(|(_, end)| end);
        let range = match &segment.byte_range {
            Some(range) => range,
            None => {
                windows.push(Ok(None));
                continue;
            }
        };
        let start = range.offset.map(u128::from).or(before);
        ends = start.map(|start| (segment.uri.as_str(), start + u128::from(range.length)));
        windows.push(match (start, ends) {
            (Some(start), Some((_, end))) if end <= u128::from(u64::MAX) => bytes(start as u64, end as u64),
            (Some(_), _) => refusal(15),
            (None, _) => refusal(16),
        });
    }
    windows
}

/// Short lists and a long one: each clip's window is what the sums are, by both calls.
fn windows_agree() {
    let mut chance = Chance(4);
    let [mut whole, mut given, mut too_far, mut no_beginning] = [0; 4];
    for count in (0..400).map(|list| list % 13).chain([2_000]) {
        let list = chance.reel(count);
        let windows = windows_of(&list);
        assert_eq!(windows, windows_by_sums(&list));
        for window in windows {
            match window.map_err(|refusal| refusal.number) {
                Ok(None) => whole += 1,
                Ok(Some(_)) => given += 1,
                Err(15) => too_far += 1,
                Err(_) => no_beginning += 1,
            }
        }
    }
    assert!(100 < whole && 100 < given && 100 < too_far && 100 < no_beginning);
}

/// As many clips of one reel as a text holds: what was read is never too long for its windows.
fn longest_reel() {
    let mut text = b"#EXTM3U\n#EXT-X-BYTERANGE:1@0\na\n".to_vec();
    while text.len() + 21 <= 65_536 {
        text.extend_from_slice(b"#EXT-X-BYTERANGE:1\na\n");
    }
    let clips = parse_media_playlist_res(&text).expect("it is read").clips();
    let windows = clips.windows().expect("the list has windows");
    assert_eq!((clips.len(), windows.len()), (3_120, 3_120));
    assert!(windows.zip(0..).all(|(window, clip)| window == bytes(clip, clip + 1)));
    assert_eq!(clips.window(3_119), bytes(3_119, 3_120));
    let uri = "a".repeat(65_500);
    let list = parsed(&format!("#EXTM3U\n#EXT-X-BYTERANGE:1@0\n{}", uri));
    assert_eq!((list.segments[0].uri.len(), windows_of(&list)), (65_500, vec![bytes(0, 1)]));
}

/// Strings of 65,535 bytes together are taken, and one byte more is refused, before there is no such clip. The clock does
/// not go by strings.
fn too_long_for_windows() {
    let mut list = ranged(&[(&"a".repeat(30_000), at(7, 5)), (&"a".repeat(30_000), goes_on(1))]);
    list.segments[1].title = Some("t".repeat(5_535));
    assert_eq!(windows_of(&list), [bytes(7, 12), bytes(12, 13)]);
    for uri in ["b".to_string(), "b".repeat(65_536)] {
        list.segments.push(MediaSegment { uri, ..Default::default() });
        let clips = list.clips();
        for clip in [0, 1, 2, 3, usize::MAX] {
            assert_eq!(clips.window(clip), refusal(1));
        }
        assert_eq!(clips.windows().err(), Some(Refusal { number: 1, place: 0 }));
        assert_eq!(list.windows().err(), Some(Refusal { number: 1, place: 0 }));
        assert_eq!((clips.total(), clips.start_ns(2)), (Ok(0), Ok(0)));
    }
}

/// The windows can be taken from both ends; what was taken is gone, and after the last there is none.
fn windows_from_both_ends() {
    let list = ranged(&[("a", at(7, 5)), ("a", goes_on(1)), ("a", None), ("a", goes_on(2))]);
    let windows = list.windows().expect("the list has windows");
    let mut hand = vec![bytes(7, 12), bytes(12, 13), Ok(None), refusal(16)];
    assert_eq!(windows.clone().collect::<Vec<_>>(), hand);
    hand.reverse();
    assert_eq!(windows.clone().rev().collect::<Vec<_>>(), hand);
    let mut left = windows.clone();
    assert_eq!((left.len(), left.size_hint()), (4, (4, Some(4))));
    assert_eq!((left.next(), left.next_back(), left.len()), (Some(bytes(7, 12)), Some(refusal(16)), 2));
    assert_eq!((left.nth(1), left.len()), (Some(Ok(None)), 0));
    assert_eq!((left.next(), left.next_back(), left.next()), (None, None, None));
    assert_eq!(windows.len(), 4);
    assert!(format!("{:?}", windows).starts_with("Windows"));
}

/// A list by the lengths in ns and the URIs of its clips.
fn cued<'a>(clips: impl IntoIterator<Item = (u64, &'a str)>) -> MediaPlaylist {
    let mut list = MediaPlaylist::default();
    for (ns, uri) in clips {
        let mut segment = MediaSegment { uri: uri.into(), ..Default::default() };
        segment.set_duration_ns(ns);
        list.segments.push(segment);
    }
    list
}

/// 01's sheet as a cue file: three records, the URIs from byte 30 on, the trailer. 9,000,000 is 0x895440, 13,000,000 0xC65D40.
const CUE_FILE: &[u8] = b"\0\0\0\0\0\0\0\0\0\x04\
    \0\0\0\x09\0\x89\x54\x40\0\x04\
    \0\0\0\x09\0\xC6\x5D\x40\0\x04\
    a.tsb.tsc.ts\
    \0\0\0\0\0\0\0\x1E\0\x03\0\x01";

/// A file's clips, by the call for one and by the pass over all, from both ends, which give the same.
fn cues_of(file: &[u8]) -> Result<Vec<Cue<'_>>, Refusal> {
    let all: Vec<Cue> = match cues(file) {
        Ok(all) => all.collect(),
        Err(refusal) => {
            assert_eq!((read_cue(file, 0), read_cue(file, usize::MAX)), (Err(refusal), Err(refusal)));
            return Err(refusal);
        }
    };
    let mut back: Vec<Cue> = cues(file)?.rev().collect();
    back.reverse();
    assert_eq!(all, back);
    // Each call judges the whole file: of a long one the clips at its ends and some between are asked for.
    for clip in (0..all.len()).filter(|clip| all.len() < 100 || clip % 9_001 == 0 || clip + 2 > all.len()) {
        assert_eq!(read_cue(file, clip).as_ref(), Ok(&all[clip]));
    }
    assert_eq!((read_cue(file, all.len()), read_cue(file, usize::MAX)), (refusal(14), refusal(14)));
    Ok(all)
}

fn the_cue_file() {
    let list = parse_media_playlist_res(SHEET).expect("the sheet is read");
    let clips = list.clips();
    assert_eq!((clips.cue_file().as_deref(), list.cue_file().as_deref()), (Ok(CUE_FILE), Ok(CUE_FILE)));
    let cue = |start_ns, uri: &'static str, start| Cue { start_ns, uri: uri.as_bytes(), place: start..start + 4 };
    let hand = [cue(0, "a.ts", 30), cue(9_009_000_000, "b.ts", 34), cue(9_013_000_000, "c.ts", 38)];
    assert_eq!(cues_of(CUE_FILE).as_deref(), Ok(&hand[..]));
    // Bytes behind the file stay as they were; where it has no room all do.
    for room in 0..60 {
        let mut out = vec![7; room];
        let written = clips.write_cue_file(&mut out);
        if room < 54 {
            assert_eq!((written, out), (refusal(10), vec![7; room]));
        } else {
            assert_eq!((written, &out[..54], &out[54..]), (Ok(54), CUE_FILE, &[7; 6][..room - 54]));
        }
    }
}

/// A list's file once more, from 02's sentence.
fn file_by_hand(list: &MediaPlaylist) -> Vec<u8> {
    let (mut file, mut uris) = (Vec::new(), Vec::<u8>::new());
    let mut start = 0;
    for segment in &list.segments {
        file.extend(((start / 1_000_000_000) as u32).to_be_bytes());
        file.extend(((start % 1_000_000_000) as u32).to_be_bytes());
        file.extend((segment.uri.len() as u16).to_be_bytes());
        uris.extend(segment.uri.as_bytes());
        start += segment.duration_ns;
    }
    let place = file.len() as u32;
    file.extend(uris);
    file.extend(0u32.to_be_bytes());
    file.extend(place.to_be_bytes());
    file.extend((list.segments.len() as u16).to_be_bytes());
    file.extend(1u16.to_be_bytes());
    file
}

/// Written, read and written again: the file is 02's, its clips are the list's starts and URIs, and a list with these has
/// the same file.
fn there_and_back(list: &MediaPlaylist) -> Vec<u8> {
    let file = list.cue_file().expect("it is written");
    assert!(file == file_by_hand(list));
    let found = cues_of(&file).expect("it is read");
    let starts = list.starts(1, 0).expect("the turn has starts");
    let hand = starts.zip(&list.segments).map(|(start, segment)| (start.ns, segment.uri.as_bytes()));
    assert!(found.iter().map(|cue| (cue.start_ns, cue.uri)).eq(hand));
    let ends = found.iter().skip(1).map(|cue| cue.start_ns).chain(found.last().map(|cue| cue.start_ns));
    let lengths = ends.zip(&found).map(|(end, cue)| end - cue.start_ns);
    let uris = found.iter().map(|cue| std::str::from_utf8(cue.uri).expect("a URI of a list is UTF-8"));
    assert!(cued(lengths.zip(uris)).cue_file().as_ref() == Ok(&file));
    file
}

fn cue_files_undone() {
    assert_eq!(there_and_back(&MediaPlaylist::default()), b"\0\0\0\0\0\0\0\0\0\0\0\x01");
    there_and_back(&cued([(0, ""), (0, ""), (0, "")]));
    there_and_back(&cued([(999_999_999, "a"), (1, "\0"), (999_999_000_000_000, "\u{e9}"), (0, "")]));
    // The last length is in no file.
    assert_eq!(there_and_back(&cued([(5, "a")])), there_and_back(&cued([(1_000_000_000_000_000, "a")])));
    // A start of exactly 1,000,000 s.
    there_and_back(&cued([(1_000_000_000_000_000, "a"), (0, "b")]));
    let mut chance = Chance(5);
    for digits in 0..=12 {
        for _ in 0..20 {
            let lengths = chance.lengths(40, 10u64.pow(digits));
            let uris = ["a.ts", "", "b", "\u{6620}\u{50cf}.ts"];
            there_and_back(&cued(lengths.iter().map(|ns| (*ns, uris[chance.upto(3) as usize]))));
        }
    }
    // As many clips as a text holds, and the longest URI that a list holds.
    let mut text = b"#EXTM3U".to_vec();
    while text.len() + 2 <= 65_536 {
        text.extend_from_slice(b"a\n");
    }
    text.push(b'a');
    let file = there_and_back(&parse_media_playlist_res(&text).expect("it is read"));
    assert_eq!(file.len(), 32_765 * 11 + 12);
    assert_eq!(there_and_back(&cued([(1, &*"u".repeat(65_535))])).len(), 10 + 65_535 + 12);
}

/// 1, 9, 11, 33, 10: each before those behind it, and no byte is touched.
fn cue_writing_refused() {
    let refused = |list: &MediaPlaylist| {
        let mut out = [7; 100];
        let (whole, lent) = (list.cue_file(), list.clips().write_cue_file(&mut out));
        assert_eq!(out, [7; 100]);
        assert_eq!(whole.as_ref().err(), lent.as_ref().err());
        whole.expect_err("the list is refused").number
    };
    // All four at once, then one less each time. Of strings a list may have 65,535 bytes.
    let mut list = cued([(0, "")].repeat(65_536));
    list.segments[0].uri = "u".repeat(65_536);
    list.segments[1].set_duration_ns(1_000_000_000_000_000_000);
    list.segments[2].set_duration_ns(1_000_000_000_000_000);
    list.segments[65_535].set_duration_ns(1);
    assert_eq!(refused(&list), 1);
    list.segments[0].uri = "u".repeat(65_535);
    assert_eq!(refused(&list), 9);
    list.segments[1].set_duration_ns(999_999_999_999_999_999);
    assert_eq!(refused(&list), 11);
    list.segments[1].set_duration_ns(0);
    assert_eq!(refused(&list), 11);
    list.segments[65_535].set_duration_ns(0);
    assert_eq!(refused(&list), 33);
    list.segments.pop();
    assert_eq!(there_and_back(&list).len(), 65_535 * 10 + 65_535 + 12);
    assert_eq!(list.clips().write_cue_file(&mut vec![0; 720_896]), refusal(10));
    assert_eq!(list.clips().write_cue_file(&mut vec![0; 720_897]), Ok(720_897));
    // Lengths that pass 2^64 together, and that are 2^64, which 64 bits would show as 0.
    list.segments.iter_mut().for_each(|segment| segment.set_duration_ns(999_999_999_999_999_999));
    assert_eq!(refused(&list), 11);
    list.segments.truncate(19);
    list.segments[18].set_duration_ns(446_744_073_709_551_634);
    assert_eq!(refused(&list), 11);
}

/// What the reader says of one clip, once more, in the order of 02's sentences.
fn cue_by_hand(file: &[u8], clip: usize) -> Result<(u64, Range<usize>), Refusal> {
    let number =
        |at: usize, width| file[at..at + width].iter().fold(0u64, |value, byte| value * 256 + u64::from(*byte));
    if file.len() < 12 {
        return refusal(19);
    }
    let trailer = file.len() - 12;
    if number(trailer + 10, 2) != 1 {
        return refusal(20);
    }
    let count = number(trailer + 8, 2) as usize;
    if number(trailer, 4) != 0 || number(trailer + 4, 4) != 10 * count as u64 || trailer < 10 * count {
        return refusal(21);
    }
    let lengths: Vec<usize> = (0..count).map(|k| number(10 * k + 8, 2) as usize).collect();
    if 10 * count + lengths.iter().sum::<usize>() != trailer {
        return refusal(21);
    }
    let starts: Vec<u64> = (0..count).map(|k| number(10 * k, 4) * 1_000_000_000 + number(10 * k + 4, 4)).collect();
    let falls = starts.windows(2).any(|pair| pair[1] < pair[0]);
    let carries = (0..count).any(|k| number(10 * k + 4, 4) >= 1_000_000_000);
    if starts.first() > Some(&0) || falls || carries || starts.last() > Some(&1_000_000_000_000_000) {
        return refusal(22);
    }
    if clip >= count {
        return refusal(14);
    }
    let from = 10 * count + lengths[..clip].iter().sum::<usize>();
    Ok((starts[clip], from..from + lengths[clip]))
}

/// Small files, and files that are not quite one: each is judged as by hand, whichever clip is asked for.
fn damaged_cue_files() {
    let mut chance = Chance(6);
    let mut seen = std::collections::BTreeMap::new();
    for _ in 0..6_000 {
        let lengths = chance.lengths(4, 4_000_000_000);
        let list = cued(lengths.iter().map(|ns| (*ns, ["a.ts", "", "b"][chance.upto(2) as usize])));
        let mut file = list.cue_file().expect("it is written");
        for _ in 0..chance.upto(2) {
            let at = chance.upto(file.len() as u64 - 1) as usize;
            match chance.upto(5) {
                0 => drop(file.remove(at)),
                1 => file.insert(at, chance.upto(255) as u8),
                2 => drop(file.drain(..at)),
                // A byte one more or less, or any other.
                3 => file[at] = file[at].wrapping_add(1),
                4 => file[at] = file[at].wrapping_sub(1),
                _ => file[at] = chance.upto(255) as u8,
            }
        }
        let all = cues_of(&file);
        for clip in 0..7 {
            let hand = cue_by_hand(&file, clip);
            let found = read_cue(&file, clip);
            assert_eq!(found.as_ref().map(|cue| (cue.start_ns, cue.place.clone())).map_err(|refusal| *refusal), hand);
            assert!(found.iter().all(|cue| cue.uri == &file[cue.place.clone()]));
            let number = hand.err().map_or(0, |refusal| refusal.number);
            assert_eq!(all.is_ok(), number == 0 || number == 14);
            *seen.entry(number).or_insert(0) += 1;
        }
    }
    assert!(seen.keys().eq(&[0, 14, 19, 20, 21, 22]) && seen.values().all(|times| 100 < *times), "{:?}", seen);
}

/// Each refusal of the reader, and what stands just beside it.
fn cue_reading_refused() {
    let with = |changes: &[(usize, u8)]| {
        let mut file = CUE_FILE.to_vec();
        changes.iter().for_each(|(at, byte)| file[*at] = *byte);
        cues_of(&file).map(|found| found.len()).map_err(|refusal| refusal.number)
    };
    assert_eq!(with(&[]), Ok(3));
    assert_eq!(with(&[(41, 0)]), Ok(3)); // a URI may be any bytes
    assert_eq!((with(&[(53, 2)]), with(&[(53, 0)]), with(&[(52, 1)])), (Err(20), Err(20), Err(20)));
    assert_eq!((with(&[(51, 2)]), with(&[(51, 4)]), with(&[(50, 1)])), (Err(21), Err(21), Err(21)));
    assert_eq!((with(&[(49, 29)]), with(&[(45, 1)]), with(&[(29, 3)])), (Err(21), Err(21), Err(21)));
    assert_eq!(with(&[(9, 3), (29, 5)]), Ok(3)); // the lengths still fit
    assert_eq!(
        (with(&[(7, 1)]), with(&[(3, 1)]), with(&[(23, 8)]), with(&[(13, 10)])),
        (Err(22), Err(22), Err(22), Err(22))
    );
    assert_eq!(with(&[(15, 0xC6), (16, 0x5D)]), Ok(3)); // equal starts
    assert_eq!(with(&[(15, 0xC6), (16, 0x5D), (17, 0x41)]), Err(22)); // a ns later than the next

    // 999,999,999 ns and a whole second of them; 1,000,000 s, and a ns more.
    let last = |seconds: u32, ns: u32| {
        let bytes = seconds.to_be_bytes().into_iter().chain(ns.to_be_bytes());
        with(&(20..).zip(bytes).collect::<Vec<_>>())
    };
    assert_eq!((last(9, 999_999_999), last(9, 1_000_000_000), last(8, 2_000_000_000)), (Ok(3), Err(22), Err(22)));
    assert_eq!((last(1_000_000, 0), last(1_000_000, 1), last(u32::MAX, u32::MAX)), (Ok(3), Err(22), Err(22)));
    // 20 before 21 before 22; and 19 whatever the bytes are.
    assert_eq!((with(&[(53, 2), (51, 2), (7, 1)]), with(&[(51, 2), (7, 1)])), (Err(20), Err(21)));
    for length in 0..12 {
        assert_eq!(cues_of(&CUE_FILE[54 - length..]), refusal(19));
    }
    assert_eq!(cues_of(&[0; 12]), refusal(20));
}

/// The clips of a file can be taken from both ends; what was taken is gone, and after the last there is none.
fn cues_from_both_ends() {
    let file = cued([(5, "ab"), (7, ""), (0, "cde"), (9, "f")]).cue_file().expect("it is written");
    let taken = |cue: Cue| (cue.start_ns, cue.place);
    let mut left = cues(&file).expect("it is read");
    assert_eq!((left.len(), left.size_hint()), (4, (4, Some(4))));
    assert_eq!((left.next().map(taken), left.next_back().map(taken)), (Some((0, 40..42)), Some((12, 45..46))));
    let rest = left.clone();
    assert_eq!((left.next_back().map(taken), left.next().map(taken)), (Some((12, 42..45)), Some((5, 42..42))));
    assert_eq!((left.len(), left.next(), left.next_back(), left.next()), (0, None, None, None));
    assert_eq!(rest.map(taken).collect::<Vec<_>>(), [(5, 42..42), (12, 42..45)]);
    assert!(format!("{:?}", cues(&file)).starts_with("Ok(Cues"));
}

fn heads() {
    let list = parsed(
        "#EXTM3U\n#EXT-X-VERSION:6\n#EXT-X-TARGETDURATION:3\n#EXT-X-MEDIA-SEQUENCE:338559\n\
         #EXT-X-DISCONTINUITY-SEQUENCE:1234\n#EXT-X-PLAYLIST-TYPE:VOD\n#EXT-X-I-FRAMES-ONLY\n\
         #EXT-X-INDEPENDENT-SEGMENTS\n#EXT-X-ENDLIST\n",
    );
    let hand = MediaPlaylist {
        version: Some(6),
        target_duration: 3,
        media_sequence: 338_559,
        discontinuity_sequence: 1234,
        end_list: true,
        playlist_type: Some(MediaPlaylistType::Vod),
        i_frames_only: true,
        independent_segments: true,
        segments: vec![],
    };
    assert_eq!(list, hand);
    let types = [("EVENT", MediaPlaylistType::Event), ("événement", MediaPlaylistType::Other("événement".into()))];
    for (text, hand) in types {
        assert_eq!(parsed(&format!("#EXTM3U\n#EXT-X-PLAYLIST-TYPE:{}\n", text)).playlist_type, Some(hand));
    }
    assert_eq!(parsed("#EXTM3U\n#EXT-X-VERSION:18446744073709551616\n").version, Some(0));
}

fn maps_and_unknown_tags() {
    let list = parsed(
        "#EXTM3U\n#EXT-X-FOO:bar\n#EXT-X-MAP:URI=\"m\",BYTERANGE=\"3@4\",z=1\n#EXT-X-DISCONTINUITY\na\n#EXT-Y\n#EXT-Z:\nb\n#EXT-X-LOST:1\n",
    );
    let first = &list.segments[0];
    assert!(first.discontinuity);
    assert_eq!(first.unknown_tags, [ExtTag { tag: "X-FOO".into(), rest: Some("bar".into()) }]);
    let map = first.map.as_ref().expect("a map");
    assert_eq!(map.uri, "m");
    assert_eq!(map.byte_range, Some(ByteRange { length: 3, offset: Some(4) }));
    assert_eq!(map.attributes, "URI=\"m\",BYTERANGE=\"3@4\",z=1");
    let second = &list.segments[1];
    assert!(!second.discontinuity && second.map.is_none());
    let tags: Vec<String> = second.unknown_tags.iter().map(ExtTag::to_string).collect();
    assert_eq!(tags, ["#EXT-Y", "#EXT-Z"]);
    let unquoted = parsed("#EXTM3U\n#EXT-X-MAP:URI=\"\"\nx\n");
    assert_eq!(unquoted.segments[0].unknown_tags[0].rest.as_deref(), Some("URI=\"\""));
}

fn edges() {
    assert_eq!(uris(&parsed("#EXTM3Uabc\n")), ["abc"]);
    assert_eq!(uris(&parsed("#EXTM3U\n#EXTINF:9,a,b\nx\n")), ["b", "x"]);
    assert_eq!(uris(&parsed("#EXTM3U\n#EXT-X-FOO")), ["#EXT-X-FOO"]);
    assert_eq!(uris(&parsed("#EXTM3U\n#EXT-X-FOO\n")), Vec::<&str>::new());
    let (rest, list) = parse_media_playlist(b"#EXTM3U\na\rb\n").expect("it is read up to the lone CR");
    assert_eq!((rest, list.segments.len()), (&b"a\rb\n"[..], 0));
    let list = parsed("#EXTM3U\n#EXT-X-TARGETDURATION:10.5\n");
    assert_eq!((list.target_duration, uris(&list)), (10, vec![".5"]));
}

fn refusals() {
    assert_eq!(refused(b""), (3, 0));
    assert_eq!(refused(b"#EXTM3U\n\xff"), (2, 8));
    assert_eq!(refused(b"#EXTM3U\n#EXT-X-MEDIA\n"), (4, 8));
    assert_eq!(refused(b"#EXTM3U\n#EXT-X-KEY:METHOD=NONE\n"), (5, 8));
    assert_eq!(refused(b"#EXTM3U\n#EXTINF:0000000009,\nx"), (6, 8));
    assert_eq!(refused(&vec![b'\n'; 65_537]), (1, 0));
    let refusal = Refusal { number: 5, place: 8 };
    assert!(refusal.to_string().starts_with("refused 5 at 8: "));
    let unknown = |number| Refusal { number, place: 0 }.reason() == "unknown";
    assert!(unknown(0) && !(1..=22).chain([33]).any(unknown) && unknown(23) && unknown(32) && unknown(34));
}

fn verdicts() {
    assert!(is_master_playlist(b"#EXTM3U\n#EXT-X-MEDIA\n"));
    assert!(!is_master_playlist(b"#EXTM3U\n#EXT-X-MEDIA-"));
    assert!(!is_master_playlist(b""));
    assert_eq!(is_master_playlist_res(b""), Err(Refusal { number: 3, place: 0 }));
}

/// The text with the most clips.
fn fullest_of_clips() -> Vec<u8> {
    let mut clips = b"#EXTM3U".to_vec();
    while clips.len() + 2 <= 65_536 {
        clips.extend_from_slice(b"a\n");
    }
    clips.push(b'a');
    clips
}

/// The text with the most unknown tags.
fn fullest_of_tags() -> Vec<u8> {
    let mut tags = b"#EXTM3U".to_vec();
    while tags.len() + 8 <= 65_536 {
        tags.extend_from_slice(b"#EXT-a\r");
    }
    tags.push(b'x');
    tags
}

/// The tables are long enough for the texts with the most clips and tags.
fn fullest() {
    let (clips, tags) = (fullest_of_clips(), fullest_of_tags());
    assert_eq!(parse_media_playlist_res(&clips).map(|list| list.segments.len()), Ok(MOST_CLIPS));
    assert_eq!(parse_media_playlist_res(&tags).map(|list| list.segments[0].unknown_tags.len()), Ok(MOST_TAGS));
    assert_eq!((MOST_CLIPS, MOST_TAGS), (32_765, 9_361));
}

const PIECES: [&[u8]; 12] = [
    b"#EXTM3U",
    b"\n",
    b"\r",
    b"#EXTINF:1.5,",
    b"#EXT-",
    b"X-MAP:URI=\"",
    b"\"",
    b"#EXT-X-BYTERANGE:7@",
    b"9",
    b"a",
    b"\xc3",
    b",",
];

/// Nothing panics: each text of up to six of these pieces is answered.
fn any_pieces() {
    let mut seed = 1u64;
    for _ in 0..20_000 {
        let mut text = b"#EXTM3U\n".to_vec();
        seed = seed.wrapping_mul(6_364_136_223_846_793_005).wrapping_add(1);
        let mut left = seed >> 16;
        for _ in 0..left % 13 {
            left /= 13;
            text.extend_from_slice(PIECES[(left % 12) as usize]);
        }
        if let Ok((rest, list)) = parse_media_playlist(&text) {
            let clips = list.clips();
            assert_eq!(clips.len(), list.segments.len());
            assert!(rest.len() <= text.len() && clips.total().is_ok());
            assert_eq!(windows_of(&list), windows_by_sums(&list));
        }
    }
}

fn written() {
    let text = "#EXTM3U\n#EXT-X-VERSION:0\n#EXT-X-INDEPENDENT-SEGMENTS\n#EXT-X-TARGETDURATION:9\n#EXT-X-MEDIA-SEQUENCE:2\n\
                #EXT-X-DISCONTINUITY-SEQUENCE:1\n#EXT-X-PLAYLIST-TYPE:caf\u{e9}\n#EXT-X-I-FRAMES-ONLY\n\
                #EXT-X-MAP:URI=\"m\",BYTERANGE=\"3@0\"\n#EXT-X-BYTERANGE:10@5\n#EXT-X-DISCONTINUITY\n#EXT-X-FOO:bar\n#EXT-Y\n\
                #EXTINF:9.009,bird\na.ts\n#EXTINF:0,\nb.ts\n#EXT-X-ENDLIST\n";
    let list = parsed(text);
    let mut out = Vec::new();
    list.write_to(&mut out).expect("it is written");
    assert_eq!(std::str::from_utf8(&out), Ok(text));
    let mut only_float = MediaPlaylist::default();
    only_float.segments.push(MediaSegment { duration: 2.002, ..Default::default() });
    assert_eq!(only_float.to_text(), Err(Refusal { number: 9, place: 0 }));
    only_float.segments[0].set_duration_ns(2_002_000_000);
    let out = only_float.to_text().expect("it is written");
    assert_eq!(out, b"#EXTM3U\n#EXT-X-TARGETDURATION:0\n#EXTINF:2.002,\n\n");
}

/// A map's list holds its URI too; packed with it, this text of 40,028 bytes would be one of over 65,536.
fn long_map() {
    let uri = "m".repeat(40_000);
    let text = format!("#EXTM3U\n#EXT-X-MAP:URI=\"{}\"\nx\n", uri);
    assert_eq!(text.len(), 40_028);
    let out = parsed(&text).to_text().expect("it is written");
    let expected = format!("#EXTM3U\n#EXT-X-TARGETDURATION:0\n#EXT-X-MAP:URI=\"{}\"\n#EXTINF:0,\nx\n", uri);
    assert!(out == expected.as_bytes());
}

/// The system's allocator, which counts how often it is asked for memory.
struct Counting;

static ASKED: AtomicUsize = AtomicUsize::new(0);

#[deny(unsafe_op_in_unsafe_fn)]
unsafe impl GlobalAlloc for Counting {
    unsafe fn alloc(&self, layout: Layout) -> *mut u8 {
        ASKED.fetch_add(1, Ordering::Relaxed);
        unsafe { System.alloc(layout) }
    }

    unsafe fn dealloc(&self, memory: *mut u8, layout: Layout) {
        unsafe { System.dealloc(memory, layout) }
    }
}

#[global_allocator]
static COUNTING: Counting = Counting;

/// How often memory is asked for while this is done.
fn asked<T>(done: impl FnOnce() -> T) -> usize {
    let before = ASKED.load(Ordering::Relaxed);
    drop(done());
    ASKED.load(Ordering::Relaxed) - before
}

static ALL_TAGS: &str = "#EXTM3U\n#EXT-X-VERSION:6\n#EXT-X-TARGETDURATION:3\n#EXT-X-MEDIA-SEQUENCE:338559\n\
    #EXT-X-DISCONTINUITY-SEQUENCE:1234\n#EXT-X-PLAYLIST-TYPE:caf\u{e9}\n#EXT-X-I-FRAMES-ONLY\n#EXT-X-INDEPENDENT-SEGMENTS\n\
    #EXT-X-FOO:bar\n#EXT-X-MAP:URI=\"m\",BYTERANGE=\"3@4\",z=1\n#EXT-X-DISCONTINUITY\n#EXT-X-BYTERANGE:10@5\n\
    #EXTINF:9.009,\u{6620}\u{50cf}\na\n#EXT-Y\n#EXT-Z:\n#EXT-X-BYTERANGE:7\nb\n#EXT-X-ENDLIST\n";

/// Whether a string is a part of a text, and no copy of one.
fn stands_in(text: &str, part: &str) -> bool {
    let (whole, part) = (text.as_bytes().as_ptr_range(), part.as_bytes().as_ptr_range());
    whole.start <= part.start && part.end <= whole.end
}

fn borrowed_clips() {
    let mut reader = Reader::new();
    let list = reader.read(ALL_TAGS).expect("it is read");
    assert_eq!((list.len(), list.is_empty(), list.text(), list.rest()), (2, false, ALL_TAGS, ""));
    let clips: Vec<Clip> = list.clips().collect();
    let first = Clip {
        uri: "a",
        duration: 9.009,
        duration_ns: 9_009_000_000,
        title: Some("\u{6620}\u{50cf}"),
        byte_range: at(5, 10),
        discontinuity: true,
        map: Some(MapRef { uri: "m", byte_range: at(4, 3), attributes: "URI=\"m\",BYTERANGE=\"3@4\",z=1" }),
        unknown_tags: clips[0].unknown_tags,
    };
    assert_eq!(clips[0], first);
    assert!(clips[0].unknown_tags.iter().eq([ExtTagRef { tag: "X-FOO", rest: Some("bar") }]));
    assert_eq!((clips[1].uri, clips[1].title, clips[1].map), ("b", None, None));
    assert_eq!((clips[1].duration, clips[1].duration_ns, clips[1].discontinuity), (0.0, 0, false));
    assert_eq!(clips[1].byte_range, goes_on(7));
    let tags = clips[1].unknown_tags;
    assert_eq!((tags.len(), tags.is_empty()), (2, false));
    assert_eq!(tags.iter().map(|tag| tag.to_string()).collect::<Vec<_>>(), ["#EXT-Y", "#EXT-Z"]);
    assert!(tags.iter().rev().map(|tag| tag.tag).eq(["Z", "Y"]) && tags != clips[0].unknown_tags);
    let map = clips[0].map.expect("a map");
    for part in [clips[0].uri, clips[0].title.unwrap_or("?"), map.uri, map.attributes, clips[1].uri] {
        assert!(stands_in(ALL_TAGS, part));
    }
    assert!(clips.iter().flat_map(|clip| clip.unknown_tags).all(|tag| stands_in(ALL_TAGS, tag.tag)));
}

fn borrowed_heads() {
    let mut reader = Reader::new();
    let list = reader.read(ALL_TAGS).expect("it is read");
    assert_eq!((list.version(), list.target_duration(), list.media_sequence()), (Some(6), 3, 338_559));
    assert_eq!((list.discontinuity_sequence(), list.end_list()), (1234, true));
    assert_eq!((list.i_frames_only(), list.independent_segments()), (true, true));
    assert_eq!(list.playlist_type(), Some(ListType::Other("caf\u{e9}")));
    let list = reader.read("#EXTM3U\n#EXT-X-PLAYLIST-TYPE:EVENT\n").expect("it is read");
    assert_eq!((list.playlist_type(), list.version(), list.end_list()), (Some(ListType::Event), None, false));
    let list = reader.read("#EXTM3U\n#EXT-X-PLAYLIST-TYPE:VOD\n").expect("it is read");
    assert_eq!((list.playlist_type(), list.is_empty(), list.clip(0)), (Some(ListType::Vod), true, None));
    let shown = format!("{:?}", list);
    assert!(shown.starts_with("List { version: None") && shown.contains("playlist_type: Some(Vod)"), "{}", shown);
}

/// All that a borrowed list says is what the owned one says.
fn same_as_owned(reader: &mut Reader, text: &[u8]) {
    let list = match (reader.read(text), parse_media_playlist(text)) {
        (Ok(list), Ok((rest, owned))) => {
            assert!(list.rest().as_bytes() == rest && MediaPlaylist::from(list) == owned);
            list
        }
        (borrowed, owned) => {
            assert_eq!(borrowed.err(), owned.err());
            return;
        }
    };
    let owned = MediaPlaylist::from(list);
    let clips = owned.clips();
    assert_eq!((list.len(), list.total(), list.to_text()), (clips.len(), clips.total(), owned.to_text()));
    assert!(list.windows().expect("windows").eq(clips.windows().expect("windows")));
    assert_eq!((list.window(1), list.start_ns(1)), (clips.window(1), clips.start_ns(1)));
    assert_eq!(
        (list.start_tick(9, 2, 1), list.clip_ticks(9, 2, 1)),
        (clips.start_tick(9, 2, 1), clips.clip_ticks(9, 2, 1))
    );
    assert_eq!((list.clip_at(90, 7), list.playing_at(90, 7)), (clips.clip_at(90, 7), clips.playing_at(90, 7)));
    assert!(list.starts(90, 7).map(Vec::from_iter) == clips.starts(90, 7).map(Vec::from_iter));
    assert_eq!(list.cue_file(), clips.cue_file());
    for clip in 0..=list.len() {
        let owned = owned.segments.get(clip);
        assert_eq!(list.clip(clip).map(MediaSegment::from).as_ref(), owned);
    }
}

fn borrowed_and_owned_agree() {
    let mut reader = Reader::new();
    same_as_owned(&mut reader, SHEET);
    same_as_owned(&mut reader, ALL_TAGS.as_bytes());
    same_as_owned(&mut reader, &vec![b'\n'; 65_537]);
    let mut chance = Chance(7);
    for _ in 0..20_000 {
        let mut text = b"#EXTM3U\n".to_vec();
        for _ in 0..chance.upto(12) {
            text.extend_from_slice(PIECES[chance.upto(PIECES.len() as u64 - 1) as usize]);
        }
        same_as_owned(&mut reader, &text);
    }
}

/// A text may be of any kind that shows its bytes, and a part of it outlives list and reader.
fn borrowed_texts() {
    let text = String::from_utf8_lossy(SHEET).into_owned();
    let uri = {
        let mut reader = Reader::default();
        assert_eq!(reader.read(&text).map(|list| list.len()), Ok(3));
        assert_eq!(reader.read(text.as_bytes()).map(|list| list.len()), Ok(3));
        assert_eq!(reader.read(SHEET).map(|list| list.len()), Ok(3));
        assert_eq!(reader.read(&text.clone().into_bytes()).map(|list| list.len()), Ok(3));
        let list = reader.read(&text).expect("the sheet is read");
        let last = list.into_iter().next_back().expect("a clip");
        let same = last; // a clip is a value that is copied
        assert_eq!(last, same);
        same.uri
    };
    assert_eq!(uri, "c.ts");
}

fn borrowed_from_both_ends() {
    let mut reader = Reader::new();
    let list = reader.read("#EXTM3U\na\nb\nc\nd\n").expect("it is read");
    let uri = |clip: Clip<'static, '_>| clip.uri;
    let mut left = list.clips();
    assert_eq!((left.len(), left.size_hint()), (4, (4, Some(4))));
    assert_eq!((left.next().map(uri), left.next_back().map(uri), left.len()), (Some("a"), Some("d"), 2));
    let rest = left.clone();
    assert_eq!((left.nth(1).map(uri), left.len()), (Some("c"), 0));
    assert!(left.next().is_none() && left.next_back().is_none() && left.next().is_none());
    assert_eq!(rest.rev().map(uri).collect::<Vec<_>>(), ["c", "b"]);
    assert_eq!((list.clip(3).map(uri), list.clip(4).map(uri), list.clip(usize::MAX).map(uri)), (Some("d"), None, None));
    assert!(format!("{:?}", list.clips()).starts_with("[Clip { uri: \"a\""));
}

/// A text with so many clips, each with so many unknown tags.
fn tagged(clips: usize, tags: usize) -> Vec<u8> {
    format!("#EXTM3U\n{}", format!("{}a\n", "#EXT-a\n".repeat(tags)).repeat(clips)).into_bytes()
}

/// Tables of any size are enough, since they grow; what was read before, or refused, does not matter.
fn readers_of_any_room() {
    let fullest = [fullest_of_clips(), fullest_of_tags()];
    let rooms = [(0, 0), (1, 0), (0, 1), (3, 6), (2, 6), (3, 5), (MOST_CLIPS, MOST_TAGS)];
    for (clips, tags) in rooms {
        let mut reader = Reader::with_room(clips, tags);
        for _ in 0..2 {
            for (clips, tags) in [(3, 2), (0, 0), (40, 0), (1, 90), (200, 3)] {
                let text = tagged(clips, tags);
                let list = reader.read(&text).expect("it is read");
                assert_eq!(list.len(), clips);
                assert!(list.clips().all(|clip| clip.unknown_tags.len() == tags && clip.uri == "a"));
                assert_eq!(reader.read("#EXTM3U\n#EXT-X-KEY:\n").err(), Some(Refusal { number: 5, place: 8 }));
            }
            for text in &fullest {
                same_as_owned(&mut reader, text);
            }
        }
        assert!(format!("{:?}", reader).starts_with("Reader { clips: "));
    }
}

/// Nothing is allocated for a clip, nor for a text whose list fits the tables.
fn nothing_allocated() {
    let text = tagged(200, 2);
    let mut reader = Reader::with_room(200, 400);
    let visited = |reader: &mut Reader| {
        let list = reader.read(&text).expect("it is read");
        let tags: usize = list.clips().map(|clip| clip.uri.len() + clip.unknown_tags.iter().count()).sum();
        assert_eq!((tags, list.total(), list.clip_at(1, 0).is_err()), (600, Ok(0), true));
    };
    assert_eq!(asked(|| visited(&mut reader)), 0);
    assert_eq!(asked(|| reader.read("#EXTM3U\n#EXT-X-KEY:\n").is_err()), 0);
    // A reader without tables makes both, and after that none.
    let mut reader = Reader::new();
    assert!(asked(|| visited(&mut reader)) > 0);
    assert_eq!(asked(|| visited(&mut reader)), 0);
    // The owned list asks for its segments at once, and for each string and each segment's tags; its tables are there.
    for (clips, tags, pieces) in [(200, 0, 1 + 200), (10, 3, 1 + 10 * (1 + 1 + 3))] {
        let list = tagged(clips, tags);
        drop(parse_media_playlist(&list));
        assert_eq!(asked(|| parse_media_playlist(&list)), pieces);
        // Tables for the fullest of texts are not kept, so that the next call makes its own.
        drop(parse_media_playlist(&fullest_of_clips()));
        assert!(asked(|| parse_media_playlist(&list)) > pieces);
        assert_eq!(asked(|| parse_media_playlist(&list)), pieces);
    }
}

/// Each thread has its own tables.
fn threads() {
    let threads: Vec<_> = (1..4)
        .map(|tags| {
            std::thread::spawn(move || {
                for clips in (0..200).rev() {
                    let list = parse_media_playlist_res(&tagged(clips, tags)).expect("it is read");
                    assert_eq!(list.segments.len(), clips);
                    assert!(list.segments.iter().all(|segment| segment.unknown_tags.len() == tags));
                }
            })
        })
        .collect();
    assert!(threads.into_iter().all(|thread| thread.join().is_ok()));
}

type Case = (&'static str, fn());

const CASES: &[Case] = &[
    ("the sheet", the_sheet),
    ("the clock", the_clock),
    ("too long for the clock", too_long_for_the_clock),
    ("the starts", the_starts),
    ("starts refused", starts_refused),
    ("starts from both ends", starts_from_both_ends),
    ("starts agree", starts_agree),
    ("what is on", what_is_on),
    ("on refused", on_refused),
    ("on agrees", on_agrees),
    ("on by sums", on_by_sums),
    ("from start to start", from_start_to_start),
    ("lengths in both forms", lengths_in_both_forms),
    ("windows", windows),
    ("a reel", a_reel),
    ("chains", chains),
    ("far windows", far_windows),
    ("windows agree", windows_agree),
    ("longest reel", longest_reel),
    ("too long for windows", too_long_for_windows),
    ("windows from both ends", windows_from_both_ends),
    ("the cue file", the_cue_file),
    ("cue files undone", cue_files_undone),
    ("cue writing refused", cue_writing_refused),
    ("cue reading refused", cue_reading_refused),
    ("damaged cue files", damaged_cue_files),
    ("cues from both ends", cues_from_both_ends),
    ("heads", heads),
    ("maps and unknown tags", maps_and_unknown_tags),
    ("edges", edges),
    ("refusals", refusals),
    ("verdicts", verdicts),
    ("written", written),
    ("long map", long_map),
    ("fullest", fullest),
    ("any pieces", any_pieces),
    ("borrowed clips", borrowed_clips),
    ("borrowed heads", borrowed_heads),
    ("borrowed and owned agree", borrowed_and_owned_agree),
    ("borrowed texts", borrowed_texts),
    ("borrowed from both ends", borrowed_from_both_ends),
    ("readers of any room", readers_of_any_room),
    ("nothing allocated", nothing_allocated),
    ("threads", threads),
];

pub fn main() {
    for (name, case) in CASES {
        println!("{}", name);
        case();
    }
    println!("{} cases passed", CASES.len());
}
