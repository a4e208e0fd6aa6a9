//! The library and the crate m3u8-rs on the same texts, in one run: how many times as fast the library is. Of the cue file,
//! which the crate does not know, beside plain C that checks nothing.
//!
//! All sides of a text run by turns in short rounds, in the processor's own time (race.rs). A side's work is what a user
//! calls. The crate's lists are made and dropped. `read` fills tables that were lent once, as C does; `borrowed` reads by the
//! Rust binding's `Reader`, and goes over all clips and all that they show; `owned` makes and drops the binding's lists of
//! owned values, by the function that has the crate's name. `cold` is the first call in a process of its own.

use ::ledgerfern::{List, Reader};
use m3u8_rs::{is_master_playlist, parse_media_playlist};

mod cold;
mod count;
mod cues;
#[allow(dead_code)]
mod layout; // bindings/rust/src/layout.rs, which tools/bench puts here
mod lent;
mod race;
mod texts;

use lent::Tables;
use race::{black_box, Side, Spread, Watch};

/// The sizes at which a family of texts is measured. Twice the text should take twice the time.
const SIZES: [usize; 3] = [16 << 10, 32 << 10, 64 << 10];

/// Twice the text, and not so many times the time.
const MOST_GROWTH: f64 = 2.3;

/// What is left of a borrowed list by one who looks at all of it.
fn looked_at(list: &List) -> u64 {
    let mut sum = 0;
    for clip in list.clips() {
        sum += clip.uri.len() as u64 + clip.duration_ns + u64::from(clip.duration.to_bits());
        sum += clip.title.map_or(0, str::len) as u64 + u64::from(clip.discontinuity);
        sum += clip.byte_range.map_or(0, |range| range.length + range.offset.unwrap_or(0));
        if let Some(map) = clip.map {
            sum += (map.uri.len() + map.attributes.len()) as u64;
            sum += map.byte_range.map_or(0, |range| range.length + range.offset.unwrap_or(0));
        }
        for tag in clip.unknown_tags {
            sum += (tag.tag.len() + tag.rest.map_or(0, str::len)) as u64;
        }
    }
    sum
}

fn crate_reads(text: &[u8]) {
    black_box(parse_media_playlist(black_box(text)).is_ok());
}

fn borrowed(reader: &mut Reader, text: &[u8]) {
    black_box(reader.read(black_box(text)).map_or(0, |list| looked_at(&list)));
}

fn owned(text: &[u8]) {
    black_box(::ledgerfern::parse_media_playlist(black_box(text)).is_ok());
}

/// A time in us, with three digits at least.
fn us(seconds: f64) -> String {
    let us = seconds * 1e6;
    let digits = if us < 10.0 { 2 } else { usize::from(us < 100.0) };
    format!("{us:.digits$}")
}

/// How many times as fast.
fn times(ratio: f64) -> String {
    let digits = if ratio < 1.0 { 2 } else { 1 };
    format!("{ratio:.digits$}")
}

/// Measures, or counts instructions, and prints.
struct Bench {
    counts: bool,
    watch: Watch,
    figures: usize,
    doubtful: usize,
}

impl Bench {
    /// Prints how many times as fast as theirs each of our sides is.
    fn compare<'a>(&mut self, name: &str, beside: &str, mut theirs: Side<'a>, ours: Vec<(&str, Side<'a>)>) {
        let (whats, mut sides): (Vec<&str>, Vec<Side<'a>>) = ours.into_iter().unzip();
        if self.counts {
            let whats: Vec<String> = whats.iter().map(|what| format!("{what} {name}")).collect();
            for (what, side) in whats.iter().zip(&mut sides) {
                count::count(&format!("{what} ours"), side);
                count::count(&format!("{what} {beside}"), &mut theirs);
            }
            return;
        }
        sides.insert(0, theirs);
        self.watch.race(&mut sides);
        let theirs = sides.remove(0);
        for (what, ours) in whats.into_iter().zip(sides) {
            let ratio = theirs.over(&ours);
            self.row(what, name, beside, &ratio, ours.time(), theirs.time());
        }
    }

    fn row(&mut self, what: &str, name: &str, beside: &str, ratio: &Spread, ours: f64, theirs: f64) {
        println!(
            "{what} {name} {}x  ({} us, {beside} {} us; {} to {}){}",
            times(ratio.middle), us(ours), us(theirs), times(ratio.low), times(ratio.high), ratio.doubt()
        );
        self.noted(ratio);
    }

    fn noted(&mut self, figure: &Spread) {
        self.figures += 1;
        self.doubtful += usize::from(!figure.trusted());
    }

    /// Reader, verdict and writer of a list, and the first call of all.
    fn list(&mut self, name: &str, text: &[u8]) {
        let (mut tables, mut reader) = (Tables::for_text(text), Reader::new());
        same_list(name, text, &mut tables);
        self.compare(name, "the crate", Side::new(|| crate_reads(text)), vec![
            ("read", Side::new(|| drop(black_box(tables.read(black_box(text)))))),
            ("borrowed", Side::new(|| borrowed(&mut reader, text))),
            ("owned", Side::new(|| owned(text))),
        ]);
        self.verdict(name, text);
        self.write(name, text);
        if !self.counts {
            self.cold(name, text);
        }
    }

    fn verdict(&mut self, name: &str, text: &[u8]) {
        let theirs = Side::new(|| drop(black_box(is_master_playlist(black_box(text)))));
        self.compare(name, "the crate", theirs, vec![
            ("verdict", Side::new(|| drop(black_box(lent::verdict(black_box(text)))))),
        ]);
    }

    fn write(&mut self, name: &str, text: &[u8]) {
        let mut tables = Tables::for_text(text);
        let read = tables.read(text);
        let (_, list) = parse_media_playlist(text).expect("a media playlist");
        let mut bytes = Vec::new();
        list.write_to(&mut bytes).expect("a Vec takes all");
        let mut output = vec![0; 2 * bytes.len() + 100];
        assert_eq!(tables.write(text, &read, &mut output).number, 0, "{name}");
        let theirs = Side::new(|| {
            bytes.clear();
            black_box(list.write_to(black_box(&mut bytes)).is_ok());
        });
        self.compare(name, "the crate", theirs, vec![
            ("write", Side::new(|| drop(black_box(tables.write(black_box(text), &read, &mut output))))),
        ]);
    }

    fn cold(&mut self, name: &str, text: &[u8]) {
        let [theirs, ours, lists] = cold::times(text, ["crate", "borrowed", "owned"]);
        for (what, ours) in [("cold-borrowed", ours), ("cold-owned", lists)] {
            let ratio = Spread::new(theirs.iter().zip(&ours).map(|(theirs, ours)| theirs / ours));
            let [ours, theirs] = [&ours, &theirs].map(|times| Spread::new(times.iter().copied()).middle);
            self.row(what, name, "the crate", &ratio, ours, theirs);
        }
    }

    /// The reader at three sizes, and at the largest beside the crate; so verdict and writer, where there is something to
    /// write.
    fn family(&mut self, name: &str, family: fn(usize) -> Vec<u8>) {
        let texts = SIZES.map(family);
        let [small, middle, large] = &texts;
        let [mut first, mut second, mut third] = [small, middle, large].map(|text| Tables::for_text(text));
        let clips = same_list(name, large, &mut third);
        let sides = [
            Side::new(|| drop(black_box(first.read(black_box(small))))),
            Side::new(|| drop(black_box(second.read(black_box(middle))))),
            Side::new(|| drop(black_box(third.read(black_box(large))))),
        ];
        self.growth("read", name, sides, Side::new(|| crate_reads(large)));
        let sides = [small, middle, large].map(|text| Side::new(move || drop(black_box(lent::verdict(black_box(text))))));
        self.growth("verdict", name, sides, Side::new(|| drop(black_box(is_master_playlist(black_box(large))))));
        if clips > 0 {
            self.write(name, large);
        }
    }

    fn growth<'a>(&mut self, what: &str, name: &str, mut sides: [Side<'a>; 3], theirs: Side<'a>) {
        if self.counts {
            for (side, size) in sides.iter_mut().zip(SIZES) {
                count::count(&format!("{what} {name} {}k", size >> 10), side);
            }
            return;
        }
        let [small, middle, large] = sides;
        let mut sides = [small, middle, large, theirs];
        self.watch.race(&mut sides);
        let [small, middle, large, theirs] = &sides;
        self.row(what, name, "the crate", &theirs.over(large), large.time(), theirs.time());
        let steps = [middle.over(small), large.over(middle)];
        let above = if steps.iter().any(|step| step.middle > MOST_GROWTH) { "  ABOVE 2.3" } else { "" };
        let doubt = steps.iter().map(Spread::doubt).max().unwrap_or_default();
        println!(
            "growth {what} {name} {:.2} {:.2}  ({} us at 16 KiB, {} at 32, {} at 64){above}{doubt}",
            steps[0].middle, steps[1].middle, us(small.time()), us(middle.time()), us(large.time())
        );
        steps.iter().for_each(|step| self.noted(step));
    }

    /// The largest cue file: written as a whole, and of its clips the last one found, which is the farthest to go. The
    /// library judges all that it is lent before it answers, and plain C judges nothing.
    fn cues(&mut self, name: &str) {
        let list = cues::List::largest();
        let (mut file, mut plain) = (vec![0; cues::FILE], vec![0; cues::FILE]);
        list.write(&mut file);
        list.write_plainly(&mut plain);
        assert!(file == plain && cues::last(&file) == cues::last_plainly(&file));
        assert_eq!(cues::last(&file).clips, cues::CLIPS as u64);
        let theirs = Side::new(|| drop(black_box(list.write_plainly(black_box(&mut plain)))));
        let ours = Side::new(|| drop(black_box(list.write(black_box(&mut file)))));
        self.compare(name, "plain C", theirs, vec![("write", ours)]);
        let theirs = Side::new(|| drop(black_box(cues::last_plainly(black_box(&file)))));
        let ours = Side::new(|| drop(black_box(cues::last(black_box(&file)))));
        self.compare(name, "plain C", theirs, vec![("read", ours)]);
    }
}

/// Both read the same list of a text, if the crate reads one; how many clips it has.
fn same_list(name: &str, text: &[u8], tables: &mut Tables) -> u64 {
    let read = tables.read(text);
    if let Ok((rest, list)) = parse_media_playlist(text) {
        let stop = (text.len() - rest.len()) as u64;
        assert_eq!((read.number, read.clips, read.stop), (0, list.segments.len() as u64, stop), "{name}");
    }
    read.clips
}

/// Measures what the words name, or all.
fn main() {
    let mut words: Vec<String> = std::env::args().skip(1).collect();
    if let [flag, side, file] = &words[..] {
        if flag == cold::FLAG {
            return cold::once(side, file);
        }
    }
    race::keep_memory();
    let counts = words.first().map_or(false, |word| word == "--counts");
    words.drain(..usize::from(counts));
    let mut bench = Bench { counts, watch: Watch::default(), figures: 0, doubtful: 0 };
    let wanted = |name: &str| words.is_empty() || words.iter().any(|word| word == name);
    for (name, text) in texts::realistic_lists() {
        if wanted(name) {
            bench.list(name, &text);
        }
    }
    for (name, family) in texts::FAMILIES {
        if wanted(name) {
            bench.family(name, *family);
        }
    }
    if wanted("cues") {
        bench.cues("cues");
    }
    if !counts {
        let others = 100.0 * bench.watch.others();
        println!("{} of {} figures are not to be trusted; others had {others:.0} % of the time", bench.doubtful, bench.figures);
    }
}
