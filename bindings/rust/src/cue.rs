//! The cue file that a motor board reads (`docs/CUE-FILE.md`): a record for each clip, the URIs, and a trailer.
use crate::ffi;
use crate::refusal::{check, Refusal};
use std::iter::FusedIterator;
use std::ops::Range;

/// The bytes of a clip's record: seconds 4, nanoseconds 4, URI length 2, each high byte first.
const RECORD: usize = 10;

/// The bytes of the trailer.
const TRAILER: usize = 12;

const SECOND: u64 = 1_000_000_000;

/// The refusal of a clip that is not there, which comes after all that is judged of a file.
const NO_SUCH_CLIP: u64 = 14;

/// Writes a file into lent bytes; how many it has.
pub(crate) fn write(text: &[u8], clips: usize, words: &[u64], out: &mut [u8]) -> Result<usize, Refusal> {
    let answer = ffi::cue_write(text, clips, words, out);
    check(answer.number, answer.place)?;
    Ok(answer.length as usize)
}

/// A file of URIs that do not overlap in their text, so that together they are no longer than it.
pub(crate) fn written(text: &[u8], clips: usize, words: &[u64]) -> Result<Vec<u8>, Refusal> {
    let room = clips.saturating_mul(RECORD).saturating_add(text.len()).saturating_add(TRAILER);
    let mut out = vec![0; room];
    let length = write(text, clips, words, &mut out)?;
    out.truncate(length);
    Ok(out)
}

/// A clip of a cue file.
#[derive(Clone, Debug, PartialEq, Eq, Hash)]
pub struct Cue<'a> {
    /// Its start, in ns, exact.
    pub start_ns: u64,
    /// Its URI, which may be any bytes.
    pub uri: &'a [u8],
    /// Where the URI stands in the file.
    pub place: Range<usize>,
}

impl<'a> Cue<'a> {
    /// The library gives places within the file.
    fn new(file: &'a [u8], start_ns: u64, place: Range<usize>) -> Cue<'a> {
        let uri = file.get(place.clone()).unwrap_or_default();
        Cue { start_ns, uri, place }
    }
}

/// A clip of a cue file. The whole file is judged each time, so for all clips take [`cues`].
///
/// Refusals: 19, 20, 21, 22 where the file is not one; 14 where it has no such clip.
pub fn read_cue(file: &[u8], clip: usize) -> Result<Cue<'_>, Refusal> {
    let answer = ffi::cue_read(file, clip);
    check(answer.number, answer.place)?;
    Ok(Cue::new(file, answer.start, answer.uri_start as usize..answer.uri_end as usize))
}

/// All clips of a cue file, in their order: what [`read_cue`] gives for each. The library judges the whole file once, before
/// the first is taken. Refusals: 19, 20, 21, 22.
pub fn cues(file: &[u8]) -> Result<Cues<'_>, Refusal> {
    let answer = ffi::cue_read(file, 0);
    // A file without clips is refused by 14 and no sooner.
    if answer.number != NO_SUCH_CLIP {
        check(answer.number, answer.place)?;
    }
    let clips = answer.clips as usize;
    let uris = clips.saturating_mul(RECORD)..file.len().saturating_sub(TRAILER);
    Ok(Cues { file, left: 0..clips, uris })
}

/// The clips of a cue file ([`cues`]).
///
/// Of a file that was judged every record lies in front of the URIs, and these fill what is left up to the trailer; so a
/// clip is taken here, from either end, without asking again.
#[derive(Clone, Debug)]
pub struct Cues<'a> {
    file: &'a [u8],
    left: Range<usize>,
    // The URIs of the clips that are left.
    uris: Range<usize>,
}

impl<'a> Cues<'a> {
    /// A clip's start and the length of its URI, as its record has them.
    fn record(&self, clip: usize) -> Option<(u64, usize)> {
        match *self.file.chunks_exact(RECORD).nth(clip)? {
            [s3, s2, s1, s0, n3, n2, n1, n0, l1, l0] => {
                let seconds = u32::from_be_bytes([s3, s2, s1, s0]);
                let nanoseconds = u32::from_be_bytes([n3, n2, n1, n0]);
                let start = u64::from(seconds).saturating_mul(SECOND).saturating_add(nanoseconds.into());
                Some((start, u16::from_be_bytes([l1, l0]).into()))
            }
            _ => None,
        }
    }
}

impl<'a> Iterator for Cues<'a> {
    type Item = Cue<'a>;

    fn next(&mut self) -> Option<Cue<'a>> {
        let clip = self.left.next()?;
        let (start, length) = self.record(clip)?;
        let place = self.uris.start..self.uris.start.saturating_add(length);
        self.uris.start = place.end;
        Some(Cue::new(self.file, start, place))
    }

    fn size_hint(&self) -> (usize, Option<usize>) {
        self.left.size_hint()
    }
}

impl<'a> DoubleEndedIterator for Cues<'a> {
    fn next_back(&mut self) -> Option<Cue<'a>> {
        let clip = self.left.next_back()?;
        let (start, length) = self.record(clip)?;
        let place = self.uris.end.saturating_sub(length)..self.uris.end;
        self.uris.end = place.start;
        Some(Cue::new(self.file, start, place))
    }
}

impl<'a> ExactSizeIterator for Cues<'a> {}

impl<'a> FusedIterator for Cues<'a> {}
