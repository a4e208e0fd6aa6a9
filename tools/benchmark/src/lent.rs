//! The library's calls as C makes them (include/ledgerfern.h), with tables that are lent once.

use crate::layout::{CLIP_WORDS, TAG_WORDS};

#[repr(C)]
#[derive(Clone, Copy)]
pub struct Head([u64; 11]);

#[repr(C)]
#[derive(Clone, Copy)]
pub struct Read {
    pub number: u64,
    pub place: u64,
    pub clips: u64,
    pub tags: u64,
    pub stop: u64,
    pub head: Head,
}

#[repr(C)]
pub struct Verdict {
    pub number: u64,
    pub place: u64,
    pub master: u64,
}

#[repr(C)]
pub struct Written {
    pub number: u64,
    pub place: u64,
    pub length: u64,
}

#[repr(C)]
#[derive(Clone, Copy, Debug, PartialEq)]
pub struct Cue {
    pub number: u64,
    pub place: u64,
    pub start: u64,
    pub uri_start: u64,
    pub uri_end: u64,
    pub clips: u64,
}

extern "C" {
    fn ledgerfern_verdict(text: *const u8, length: usize) -> Verdict;
    fn ledgerfern_read(text: *const u8, length: usize, clips: *mut u64, clip_words: usize, tags: *mut u64, tag_words: usize) -> Read;
    #[allow(clippy::too_many_arguments)]
    fn ledgerfern_write(
        text: *const u8, length: usize, head: Head, clip_count: usize, clips: *const u64, clip_words: usize,
        tag_count: usize, tags: *const u64, tag_words: usize, output: *mut u8, room: usize,
    ) -> Written;
    fn ledgerfern_cue_write(
        text: *const u8, length: usize, clip_count: usize, clips: *const u64, clip_words: usize, output: *mut u8, room: usize,
    ) -> Written;
    fn ledgerfern_cue_read(file: *const u8, size: usize, clip: usize) -> Cue;
}

pub fn verdict(text: &[u8]) -> Verdict {
    unsafe { ledgerfern_verdict(text.as_ptr(), text.len()) }
}

pub fn cue_write(text: &[u8], clip_count: usize, clips: &[u64], output: &mut [u8]) -> Written {
    unsafe {
        ledgerfern_cue_write(
            text.as_ptr(), text.len(), clip_count, clips.as_ptr(), clips.len(), output.as_mut_ptr(), output.len(),
        )
    }
}

pub fn cue_read(file: &[u8], clip: usize) -> Cue {
    unsafe { ledgerfern_cue_read(file.as_ptr(), file.len(), clip) }
}

pub struct Tables {
    clips: Vec<u64>,
    tags: Vec<u64>,
}

impl Tables {
    /// No text has more clips than half its bytes, nor more unknown tags than a seventh.
    pub fn for_text(text: &[u8]) -> Tables {
        Tables { clips: vec![0; CLIP_WORDS * (text.len() / 2 + 1)], tags: vec![0; TAG_WORDS * (text.len() / 7 + 1)] }
    }

    pub fn read(&mut self, text: &[u8]) -> Read {
        let (clips, tags) = (&mut self.clips, &mut self.tags);
        unsafe { ledgerfern_read(text.as_ptr(), text.len(), clips.as_mut_ptr(), clips.len(), tags.as_mut_ptr(), tags.len()) }
    }

    pub fn write(&self, text: &[u8], read: &Read, output: &mut [u8]) -> Written {
        let (clips, tags) = (&self.clips, &self.tags);
        unsafe {
            ledgerfern_write(
                text.as_ptr(), text.len(), read.head, read.clips as usize, clips.as_ptr(), clips.len(),
                read.tags as usize, tags.as_ptr(), tags.len(), output.as_mut_ptr(), output.len(),
            )
        }
    }
}
