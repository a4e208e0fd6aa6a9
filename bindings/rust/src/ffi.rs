//! The calls of `libledgerfern.a` (include/ledgerfern.h), each behind a safe function: a slice is its pointer and its
//! length, so the memory that a call may touch is there; what is written is lent as `&mut`, so nothing else sees it. One
//! promise of a call is relied on besides: a text that is read is UTF-8.

#[repr(C)]
#[derive(Clone, Copy)]
pub struct Verdict {
    pub number: u64,
    pub place: u64,
    pub master: u64,
}

#[repr(C)]
#[derive(Clone, Copy, Debug, PartialEq, Eq)]
pub struct Head {
    pub version_present: u64,
    pub version: u64,
    pub target_duration: u64,
    pub media_sequence: u64,
    pub discontinuity_sequence: u64,
    pub playlist_type: u64,
    pub type_start: u64,
    pub type_end: u64,
    pub end_list: u64,
    pub i_frames_only: u64,
    pub independent_segments: u64,
}

#[repr(C)]
#[derive(Clone, Copy)]
pub struct Read {
    pub number: u64,
    pub place: u64,
    pub clips: u64,
    pub tags: u64,
    pub stop: u64,
    pub head: Head,
}

#[repr(C)]
#[derive(Clone, Copy)]
pub struct Room {
    pub number: u64,
    pub place: u64,
    pub clips: u64,
    pub tags: u64,
}

#[repr(C)]
#[derive(Clone, Copy)]
pub struct Value {
    pub number: u64,
    pub place: u64,
    pub value: u64,
}

#[repr(C)]
#[derive(Clone, Copy)]
pub struct Starts {
    pub number: u64,
    pub place: u64,
    pub clips: u64,
}

#[repr(C)]
#[derive(Clone, Copy)]
pub struct On {
    pub number: u64,
    pub place: u64,
    pub turn: u64,
    pub clip: u64,
}

#[repr(C)]
#[derive(Clone, Copy)]
pub struct Playing {
    pub number: u64,
    pub place: u64,
    pub turn: u64,
    pub clip: u64,
    pub since: u64,
    pub left: u64,
}

#[repr(C)]
#[derive(Clone, Copy)]
pub struct Window {
    pub number: u64,
    pub place: u64,
    pub present: u64,
    pub start: u64,
    pub end: u64,
}

#[repr(C)]
#[derive(Clone, Copy)]
pub struct Windows {
    pub number: u64,
    pub place: u64,
    pub clips: u64,
}

#[repr(C)]
#[derive(Clone, Copy)]
pub struct Cue {
    pub number: u64,
    pub place: u64,
    pub start: u64,
    pub uri_start: u64,
    pub uri_end: u64,
    pub clips: u64,
}

#[repr(C)]
#[derive(Clone, Copy)]
pub struct Written {
    pub number: u64,
    pub place: u64,
    pub length: u64,
}

mod calls {
    use super::{Cue, Head, Written};
    use super::{On, Playing, Read, Room, Starts, Value, Verdict, Window, Windows};

    extern "C" {
        pub fn ledgerfern_verdict(text: *const u8, text_length: usize) -> Verdict;
        pub fn ledgerfern_read(
            text: *const u8,
            text_length: usize,
            clips: *mut u64,
            clip_words: usize,
            tags: *mut u64,
            tag_words: usize,
        ) -> Read;
        pub fn ledgerfern_room(text: *const u8, text_length: usize) -> Room;
        pub fn ledgerfern_total(clip_count: usize, clips: *const u64, clip_words: usize) -> Value;
        pub fn ledgerfern_start_ns(clip_count: usize, clips: *const u64, clip_words: usize, clip: usize) -> Value;
        pub fn ledgerfern_start_tick(
            clip_count: usize,
            clips: *const u64,
            clip_words: usize,
            rate: u64,
            turn: u64,
            clip: usize,
        ) -> Value;
        pub fn ledgerfern_clip_ticks(
            clip_count: usize,
            clips: *const u64,
            clip_words: usize,
            rate: u64,
            turn: u64,
            clip: usize,
        ) -> Value;
        pub fn ledgerfern_starts(
            clip_count: usize,
            clips: *const u64,
            clip_words: usize,
            rate: u64,
            turn: u64,
            starts: *mut u64,
            start_words: usize,
        ) -> Starts;
        pub fn ledgerfern_clip_at(clip_count: usize, clips: *const u64, clip_words: usize, rate: u64, tick: u64) -> On;
        pub fn ledgerfern_playing_at(
            clip_count: usize,
            clips: *const u64,
            clip_words: usize,
            rate: u64,
            tick: u64,
        ) -> Playing;
        pub fn ledgerfern_window(
            text: *const u8,
            text_length: usize,
            clip_count: usize,
            clips: *const u64,
            clip_words: usize,
            clip: usize,
        ) -> Window;
        pub fn ledgerfern_windows(
            text: *const u8,
            text_length: usize,
            clip_count: usize,
            clips: *const u64,
            clip_words: usize,
            windows: *mut u64,
            window_words: usize,
        ) -> Windows;
        pub fn ledgerfern_write(
            text: *const u8,
            text_length: usize,
            head: Head,
            clip_count: usize,
            clips: *const u64,
            clip_words: usize,
            tag_count: usize,
            tags: *const u64,
            tag_words: usize,
            out: *mut u8,
            out_length: usize,
        ) -> Written;
        pub fn ledgerfern_cue_write(
            text: *const u8,
            text_length: usize,
            clip_count: usize,
            clips: *const u64,
            clip_words: usize,
            out: *mut u8,
            out_length: usize,
        ) -> Written;
        pub fn ledgerfern_cue_read(file: *const u8, file_length: usize, clip: usize) -> Cue;
    }
}

pub fn verdict(text: &[u8]) -> Verdict {
    unsafe { calls::ledgerfern_verdict(text.as_ptr(), text.len()) }
}

/// Reads a text, and gives it as a `str` where it was read.
pub fn read<'t>(text: &'t [u8], clips: &mut [u64], tags: &mut [u64]) -> (Read, &'t str) {
    let answer = unsafe {
        calls::ledgerfern_read(
            text.as_ptr(),
            text.len(),
            clips.as_mut_ptr(),
            clips.len(),
            tags.as_mut_ptr(),
            tags.len(),
        )
    };
    if answer.number != 0 {
        return (answer, "");
    }
    // It is proved of the call that a text which is not UTF-8 is refused (2). To ask once more would take as long again.
    (answer, unsafe { std::str::from_utf8_unchecked(text) })
}

/// How many clips and kept unknown tags a text has.
pub fn room(text: &[u8]) -> Room {
    unsafe { calls::ledgerfern_room(text.as_ptr(), text.len()) }
}

pub fn total(clip_count: usize, clips: &[u64]) -> Value {
    unsafe { calls::ledgerfern_total(clip_count, clips.as_ptr(), clips.len()) }
}

pub fn start_ns(clip_count: usize, clips: &[u64], clip: usize) -> Value {
    unsafe { calls::ledgerfern_start_ns(clip_count, clips.as_ptr(), clips.len(), clip) }
}

pub fn start_tick(clip_count: usize, clips: &[u64], rate: u64, turn: u64, clip: usize) -> Value {
    unsafe { calls::ledgerfern_start_tick(clip_count, clips.as_ptr(), clips.len(), rate, turn, clip) }
}

pub fn clip_ticks(clip_count: usize, clips: &[u64], rate: u64, turn: u64, clip: usize) -> Value {
    unsafe { calls::ledgerfern_clip_ticks(clip_count, clips.as_ptr(), clips.len(), rate, turn, clip) }
}

pub fn starts(clip_count: usize, clips: &[u64], rate: u64, turn: u64, starts: &mut [u64]) -> Starts {
    unsafe {
        calls::ledgerfern_starts(clip_count, clips.as_ptr(), clips.len(), rate, turn, starts.as_mut_ptr(), starts.len())
    }
}

pub fn clip_at(clip_count: usize, clips: &[u64], rate: u64, tick: u64) -> On {
    unsafe { calls::ledgerfern_clip_at(clip_count, clips.as_ptr(), clips.len(), rate, tick) }
}

pub fn playing_at(clip_count: usize, clips: &[u64], rate: u64, tick: u64) -> Playing {
    unsafe { calls::ledgerfern_playing_at(clip_count, clips.as_ptr(), clips.len(), rate, tick) }
}

pub fn window(text: &[u8], clip_count: usize, clips: &[u64], clip: usize) -> Window {
    unsafe { calls::ledgerfern_window(text.as_ptr(), text.len(), clip_count, clips.as_ptr(), clips.len(), clip) }
}

pub fn windows(text: &[u8], clip_count: usize, clips: &[u64], windows: &mut [u64]) -> Windows {
    unsafe {
        calls::ledgerfern_windows(
            text.as_ptr(),
            text.len(),
            clip_count,
            clips.as_ptr(),
            clips.len(),
            windows.as_mut_ptr(),
            windows.len(),
        )
    }
}

pub fn write(
    text: &[u8],
    head: Head,
    clip_count: usize,
    clips: &[u64],
    tag_count: usize,
    tags: &[u64],
    out: &mut [u8],
) -> Written {
    unsafe {
        calls::ledgerfern_write(
            text.as_ptr(),
            text.len(),
            head,
            clip_count,
            clips.as_ptr(),
            clips.len(),
            tag_count,
            tags.as_ptr(),
            tags.len(),
            out.as_mut_ptr(),
            out.len(),
        )
    }
}

pub fn cue_write(text: &[u8], clip_count: usize, clips: &[u64], out: &mut [u8]) -> Written {
    unsafe {
        calls::ledgerfern_cue_write(
            text.as_ptr(),
            text.len(),
            clip_count,
            clips.as_ptr(),
            clips.len(),
            out.as_mut_ptr(),
            out.len(),
        )
    }
}

pub fn cue_read(file: &[u8], clip: usize) -> Cue {
    unsafe { calls::ledgerfern_cue_read(file.as_ptr(), file.len(), clip) }
}
