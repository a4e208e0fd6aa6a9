//! The reading, in the shapes of m3u8-rs.
use crate::refusal::{check, Refusal};
use crate::{ffi, MediaPlaylist, Reader};
use std::cell::Cell;

/// The most words of tables that a thread keeps for its next call: a megabyte, more than lists as encoders write them need.
/// Longer tables go with the call that needed them.
const KEPT_WORDS: usize = 1 << 17;

/// Whether the input is a master playlist; false where the library refuses it, as m3u8-rs has it.
pub fn is_master_playlist(input: &[u8]) -> bool {
    is_master_playlist_res(input).unwrap_or(false)
}

/// Whether the input is a master playlist. Refusals: 1, 2, 3.
pub fn is_master_playlist_res(input: &[u8]) -> Result<bool, Refusal> {
    let answer = ffi::verdict(input);
    check(answer.number, answer.place)?;
    Ok(answer.master != 0)
}

/// Parses input as a media playlist. As with m3u8-rs the first of the pair is the rest of the input: what follows the
/// place where the reading stopped, which is empty unless a line has a CR without LF. Each thread keeps the tables that it
/// reads with. [`Reader`] reads without owned values.
/// Refusals: 1, 2, 3, 4, then 5 or 6 whichever the reading meets first.
pub fn parse_media_playlist(input: &[u8]) -> Result<(&[u8], MediaPlaylist), Refusal> {
    let mut reader = kept();
    let read = reader.read(input).map(|list| (list.rest().as_bytes(), MediaPlaylist::from(list)));
    keep(reader);
    read
}

/// Parses input as a media playlist, and gives no rest.
pub fn parse_media_playlist_res(input: &[u8]) -> Result<MediaPlaylist, Refusal> {
    parse_media_playlist(input).map(|(_, playlist)| playlist)
}

thread_local! {
    // The form with `const` is at odds with a lint that is forbidden here, by the macro of Rust 1.63.
    #[allow(clippy::missing_const_for_thread_local)]
    static KEPT: Cell<Reader> = Cell::new(Reader::new());
}

/// The thread's reader; a new one where the thread is about to end.
fn kept() -> Reader {
    KEPT.try_with(Cell::take).unwrap_or_default()
}

fn keep(reader: Reader) {
    if reader.words() <= KEPT_WORDS {
        // A thread that is about to end keeps nothing.
        let _ = KEPT.try_with(|kept| kept.set(reader));
    }
}
