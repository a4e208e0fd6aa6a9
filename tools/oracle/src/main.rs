//! The crate m3u8-rs behind the probe's records: the verdict, the reader, the room that it needs and the writer, answered by the crate's own functions.
//!
//! The crate's source is unchanged. It is included here, at the root, so that the modules below reach its private
//! functions; the root stands for the crate's lib.rs.

#![allow(dead_code)] // of the crate, only the media half is called

#[path = "m3u8_rs/playlist.rs"]
mod playlist;

include!("m3u8_rs/parser.rs");

mod reading;
mod records;
mod same;
mod writing;

fn main() {
    records::run();
}
