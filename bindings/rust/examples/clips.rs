//! Prints the clips of a playlist as they stand in its text, without a copy of any: each clip's length in ns, its URI, and
//! its title if it has one; then the total in ns.
//!
//!     clips [FILE]
//!
//! Without a file the playlist is standard input. The exit status is as `shared` has it. Of document 01's list
//! it prints, with tabs:
//!
//!     9009000000  a.ts  bird
//!     4000000     b.ts
//!     3003000000  c.ts
//!     total       12016000000
use ledgerfern::{Reader, Refusal};

mod shared;

fn lines(text: &[u8], []: [u64; 0]) -> Result<String, Refusal> {
    // Who reads more than one list keeps the reader, and with it the tables.
    let mut reader = Reader::new();
    let list = reader.read(text)?;
    let mut lines = String::new();
    for clip in list.clips() {
        lines += &format!("{}\t{}", clip.duration_ns, clip.uri);
        if let Some(title) = clip.title {
            lines += &format!("\t{}", title);
        }
        lines += "\n";
    }
    Ok(lines + &format!("total\t{}\n", list.total()?))
}

pub fn main() {
    let usage = "usage: clips [FILE], or < list.m3u8";
    shared::Program { name: "clips", usage, numbers: [], lines }.main()
}
