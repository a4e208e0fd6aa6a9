//! The first call in a process of its own: code and memory are met for the first time, and nothing is kept from before.

use crate::race::{black_box, own_time};
use ::ledgerfern::Reader;
use std::process::Command;
use std::{env, fs};

/// The word that makes a process make one call: `--cold SIDE FILE`.
pub const FLAG: &str = "--cold";

const PROCESSES: usize = 41;

/// Makes one call on the text of a file, and prints its time in ns.
pub fn once(side: &str, file: &str) {
    let text = fs::read(file).expect("the text");
    let start = own_time();
    match side {
        "crate" => crate::crate_reads(&text),
        "borrowed" => crate::borrowed(&mut Reader::new(), &text),
        _ => crate::owned(&text),
    }
    let time = own_time() - start;
    println!("{}", black_box(time).as_nanos());
}

/// The time of one call in s, by each side in many processes, by turns.
pub fn times<const SIDES: usize>(text: &[u8], sides: [&str; SIDES]) -> [Vec<f64>; SIDES] {
    let program = env::current_exe().expect("the program's own file");
    let file = program.with_extension("text");
    fs::write(&file, text).expect("a file for the text");
    let mut times = [(); SIDES].map(|_| Vec::new());
    for _ in 0..PROCESSES {
        for (side, times) in sides.iter().zip(&mut times) {
            let run = Command::new(&program).arg(FLAG).arg(side).arg(&file).output().expect("a process");
            let ns = String::from_utf8_lossy(&run.stdout).trim().parse::<f64>();
            times.push(ns.expect("a time") / 1e9);
        }
    }
    times
}
