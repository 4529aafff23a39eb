// Prints what the original's replay of the tape on standard input is. See replay_one.sh.
#![allow(warnings)]
include!("rigflow.rs");
mod original;
mod original_clock;
mod questions;
mod replaying;
mod tape_words;

use std::io::{Read, Write};

fn main() {
    let mut tape = vec![];
    std::io::stdin().read_to_end(&mut tape).expect("the tape");
    std::io::stdout().write_all(replaying::replay(&tape).as_bytes()).expect("the text");
}
