// Holds the program replay, or the program play in both its forms, against the original's replay on random tapes, byte for byte.
//   replay replay PROGRAM SEED TAPES KEEP
//   replay play PROGRAM SEED TAPES KEEP LIST
// The tape of the first difference is kept in the file KEEP. LIST is the fixed list, whose tapes come before the random ones. See
// replay.sh and play.sh.
#![allow(warnings)]
include!("rigflow.rs");
mod caller;
mod original;
mod original_clock;
mod questions;
mod random;
mod replaying;
mod tape_words;
mod tapes;
mod udp_sender;

use random::Random;
use replaying::{replay, replay_over, FLOATS, MOST_BYTES, WORDS};
use std::collections::BTreeMap;
use std::io::{ErrorKind, Read, Write};
use std::process::{exit, Command, Stdio};

// what a command prints with a tape as its input, or why it printed nothing; it must say so much on standard error
fn printed(command: &mut Command, tape: &[u8], says: &str) -> Result<Vec<u8>, String> {
    let mut child = command.stdin(Stdio::piped()).stdout(Stdio::piped()).stderr(Stdio::piped()).spawn().map_err(|e| e.to_string())?;
    // a program that has read enough of a long tape may close its input
    match child.stdin.take().unwrap().write_all(tape) {
        Err(e) if e.kind() != ErrorKind::BrokenPipe => return Err(format!("the tape could not be written: {e}")),
        _ => {}
    }
    let mut text = vec![];
    child.stdout.take().unwrap().read_to_end(&mut text).map_err(|e| e.to_string())?;
    let mut said = String::new();
    child.stderr.take().unwrap().read_to_string(&mut said).map_err(|e| e.to_string())?;
    let status = child.wait().map_err(|e| e.to_string())?;
    if said != says {
        return Err(format!("it said {said:?}"));
    }
    if status.success() { Ok(text) } else { Err(format!("it ended with {status}")) }
}

// what differs, where something does
fn compared(expected: &str, found: Result<Vec<u8>, String>) -> Option<String> {
    match found {
        Ok(found) if found == expected.as_bytes() => None,
        Ok(found) => Some(first_difference(expected, &found)),
        Err(why) => Some(why),
    }
}

// the lines of a summary, from whole ones
fn in_short(lines: &str) -> String {
    let short = |line: &str| {
        let words: Vec<&str> = line.split(' ').collect();
        match words[0] {
            "P" => words[..5].join(" "),
            "W" => format!("W {} {}", words[1], words.len() - 2),
            _ => line.to_string(),
        }
    };
    lines.lines().map(|line| short(line) + "\n").collect()
}

// replay reads its standard input; a tape that is too long is said on standard error
fn differs_replay(path: &str, tape: &[u8], expected: &str) -> Option<String> {
    let says = if MOST_BYTES < tape.len() { "replay: the tape is longer than 65536 bytes\n" } else { "" };
    compared(expected, printed(&mut Command::new(path), tape, says))
}

// play reads a file, in both forms
fn differs_play(path: &str, file: &str, tape: &[u8], expected: &str) -> Option<String> {
    std::fs::write(file, tape).expect("a file for the tape");
    compared(expected, printed(Command::new(path).arg(file), &[], ""))
        .or_else(|| compared(&in_short(expected), printed(Command::new(path).args(["--summary", file]), &[], "")))
}

// the tapes of the fixed list, each with its output
fn listed(list: &str) -> Vec<(Vec<u8>, Vec<u8>)> {
    let bytes = std::fs::read(list).expect("the list");
    let mut left = &bytes[..];
    let mut tapes = vec![];
    while left.len() > 0 {
        let [n, m] = [0, 4].map(|i| u32::from_be_bytes(left[i..i + 4].try_into().unwrap()) as usize);
        tapes.push((left[8..8 + n].to_vec(), left[8 + n..8 + n + m].to_vec()));
        left = &left[8 + n + m..];
    }
    tapes
}

// the first line that differs, as it is here and there
fn first_difference(expected: &str, found: &[u8]) -> String {
    let found = String::from_utf8_lossy(found).into_owned();
    let short = |l: Option<&str>| l.map_or("no line".into(), |l| format!("{:?}", l.chars().take(200).collect::<String>()));
    let (mut e, mut f) = (expected.split_inclusive('\n'), found.split_inclusive('\n'));
    for line in 1.. {
        let (x, y) = (e.next(), f.next());
        if x != y || x.is_none() {
            return format!("line {line}: {}, expected {}", short(y), short(x));
        }
    }
    unreachable!()
}

fn main() {
    let args: Vec<String> = std::env::args().collect();
    let number = |s: &String| s.parse::<u64>().unwrap_or_else(|_| {
        eprintln!("'{s}' is no number");
        exit(2)
    });
    let (plays, path, seed, tapes, keep) = (args[1] == "play", &args[2], number(&args[3]), number(&args[4]), &args[5]);
    let mut bytes = 0;
    let mut seen: BTreeMap<String, u64> = BTreeMap::new();
    let mut hold = |what: String, tape: &[u8]| {
        let expected = if plays { replay_over(tape, usize::MAX, FLOATS, WORDS) } else { replay(tape) };
        let difference = if plays { differs_play(path, keep, tape, &expected) } else { differs_replay(path, tape, &expected) };
        if let Some(difference) = difference {
            std::fs::write(keep, tape).expect("a file for the tape");
            println!("DIFFERS: {what}, {} bytes, kept in {keep}", tape.len());
            println!("  {difference}");
            exit(1)
        }
        bytes += expected.len();
        for line in expected.lines() {
            let words: Vec<&str> = line.split(' ').take(2).collect();
            let kind = if words[0] == "X" { words.join(" ") } else { words[0].to_string() };
            *seen.entry(kind).or_default() += 1;
        }
        expected
    };
    if plays {
        let list = listed(&args[6]);
        let same = list.iter().enumerate().filter(|(i, (tape, text))| hold(format!("tape {i} of the list"), tape).as_bytes() == text).count();
        println!("{} tapes of the fixed list: all equal, {same} of them to what is stored, and the others take more than replay has", list.len());
    }
    let mut r = Random::new(seed);
    for i in 0..tapes {
        hold(format!("tape {i} of {tapes}, seed {seed}"), &tapes::tape(&mut r));
    }
    println!("{tapes} tapes, seed {seed}: all equal; in all {bytes} bytes of output");
    let lines: Vec<String> = seen.iter().map(|(kind, n)| format!("{kind}: {n}")).collect();
    println!("  lines: {}", lines.join(", "));
    if plays {
        std::fs::remove_file(keep).ok();
    }
}
