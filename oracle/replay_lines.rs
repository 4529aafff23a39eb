// The half of a replay that needs no receiver: a tape's setup and calls by the second reader, and the lines.
use crate::original::Settings;
use crate::questions::{Call, Setup};
use crate::tape_words::{Call as Taped, Tape};
use std::fmt::Write;

// the lengths of the areas of the program replay, and the most bytes of a tape
pub const AREA: usize = 16_384;
pub const MOST_BYTES: usize = 65_536;

// the areas of the program play, which takes a tape of any length
pub const FLOATS: usize = 868_277;
pub const WORDS: usize = 33_816_576;

pub const LETTERS: [char; 2] = ['A', 'B'];

// ---- tapes

// the setup and the calls, or the line of a refusal
pub fn session_of(tape: &[u8], most: usize) -> Result<(Setup, Vec<Call>), String> {
    if tape.len() > most {
        return Err(format!("X 11 {}\n", most / 4));
    }
    let (words, calls) = (Tape { bytes: tape }).read().map_err(|place| format!("X 11 {place}\n"))?;
    Ok((setup_of(&words), calls.into_iter().map(call_of).collect()))
}

// a tape's words as a setup
pub fn setup_of(words: &[u32; 12]) -> Setup {
    Setup { sizes: std::array::from_fn(|i| words[i] as usize), estimates: std::array::from_fn(|i| f32::from_bits(words[6 + i])) }
}

// a call of a tape as one of a receiver
pub fn call_of(c: Taped) -> Call {
    match c {
        Taped::Datagram(d) => Call::Datagram(d),
        Taped::Play(side, n) => Call::Play(side as usize, n as usize),
        Taped::Reset(side) => Call::Reset(side as usize),
        Taped::Set(side, adaptive, x) => {
            let [top, range, zoom, smoothing] = x.map(f32::from_bits);
            Call::Set(side as usize, Settings { adaptive, top, range, zoom, smoothing })
        }
        Taped::Probe(t) => Call::Probe(t),
        Taped::OneWay([receive, send]) => Call::OneWay(receive, send),
        Taped::Depth(n, k) => Call::Depth(n as usize, k),
        Taped::Transmit(n) => Call::TransmitDepth(n as usize),
    }
}

// ---- lines

pub fn play_line(text: &mut String, side: usize, [taken, dropped, short]: [usize; 3], samples: &[f32]) {
    write!(text, "P {} {taken} {dropped} {short}", LETTERS[side]).unwrap();
    line_of(text, samples);
}

pub fn row_line(text: &mut String, side: usize, values: &[f32]) {
    write!(text, "W {}", LETTERS[side]).unwrap();
    line_of(text, values);
}

// bits in hex, each after a space, and the end of the line
fn line_of(text: &mut String, xs: &[f32]) {
    for x in xs {
        write!(text, " {:08x}", x.to_bits()).unwrap();
    }
    text.push('\n');
}

// The last four lines, of the clock's words those of clock_words.
pub fn closing_lines(text: &mut String, sound: [[u64; 8]; 2], datagrams: [u64; 7], clock: &[u64]) {
    for (letter, numbers) in LETTERS.iter().zip(sound) {
        writeln!(text, "{letter} {}", numbers.map(|n| n.to_string()).join(" ")).unwrap();
    }
    writeln!(text, "I {}", datagrams.map(|n| n.to_string()).join(" ")).unwrap();
    let [offset, trip, delay] = [(0, 1), (0, 2), (4, 5)].map(|(there, n)| or_dash(clock[there], (clock[n] as i64).to_string()));
    writeln!(text, "C {offset} {trip} {delay}").unwrap();
}

pub fn or_dash(there: u64, word: String) -> String {
    if there == 0 { "-".into() } else { word }
}
