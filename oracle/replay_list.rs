// Writes the fixed list of tapes with what a replay around the original prints for each, and says what the list covers.
//   replay_list FILE EXAMPLES
// EXAMPLES is the folder of the example session. See replay_list.sh.
#![allow(warnings)]
include!("rigflow.rs");
mod caller;
mod original;
mod original_clock;
mod questions;
mod random;
mod replaying;
mod tape_words;
mod tapes;
mod udp_sender;

use original::{Settings, FIRST_SETTINGS};
use questions::{Call, Setup, BOUND, DEPTH, HIGH, LOW};
use random::Random;
use replaying::{replay, AREA, MOST_BYTES};
use std::collections::{BTreeMap, BTreeSet};
use std::process::exit;
use tape_words::{Call as Taped, Tape};
use tapes::{all_floats, all_words, Made};
use Call::{Datagram, Depth, OneWay, Play, Probe, Reset, Set, TransmitDepth};

const A: usize = 0;
const B: usize = 1;
const SIDES: [usize; 2] = [A, B];
const LAST: u32 = u32::MAX;
const MOST_OF_LIST: usize = 2_000_000;
const LEAST_TAPES: usize = 300;

// ---- calls

fn header(version: u8, stream: u8, sequence: u32) -> Vec<u8> {
    let mut d = vec![0x52, 0x53, version, stream];
    d.extend(sequence.to_be_bytes());
    d.extend(1_700_000_000_000_000_000u64.to_be_bytes());
    d
}

fn with(mut d: Vec<u8>, more: &[u8]) -> Call {
    d.extend(more);
    Datagram(d)
}

// a packet of so many samples that count up from the first
fn sound(side: usize, version: u8, sequence: u32, n: usize, first: i16) -> Call {
    let mut d = header(version, 1 + 2 * side as u8, sequence);
    if version == 2 {
        d.extend(9u64.to_be_bytes());
    }
    d.extend((0..n).flat_map(|i| first.wrapping_add(i as i16).to_le_bytes()));
    Datagram(d)
}

fn chunk(side: usize, sequence: u32, [number, total, first]: [u16; 3], values: &[f32]) -> Call {
    let mut d = header(1, 2 + 2 * side as u8, sequence);
    d.extend([number, total, first].iter().flat_map(|n| n.to_be_bytes()));
    d.extend(values.iter().flat_map(|x| x.to_le_bytes()));
    Datagram(d)
}

// a probe of this offset and round trip
fn probe(offset: i64, trip: i64) -> Call {
    let t1 = 1_700_000_000_000_000_000u64;
    let there = t1.wrapping_add(offset as u64).wrapping_add((trip / 2 + trip % 2) as u64);
    Probe([t1, there, there, t1.wrapping_add(trip as u64)])
}

fn set(side: usize, adaptive: bool, top: f32, range: f32, zoom: f32, smoothing: f32) -> Call {
    Set(side, Settings { adaptive, top, range, zoom, smoothing })
}

// ---- setups

const SIZES: [usize; 6] = [4, 8, 16, 4, 3, 2];
const ESTIMATES: [f32; 6] = [-20.0, -110.0, 70.0, -25.0, -105.0, 65.0];

fn sized(sizes: [usize; 6]) -> Made {
    Made::new(&Setup { sizes, estimates: ESTIMATES })
}

fn jitter(packet: usize, target: usize, max: usize, calls: &[Call]) -> Vec<u8> {
    sized([packet, target, max, 1, 1, 1]).with(calls).bytes()
}

fn tape(calls: &[Call]) -> Vec<u8> {
    sized(SIZES).with(calls).bytes()
}

// Every kind of call, on both channels where it has one.
fn every_call() -> Made {
    let mut m = sized(SIZES);
    for side in SIDES {
        m.put(&sound(side, 1, 7, 4, -2));
        m.put(&sound(side, 2, 8, 4, 2));
        m.put(&Play(side, 3));
        m.put(&set(side, side == A, -30.0, 60.0, 2.0, 0.5));
        m.put(&chunk(side, 1, [1, 2, 0], &[-90.5, -40.25]));
        m.put(&Reset(side));
    }
    m.with(&[probe(100, 64), OneWay(1000, 900), Depth(480, [1, 2, 3, 4]), TransmitDepth(960), with(header(1, 1, 9), &[1])])
}

// ---- the groups

type Tapes = Vec<Vec<u8>>;

// a tape that must print this
fn known(name: &str, tape: Vec<u8>, printed: &str) -> Vec<u8> {
    let found = replay(&tape);
    if found != printed {
        println!("DIFFERS: {name} prints\n{found}");
        exit(1)
    }
    tape
}

fn example(folder: &str) -> Vec<u8> {
    let read = |name: &str| {
        std::fs::read(format!("{folder}/{name}")).unwrap_or_else(|e| {
            eprintln!("{folder}/{name}: {e}");
            exit(2)
        })
    };
    known("the example session", read("session.tape"), &String::from_utf8_lossy(&read("session.txt")))
}

// document 01's worked tape, the example session, and sessions on each channel
fn worked(examples: &str) -> Tapes {
    let smallest = Made::new(&Setup { sizes: [2, 2, 4, 1, 1, 1], estimates: [0.0; 6] })
        .with(&[with([0x52, 0x53, 1, 1, 0, 0, 0, 7, 0, 0, 0, 0, 0, 0, 0, 0].to_vec(), &[0xff, 0x7f, 1, 0x80]), Play(A, 2)])
        .bytes();
    let printed = "P A 2 0 0 3f800000 bf800000\nA 1 1 0 0 0 0 0 0\nB 0 0 0 0 0 0 0 0\nI 1 1 0 0 0 0 0\nC - - -\n";
    let mut all = vec![known("the worked tape", smallest, printed), example(examples), every_call().bytes(), tape(&[])];
    for s in SIDES {
        let push = |sequence: u32, n: usize, first: i16| sound(s, 1 + (sequence % 2) as u8, sequence, n, first);
        all.extend([
            jitter(4, 8, 16, &[push(10, 4, 1), push(11, 4, 5), Play(s, 4), Play(s, 4), Play(s, 4)]),
            jitter(4, 8, 16, &[push(10, 4, 1), push(20, 4, 5), Play(s, 8), Play(s, 8), Play(s, 8)]),
            jitter(64, 112, 256, &[push(1, 64, 1), push(2, 64, 65), Play(s, 10), Play(s, 120)]),
            jitter(64, 113, 256, &[push(1, 64, 1), push(2, 64, 65), Play(s, 10), Play(s, 120)]),
            // no samples asked for: dropped all the same
            jitter(64, 112, 256, &[Play(s, 0), push(1, 64, 1), push(2, 64, 65), Play(s, 0), Play(s, 0), Play(s, 100)]),
            // sequences that wrap, come late, twice and in another order
            jitter(2, 4, 8, &[push(LAST - 1, 2, 32766), push(LAST, 2, -2), push(0, 2, 9), push(LAST, 2, 20), push(1, 2, 11), Play(s, 3), Play(s, 4), push(3, 2, 13), Play(s, 6)]),
            jitter(3, 9, 18, &[push(7, 3, 1), push(5, 3, 4), push(6, 3, 7), push(9, 3, 10), push(8, 3, 13), Play(s, 5), push(10, 3, 16), Play(s, 9), Play(s, 9)]),
            jitter(4, 12, 24, &[push(10, 4, 1), push(11, 4, 5), push(10, 4, 100), push(12, 4, 9), push(13, 4, 13), push(13, 4, 200), Play(s, 12), Play(s, 4), Play(s, 1)]),
            // full, and a duplicate of what waits in a full buffer
            jitter(4, 8, 16, &[push(10, 4, 1), push(11, 4, 5), push(12, 4, 9), push(13, 4, 13), push(13, 4, 100), push(14, 4, 17), Play(s, 8), Play(s, 8)]),
            jitter(4, 8, 9, &[push(1, 4, 1), push(2, 4, 5), push(3, 4, 9), push(4, 4, 13), Play(s, 3), push(4, 4, 17), push(5, 4, 21), Play(s, 8), Play(s, 8)]),
            // a resync, and one again
            jitter(2, 10, 20, &[push(100, 2, 1), push(101, 2, 3), push(102, 2, 5), push(200, 2, 7), push(300, 2, 9), push(400, 2, 11), Play(s, 5), Play(s, 10), push(150, 2, 13), Play(s, 10), push(402, 2, 15), Play(s, 10)]),
            // the wrong count
            jitter(4, 8, 16, &[push(1, 3, 1), push(1, 5, 1), push(1, 1, 1), push(1, 4, 1), push(2, 8, 1), push(2, 4, 5), Play(s, 9)]),
            // before the start, and after a reset
            jitter(4, 8, 16, &[Play(s, 5), push(1, 4, 1), Play(s, 2), push(2, 4, 5), push(3, 4, 9), Play(s, 2), Reset(s), Play(s, 3), push(1, 4, 13), Play(s, 2), push(2, 4, 17), Play(s, 8)]),
            jitter(1, 1, 1, &[push(5, 1, 32767), push(6, 1, -32768), Play(s, 1), push(6, 1, -32767), Play(s, 2)]),
            // the largest number of dropped packets
            jitter(1, 3, 6, &[push(LAST, 1, 1), push(LAST, 1, 2), push(0, 1, 3), push(5, 1, 4), Play(s, 4)]),
        ]);
    }
    all
}

// each call alone, and the edges of its questions
fn calls() -> Tapes {
    let edges = [f32::NAN, -f32::NAN, f32::INFINITY, f32::NEG_INFINITY, f32::MAX, f32::MIN, -0.0, 1e-40];
    let mut all = vec![];
    for s in SIDES {
        all.extend([tape(&[Play(s, 0)]), tape(&[Play(s, 1)]), tape(&[Play(s, 300)]), tape(&[Reset(s)]), tape(&[Reset(s), Reset(1 - s), Play(s, 1)])]);
        for x in edges {
            all.push(tape(&[set(s, true, x, 70.0, 1.0, 0.0), set(s, true, -30.0, x, 1.0, 0.0), set(s, false, -30.0, 70.0, x, 0.0), set(s, false, -30.0, 70.0, 1.0, x)]));
        }
    }
    // the most samples that a play can ask for, of a queue that is empty
    all.push(tape(&[sound(B, 1, 1, 4, 1), Play(B, 65_535)]));
    for n in [0, 1, DEPTH - 1, DEPTH, DEPTH + 1, u32::MAX as usize] {
        all.push(tape(&[Depth(n, [0, u64::MAX, 1, 1 << 40]), TransmitDepth(n)]));
    }
    all
}

fn clock() -> Tapes {
    let mut all = vec![tape(&[Probe([10, 5, 5, 11])]), tape(&[Probe([0, u64::MAX, u64::MAX, 0])]), tape(&[OneWay(1000, 900)])];
    for second in [96, 97, 98] {
        all.push(tape(&[probe(100, 64), probe(90, second), probe(0, 200)]));
    }
    for bound in [BOUND - 1, BOUND, BOUND + 1, -BOUND, -BOUND - 1] {
        // no way to and fro but 1 ns, so that the offset is the bound's
        all.push(tape(&[Probe([0, bound as u64, bound as u64, 0]), Probe([0, bound as u64, bound.wrapping_add(1) as u64, 2]), probe(3, 8)]));
        all.push(tape(&[probe(0, bound), probe(-7, 40)]));
    }
    for trip in [-1, 0, 1, 2] {
        all.push(tape(&[probe(-5, trip), OneWay(5, 3)]));
    }
    for delay in [LOW - 1, LOW, LOW + 1, -1, 0, 1, HIGH - 1, HIGH, HIGH + 1] {
        let send = 1_000_000_000_000u64;
        let receive = send.wrapping_add(delay as u64).wrapping_sub(50);
        all.push(tape(&[OneWay(receive, send), probe(50, 8), OneWay(receive, send), OneWay(send.wrapping_add(2000), send), OneWay(receive, send)]));
    }
    all
}

// headers, streams, lengths
fn datagrams() -> Tapes {
    let mut all: Tapes = (0..=26).map(|n| tape(&[Datagram(with_length(header(1, 1, 3), n)), Datagram(with_length(header(2, 3, 3), n))])).collect();
    all.extend((0..=26).map(|n| tape(&[Datagram(with_length(header(1, 2, 3), n)), Datagram(with_length(header(2, 4, 3), n))])));
    for stream in [0, 1, 2, 3, 4, 5, 6, 12, 13, 127, 128, 255] {
        all.push(tape(&[Datagram(header(1, stream, 1)), with(header(2, stream, 5), &[0; 16])]));
    }
    for version in [0, 1, 2, 3, 127, 128, 255] {
        all.push(tape(&[with(header(version, 1, 1), &[1, 0, 2, 0, 3, 0, 4, 0, 5, 0, 6, 0, 7, 0, 8, 0]), Datagram(header(version, 4, 1))]));
    }
    for bit in 0..16 {
        let mut d = header(1, 1, 1);
        d[bit / 8] ^= 1 << (bit % 8);
        all.push(tape(&[Datagram(d)]));
    }
    all
}

fn with_length(mut d: Vec<u8>, n: usize) -> Vec<u8> {
    d.resize(n, 0);
    d
}

fn rows() -> Tapes {
    let mut all = vec![];
    for s in SIDES {
        let row = |number: u16, total: u16, first: u16, values: &[f32]| chunk(s, number as u32, [number, total, first], values);
        all.extend([
            // whole, in two, in the other order, sent twice, overlapping
            tape(&[row(1, 4, 0, &[-90.0, -80.5, -0.0, 1e-40])]),
            tape(&[row(1, 4, 0, &[1.0, 2.0]), row(1, 4, 2, &[3.0, 4.0])]),
            tape(&[row(1, 4, 3, &[4.0]), row(1, 4, 0, &[1.0, 2.0, 3.0])]),
            tape(&[row(1, 4, 0, &[1.0, 2.0]), row(1, 4, 0, &[1.0, 2.0])]),
            tape(&[row(1, 4, 0, &[1.0, 2.0, 3.0]), row(1, 4, 1, &[5.0, 6.0, 7.0])]),
            // a done row takes no more; another number or total opens one
            tape(&[row(1, 2, 0, &[1.0, 2.0]), row(1, 2, 0, &[3.0, 4.0]), row(2, 2, 1, &[5.0]), row(2, 1, 0, &[6.0]), row(2, 2, 0, &[7.0, 8.0])]),
            tape(&[row(65535, 4, 0, &[1.0; 3]), row(0, 4, 3, &[2.0]), row(0, 4, 0, &[3.0; 3])]),
            // a value that is not finite
            tape(&[row(1, 3, 0, &[1.0, f32::NAN, 3.0]), row(1, 3, 0, &[f32::INFINITY, 5.0, 6.0]), row(1, 3, 1, &[8.0, 9.0]), row(1, 3, 2, &[7.0])]),
            // chunks that are ignored
            tape(&[row(1, 0, 0, &[]), row(1, 0, 0, &[1.0]), row(1, 4, 4, &[1.0]), row(1, 4, 1, &[1.0; 4]), row(1, 4, 65535, &[1.0]), row(1, 4, 4, &[]), row(1, 4, 0, &[])]),
            // totals at bins and above
            tape(&[row(1, 4, 0, &[1.0; 4]), row(2, 5, 0, &[1.0; 4]), row(2, 65535, 0, &[]), row(2, 4, 0, &[2.0; 4])]),
            // bytes that are no whole value, and a total above bins with them
            tape(&[with(header(1, 2 + 2 * s as u8, 1), &[0, 1, 0, 1, 0, 0, 0, 0, 128]), with(header(1, 2 + 2 * s as u8, 1), &[0, 1, 0, 5, 0, 0, 0, 0, 128])]),
            // settings change nothing that is printed
            tape(&[set(s, true, -30.0, 70.0, 2.5, 0.7), row(1, 4, 0, &[-100.0, -50.0, -40.0, -30.0]), row(2, 4, 0, &[-90.0, 3e38, -3e38, f32::MAX]), row(3, 2, 0, &[0.0, -1.0]), row(4, 2, 0, &[1.0, 1.5])]),
        ]);
        // both channels at once, with the same row numbers
        all.push(tape(&[row(1, 2, 0, &[1.0]), chunk(1 - s, 1, [1, 2, 0], &[5.0]), row(1, 2, 1, &[2.0]), chunk(1 - s, 2, [1, 2, 1], &[6.0])]));
    }
    let long: Vec<f32> = (0..300).map(|i| i as f32 * 0.5 - 120.0).collect();
    all.push(sized([4, 8, 16, 300, 1, 1]).with(&[chunk(A, 1, [1, 300, 0], &long[..100]), chunk(B, 1, [1, 300, 0], &long), chunk(A, 1, [1, 300, 100], &long[100..])]).bytes());
    all
}

// sizes at the ends of their ranges and of the areas, and estimates
fn setups() -> Tapes {
    let mut all = vec![];
    let ends: [&[usize]; 6] = [
        &[0, 1, 4, 8, 9, 4096, 4097],
        &[0, 3, 4, 8, 16, 17, 65_536, 65_537],
        &[0, 7, 8, 17, 8100, 131_072, 131_073],
        &[0, 1, 2300, 2335, 2336, 65_535, 65_536],
        &[0, 1, 4094, 4096, 4097],
        &[0, 1, 2729, 2730, 4096, 4097],
    ];
    for (i, values) in ends.iter().enumerate() {
        for &n in values.iter().chain(&[1 << 31, u32::MAX as usize]) {
            let mut sizes = SIZES;
            sizes[i] = n;
            all.push(sized(sizes).with(&[Play(A, 1), Reset(B)]).bytes());
        }
    }
    // at the largest of all, and in range with areas that are too short
    all.extend([[4096, 65_536, 131_072, 65_535, 4096, 4096], [4096, 4096, 4096, 1, 1, 1], [1, 1, 1, 2340, 1, 1], [1, 1, 1, 1, 4096, 2]].map(|z| sized(z).bytes()));
    let mut r = Random::new(12);
    for i in 0..12 {
        let sizes = if i % 2 == 0 { all_floats(&mut r) } else { all_words(&mut r) };
        let mut more = sizes;
        more[if i % 2 == 0 { 3 } else { 2 }] += if i % 2 == 0 { 1 } else { 3 };
        all.extend([sized(sizes).with(&[Play(B, 2)]).bytes(), sized(more).with(&[Play(B, 2)]).bytes()]);
    }
    // the longest packet that the areas hold, and the next
    for packet in [2729, 2730] {
        all.push(sized([packet, packet, packet, 1, 1, 1]).with(&[sound(A, 2, 1, packet, -1000), Play(A, 9)]).bytes());
    }
    for i in 0..6 {
        for x in [f32::NAN, f32::INFINITY, f32::NEG_INFINITY, f32::MAX, -0.0] {
            let mut estimates = ESTIMATES;
            estimates[i] = x;
            all.push(Made::new(&Setup { sizes: SIZES, estimates }).with(&[chunk(A, 1, [1, 1, 0], &[1.0])]).bytes());
        }
    }
    // 1 before 2 before 5
    for (sizes, i) in [([0, 8, 16, 65_535, 3, 2], 2), ([4, 8, 16, 65_535, 3, 2], 3)] {
        let mut estimates = ESTIMATES;
        estimates[i] = f32::NAN;
        all.push(Made::new(&Setup { sizes, estimates }).bytes());
    }
    all
}

fn damaged() -> Tapes {
    let whole = every_call();
    let bytes = whole.bytes();
    let words = bytes.len() / 4;
    let of = |ws: &[u32]| ws.iter().flat_map(|w| w.to_be_bytes()).collect::<Vec<u8>>();
    // cut at each word, and behind one, two or three bytes of it
    let mut all: Tapes = (0..=words).map(|w| bytes[..4 * w].to_vec()).collect();
    all.extend((0..words).map(|w| bytes[..4 * w + 1 + w % 3].to_vec()));
    // bytes behind the end
    for more in [&[0][..], &[1], &[0; 3], &[0; 4], &[0; 8], &[0xe0, 0, 0, 0], &[0x40, 0, 0, 1, 0, 0, 0, 0]] {
        all.push([&bytes[..], more].concat());
    }
    let mut first_words = whole.starts.clone();
    first_words.push(words - 1);
    for &at in first_words.iter().chain(&[0]) {
        let mut ws = whole.words.clone();
        ws.push(0);
        // each bit of a call's first word, of the end and of the setup's first word
        for bit in [0, 1, 2, 8, 15, 16, 20, 27, 28, 29, 30, 31] {
            let mut damaged = ws.clone();
            damaged[at] ^= 1 << bit;
            all.push(of(&damaged));
        }
        // an end and a setup in the middle
        for word in [0, tapes::SETUP] {
            let mut damaged = ws.clone();
            damaged.insert(at, word);
            all.push(of(&damaged));
            damaged = ws.clone();
            damaged[at] = word;
            all.push(of(&damaged));
        }
    }
    // padding of one, two and three bytes, and each of its bits
    for n in 1..4 {
        let m = sized(SIZES).with(&[Datagram(vec![0x52; n]), Play(A, 1)]);
        for bit in 0..8 * (4 - n) {
            let mut damaged = m.clone();
            damaged.words[m.starts[0] + 1] ^= 1 << bit;
            all.push(damaged.bytes());
        }
    }
    // a bit that makes a play long is left out
    all.retain(|t| replay(t).len() < 4000);
    all
}

fn lengths() -> Tapes {
    let mut r = Random::new(5);
    let mut all: Tapes = (65_535..=65_540).map(|n| every_call().filled(&mut r, n)).collect();
    // one datagram, as long as a tape holds
    all.push(sized(SIZES).with(&[Datagram(with_length(header(1, 3, 1), 65_476))]).bytes());
    all
}

// random sessions and damaged ones, without the longest
fn random() -> Tapes {
    let mut r = Random::new(7);
    let mut all = vec![];
    while all.len() < 350 {
        let t = tapes::tape(&mut r);
        if t.len() + replay(&t).len() <= 2800 {
            all.push(t);
        }
    }
    all
}

// ---- what is covered

const STREAMS: [&str; 5] = ["another stream", "audio of A", "waterfall of A", "audio of B", "waterfall of B"];
const OF_CHANNEL: [&str; 8] = ["received", "inserted", "concealed", "late", "overflow", "invalid size", "resyncs", "filled"];
const OF_INCOMING: [&str; 7] = ["incoming", "audio", "waterfall", "audio dropped", "waterfall dropped", "audio late", "waterfall late"];
const OF_CLOCK: [&str; 3] = ["offset", "round trip", "one-way"];
const OF_PLAY: [&str; 3] = ["taken", "dropped", "short"];
const REFUSALS: [usize; 8] = [1, 2, 5, 6, 7, 8, 9, 11];

// what the list must have, each in at least one tape
fn demanded() -> Vec<String> {
    let sides = ["A", "B"];
    let mut all: Vec<String> = STREAMS.iter().map(|s| format!("call: datagram, {s}")).collect();
    for s in sides {
        all.extend(["play", "reset", "set"].map(|c| format!("call: {c} of {s}")));
        all.extend(OF_PLAY.map(|n| format!("line P {s}: {n} above 0")));
        all.push(format!("line W {s}"));
        all.extend(OF_CHANNEL.map(|n| format!("line {s}: {n} above 0")));
    }
    all.extend(["probe", "one-way", "depth", "transmit depth"].map(|c| format!("call: {c}")));
    all.extend(OF_INCOMING.map(|n| format!("line I: {n} above 0")));
    all.extend(OF_CLOCK.map(|n| format!("line C: {n} known")));
    all.extend(REFUSALS.map(|n| format!("refusal {n:02}")));
    all.extend((65_535..=65_540).map(|n| format!("tape of {n} bytes")));
    all.extend(["tape of 0 bytes".into(), "tape that ends in a part of a word".into(), "tape that is accepted".into()]);
    all
}

fn name_of(c: &Taped) -> String {
    let side = |s: &u64| ["A", "B"][*s as usize];
    match c {
        Taped::Datagram(d) => {
            let stream = d.get(3).map_or(0, |&s| if s < 5 { s as usize } else { 0 });
            format!("datagram, {}", STREAMS[stream])
        }
        Taped::Play(s, _) => format!("play of {}", side(s)),
        Taped::Reset(s) => format!("reset of {}", side(s)),
        Taped::Set(s, ..) => format!("set of {}", side(s)),
        Taped::Probe(_) => "probe".into(),
        Taped::OneWay(_) => "one-way".into(),
        Taped::Depth(..) => "depth".into(),
        Taped::Transmit(_) => "transmit depth".into(),
    }
}

// what one tape covers
fn covers(tape: &[u8], text: &str) -> Vec<String> {
    let mut all = vec![format!("tape of {} bytes", tape.len())];
    if tape.len() % 4 != 0 {
        all.push("tape that ends in a part of a word".into());
    }
    if text.contains("\nC ") {
        let (_, calls) = (Tape { bytes: tape }).read().expect("a tape that is accepted");
        all.push("tape that is accepted".into());
        all.extend(calls.iter().map(|c| format!("call: {}", name_of(c))));
    }
    for line in text.lines() {
        let words: Vec<&str> = line.split(' ').collect();
        let above = |names: &[&str], of: &str, from: usize| -> Vec<String> {
            (0..names.len()).filter(|&i| words[from + i] != "0").map(|i| format!("line {of}: {} above 0", names[i])).collect()
        };
        match words[0] {
            "P" => all.extend(above(&OF_PLAY, &format!("P {}", words[1]), 2)),
            "W" => all.push(format!("line W {}", words[1])),
            "X" => all.push(format!("refusal {:0>2}", words[1])),
            "I" => all.extend(above(&OF_INCOMING, "I", 1)),
            "C" => all.extend((0..3).filter(|&i| words[1 + i] != "-").map(|i| format!("line C: {} known", OF_CLOCK[i]))),
            side => all.extend(above(&OF_CHANNEL, side, 1)),
        }
    }
    all.sort();
    all.dedup();
    all
}

fn main() {
    let args: Vec<String> = std::env::args().collect();
    let (path, examples) = (&args[1], &args[2]);
    let groups = [
        ("worked sessions", worked(examples)),
        ("each call and its edges", calls()),
        ("the clock", clock()),
        ("headers, streams and lengths of datagrams", datagrams()),
        ("rows", rows()),
        ("setups", setups()),
        ("damaged tapes", damaged()),
        ("the longest tapes", lengths()),
        ("random tapes", random()),
    ];
    let (mut list, mut tapes, mut by_name) = (vec![], 0, BTreeMap::<String, usize>::new());
    let mut there = BTreeSet::new();
    for (group, mut of_group) in groups {
        of_group.retain(|tape| there.insert(tape.clone()));
        let (first, from) = (tapes, list.len());
        for tape in &of_group {
            let text = replay(tape);
            list.extend((tape.len() as u32).to_be_bytes());
            list.extend((text.len() as u32).to_be_bytes());
            list.extend(tape);
            list.extend(text.as_bytes());
            for name in covers(tape, &text) {
                *by_name.entry(name).or_default() += 1;
            }
        }
        tapes += of_group.len();
        println!("tapes {first} to {}: {group}, {} bytes", tapes - 1, list.len() - from);
    }
    println!("{tapes} tapes, {} bytes with their outputs; of them", list.len());
    let mut missing = vec![];
    for name in demanded() {
        let n = by_name.get(&name).copied().unwrap_or(0);
        println!("{n:7}  {name}");
        if n == 0 {
            missing.push(name);
        }
    }
    if !missing.is_empty() || tapes < LEAST_TAPES || list.len() >= MOST_OF_LIST {
        println!("NOT ENOUGH: {tapes} tapes, {} bytes, missing: {}", list.len(), missing.join("; "));
        exit(1)
    }
    std::fs::write(path, list).unwrap_or_else(|e| {
        eprintln!("{path}: {e}");
        exit(2)
    });
}
