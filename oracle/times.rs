// Times calls in the original and here, the same in both, and prints one table. See times.sh.
#![allow(warnings)]
include!("rigflow.rs");
mod original;
mod random;
mod tape_words;

use audio_metrics::AudioMetrics;
use original::{Original, Settings};
use random::Random;
use std::hint::black_box;
use std::io::{Read, Write};
use std::process::{Command, Stdio};
use std::time::{Duration, Instant};
use tape_words::{words_of, Call};
use ui::layout::{WATERFALL_IMAGE_HEIGHT as HEIGHT, WATERFALL_IMAGE_WIDTH as WIDTH};

// bins of a chunk, and runs of which the best counts
const CHUNK: usize = 350;
const RUNS: usize = 7;
const ESTIMATES: [f32; 6] = [-20.0, -110.0, 70.0, -20.0, -110.0, 70.0];

// ---- calls, in rounds

struct Rounds {
    sizes: [usize; 6],
    // in each round
    calls: Vec<Call>,
}

impl Rounds {
    fn tape(&self) -> Vec<u8> {
        let mut words = vec![0xe000_0000];
        words.extend(self.sizes.map(|n| n as u32));
        words.extend(ESTIMATES.map(f32::to_bits));
        words.extend(self.calls.iter().flat_map(|c| words_of(c).unwrap()));
        words.push(0);
        words.iter().flat_map(|w| w.to_be_bytes()).collect()
    }
}

// an audio packet's sequence and a row's number, as repeat_tape sets them
fn number(d: &mut [u8], sequence: &mut u32, round: u32) {
    if d.len() < 18 {
        return;
    }
    if d[3] == 1 {
        d[4..8].copy_from_slice(&sequence.to_be_bytes());
        *sequence += 1;
    } else if d[3] == 2 {
        d[16..18].copy_from_slice(&(round as u16).to_be_bytes());
    }
}

// The time of the rounds from `first` on up to `last`, and the sum of the last samples' patterns.
fn original_rounds(r: &Rounds, first: u32, last: u32) -> (Duration, u64) {
    let mut calls = r.calls.clone();
    let mut o = Original::new(r.sizes[0], r.sizes[1], r.sizes[2], ESTIMATES);
    let clock = AudioMetrics::new();
    let mut out = vec![0.0f32; 65_535];
    let mut sequence = 0;
    let mut begun = Instant::now();
    for round in 0..last {
        if round == first {
            begun = Instant::now();
        }
        for c in &mut calls {
            match c {
                Call::Datagram(d) => {
                    number(d, &mut sequence, round);
                    o.datagram(d);
                }
                Call::Play(side, n) => o.jitter[*side as usize].lock().unwrap().pop_samples(&mut out[..*n as usize]),
                Call::Reset(side) => o.jitter[*side as usize].lock().unwrap().reset(),
                Call::Set(side, adaptive, x) => {
                    let [top, range, zoom, smoothing] = x.map(f32::from_bits);
                    o.set(*side as usize, Settings { adaptive: *adaptive, top, range, zoom, smoothing })
                }
                Call::Probe([t1, t2, t3, t4]) => {
                    let (offset, rtt) = net::udp_framing::clock_offset_rtt(*t1, *t2, *t3, *t4);
                    clock.record_probe(offset, rtt)
                }
                _ => {}
            }
        }
    }
    let took = begun.elapsed();
    black_box(&clock);
    (took, out.iter().fold(0, |sum: u64, x| sum.wrapping_add(x.to_bits() as u64)))
}

// The time of a program over some input, and what it printed.
fn process(program: &str, input: &[u8]) -> (Duration, Vec<u8>) {
    let begun = Instant::now();
    let mut child = Command::new(program).stdin(Stdio::piped()).stdout(Stdio::piped()).spawn().expect(program);
    let mut stdin = child.stdin.take().unwrap();
    let input = input.to_vec();
    let feeding = std::thread::spawn(move || stdin.write_all(&input).ok());
    let mut printed = vec![];
    child.stdout.take().unwrap().read_to_end(&mut printed).unwrap();
    assert!(child.wait().unwrap().success());
    feeding.join().unwrap();
    (begun.elapsed(), printed)
}

// repeat_tape over so many rounds
fn our_rounds(program: &str, tape: &[u8], count: u32) -> (Duration, u64) {
    let mut input = count.to_be_bytes().to_vec();
    input.extend(tape);
    let (took, printed) = process(program, &input);
    let text = String::from_utf8(printed).unwrap();
    let sum = text.split(' ').next().unwrap().parse().expect("a sum");
    (took, sum)
}

// The times of a round in the original and here, in nanoseconds: rounds n to 3 n, the best of several in alternation.
fn times(program: &str, r: &Rounds, n: u32) -> [f64; 2] {
    let tape = r.tape();
    let mut best = [Duration::MAX; 3];
    for _ in 0..RUNS {
        let (a, x) = original_rounds(r, n, 3 * n);
        let (b, _) = our_rounds(program, &tape, n);
        let (c, y) = our_rounds(program, &tape, 3 * n);
        assert_eq!(x, y, "the last samples");
        best = [best[0].min(a), best[1].min(b), best[2].min(c)];
    }
    let each = |d: Duration| d.as_secs_f64() * 1e9 / (2 * n) as f64;
    [each(best[0]), each(best[2].saturating_sub(best[1]))]
}

// a line of the table, in microseconds
fn line(name: &str, [a, b]: [f64; 2]) {
    println!("{name:<52} {:>10.2} {:>10.2} {:>6.2}", a / 1e3, b / 1e3, b / a);
}

// ---- what is measured

// a datagram of version 1
fn datagram(stream: u8, payload: &[u8]) -> Call {
    let mut d = vec![0x52, 0x53, 1, stream];
    d.extend([0; 12]);
    d.extend(payload);
    Call::Datagram(d)
}

fn payload(packet: usize) -> Vec<u8> {
    (0..2 * packet).map(|i| (i * 7 + 3) as u8).collect()
}

// a packet and a play of as many samples
fn sound([packet, target, max]: [usize; 3]) -> Rounds {
    let calls = vec![datagram(1, &payload(packet)), Call::Play(0, packet as u64)];
    Rounds { sizes: [packet, target, max, 1, WIDTH, HEIGHT], calls }
}

// a row's chunks, of values of -120 to -20
fn row(r: &mut Random, bins: usize, adaptive: bool) -> Rounds {
    let values: Vec<f32> = (0..bins).map(|_| -120.0 + r.below(100_000) as f32 / 1000.0).collect();
    let chunk = |(i, values): (usize, &[f32])| {
        let mut payload = vec![];
        for n in [0, bins as u16, (i * CHUNK) as u16] {
            payload.extend(n.to_be_bytes());
        }
        payload.extend(values.iter().flat_map(|v| v.to_le_bytes()));
        datagram(2, &payload)
    };
    let mut calls = vec![Call::Set(0, adaptive, [-35.0f32, 70.0, 1.0, 0.5].map(f32::to_bits))];
    calls.extend(values.chunks(CHUNK).enumerate().map(chunk));
    Rounds { sizes: [4, 8, 16, bins, WIDTH, HEIGHT], calls }
}

// a hundred of the same call
fn hundred(call: Call) -> Rounds {
    Rounds { sizes: [480, 1920, 9600, 4096, WIDTH, HEIGHT], calls: vec![call; 100] }
}

// ---- limits

fn best_of<T>(mut act: impl FnMut() -> T) -> f64 {
    (0..RUNS)
        .map(|_| {
            let begun = Instant::now();
            black_box(act());
            begun.elapsed().as_secs_f64() * 1e9
        })
        .fold(f64::MAX, f64::min)
}

// What a packet of 4,096 samples and its play must move with a queue of 65,536: the packet is written once and goes to the
// queue, its samples go to the output, and the rest of the queue goes to the front.
fn moves() -> f64 {
    let bytes = payload(4096);
    let mut waiting = vec![0.0f32; 4096];
    let mut queue = vec![0.0f32; 65_536 + 4096];
    let mut out = vec![0.0f32; 4096];
    let count = 1000;
    best_of(|| {
        for _ in 0..count {
            for (x, b) in waiting.iter_mut().zip(black_box(&bytes).chunks_exact(2)) {
                *x = i16::from_le_bytes([b[0], b[1]]) as f32 / 32767.0;
            }
            queue[61_440..65_536].copy_from_slice(black_box(&waiting));
            out.copy_from_slice(&queue[..4096]);
            queue.copy_within(4096..65_536, 0);
            black_box((&mut queue, &mut out));
        }
    }) / count as f64
}

// Each call reads all waiting sequences: a packet's share of it, with 0 to 65,535 waiting.
fn readings() -> f64 {
    let words: Vec<u32> = (0..65_536).collect();
    best_of(|| {
        for n in 0..words.len() {
            let w = black_box(&words[..n]);
            let falls = w.iter().zip(w.iter().skip(1)).fold(0, |sum, (a, b)| sum + (b <= a) as u32);
            black_box(falls);
        }
    }) / words.len() as f64
}

fn main() {
    let [repeat_tape, replay, replay_one, session]: [String; 4] = std::env::args().skip(1).collect::<Vec<_>>().try_into().expect("four arguments");
    let mut r = Random::new(1);
    let title = |unit: &str| println!("{:<52} {:>10} {:>10} {:>6}", format!("{unit}, picture {WIDTH} x {HEIGHT}"), "original", "this", "ratio");
    title("microseconds");
    for (sizes, n) in [([480, 1920, 9600], 100_000), ([4096, 4096, 131_072], 20_000), ([4096, 65_536, 131_072], 10_000)] {
        line(&format!("packet and play, {} {} {}", sizes[0], sizes[1], sizes[2]), times(&repeat_tape, &sound(sizes), n));
    }
    println!("{:<52} {:>10} {:>10.2}", "  the last row's moves alone", "", moves() / 1e3);
    let many = sound([1, 65_536, 131_072]);
    let one = Rounds { sizes: [1, 65_536, 131_072, 1, 1, 1], calls: vec![many.calls[0].clone()] };
    let tape = one.tape();
    let mut best = [f64::MAX; 2];
    for _ in 0..3 {
        let a = original_rounds(&one, 0, 65_536).0.as_secs_f64() * 1e9 / 65_536.0;
        let b = our_rounds(&repeat_tape, &tape, 65_536).0.as_secs_f64() * 1e9 / 65_536.0;
        best = [best[0].min(a), best[1].min(b)];
    }
    line("packet of one sample, 0 to 65,535 waiting", best);
    println!("{:<52} {:>10} {:>10.2}", "  the last row's reading of sequences alone", "", readings() / 1e3);
    for adaptive in [false, true] {
        for bins in [64, 512, 1024, 4096, 65_535] {
            let n = if bins > 10_000 { 100 } else { 1000 };
            line(&format!("row of {bins} bins, adaptive {}", if adaptive { "on" } else { "off" }), times(&repeat_tape, &row(&mut r, bins, adaptive), n));
        }
    }
    let tape = std::fs::read(&session).expect("the session");
    let mut best = [Duration::MAX; 2];
    for _ in 0..10 * RUNS {
        let (a, x) = process(&replay_one, &tape);
        let (b, y) = process(&replay, &tape);
        assert!(x == y, "the session's lines");
        best = [best[0].min(a), best[1].min(b)];
    }
    line("the example session, as a process", best.map(|d| d.as_secs_f64() * 1e9));
    println!();
    title("nanoseconds");
    let other = datagram(9, &[0; 8]);
    let probe = Call::Probe([1_000_000_000, 1_000_050_000, 1_000_060_000, 1_000_120_000]);
    for (name, call) in [
        ("a one-way time with no offset, which is ignored", Call::OneWay([0, 0])),
        ("a datagram of no bytes: the questions", Call::Datagram(vec![])),
        ("a datagram of another type", other),
        ("a reset", Call::Reset(0)),
        ("a probe", probe),
    ] {
        let [a, b] = times(&repeat_tape, &hundred(call), 20_000).map(|t| t / 100.0);
        println!("{name:<52} {a:>10.1} {b:>10.1}");
    }
}
