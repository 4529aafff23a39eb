// Holds the proved reader and writer of the tape against those of tape_words.rs on random tapes.
//   tape SEED COUNT
// Exit status 0: every verdict, place, setup, call and written byte is the same. Else the first case is printed.

mod random;
mod tape_words;
use random::Random;
use tape_words::{words_of, At, Call, Tape};

use std::process::exit;

#[link(name = "tape_exports", kind = "static")]
extern "C" {
    fn tape_check(tape: *const u8, n: usize) -> u64;
    fn tape_setup(tape: *const u8, n: usize, out: *mut u64, m: usize) -> u64;
    fn tape_call_at(tape: *const u8, n: usize, place: usize, out: *mut u64, m: usize);
    fn tape_put_setup(target: *mut u8, n: usize, place: usize, packet: usize, target_size: usize, max: usize, bins: usize, width: usize, height: usize, a1: u32, a2: u32, a3: u32, b1: u32, b2: u32, b3: u32) -> u64;
    fn tape_put_datagram(target: *mut u8, n: usize, place: usize, bytes: *const u8, m: usize) -> u64;
    fn tape_put_play(target: *mut u8, n: usize, place: usize, side: u64, samples: usize) -> u64;
    fn tape_put_reset(target: *mut u8, n: usize, place: usize, side: u64) -> u64;
    fn tape_put_set(target: *mut u8, n: usize, place: usize, side: u64, adaptive: bool, top: u32, range: u32, zoom: u32, smoothing: u32) -> u64;
    fn tape_put_probe(target: *mut u8, n: usize, place: usize, t1: u64, t2: u64, t3: u64, t4: u64) -> u64;
    fn tape_put_one_way(target: *mut u8, n: usize, place: usize, receive: u64, send: u64) -> u64;
    fn tape_put_depth(target: *mut u8, n: usize, place: usize, samples: usize, conceals: u64, late: u64, overflow: u64, resyncs: u64) -> u64;
    fn tape_put_transmit_depth(target: *mut u8, n: usize, place: usize, samples: usize) -> u64;
    fn tape_put_end(target: *mut u8, n: usize, place: usize) -> u64;
}

const ACCEPTED: u64 = u64::MAX;
const ELEVEN: u64 = u64::MAX - 11;
const TWO: u64 = u64::MAX - 2;

// ---- the writer

// the answer of writing words at a place, and the target after it
fn written(words: Option<Vec<u32>>, place: usize, target: &[u8]) -> (u64, Vec<u8>) {
    let mut after = target.to_vec();
    let Some(ws) = words else {
        return (ELEVEN, after);
    };
    let end = place as u128 + ws.len() as u128;
    if end * 4 > target.len() as u128 {
        return (TWO, after);
    }
    for (i, w) in ws.iter().enumerate() {
        after[(place + i) * 4..][..4].copy_from_slice(&w.to_be_bytes());
    }
    (end as u64, after)
}

// ---- random numbers

impl Random {
    fn word(&mut self) -> u32 {
        match self.below(4) {
            0 => self.below(4) as u32,
            1 => 1 << self.below(32),
            _ => self.next() as u32,
        }
    }

    fn long(&mut self) -> u64 {
        (self.word() as u64) << 32 | self.word() as u64
    }

    fn call(&mut self) -> Call {
        let side = self.below(2);
        match self.below(8) {
            0 => {
                let n = self.below(14);
                Call::Datagram((0..n).map(|_| self.word() as u8).collect())
            }
            1 => Call::Play(side, self.next() & 0xffff),
            2 => Call::Reset(side),
            3 => Call::Set(side, self.below(2) == 1, [0; 4].map(|_| self.word())),
            4 => Call::Probe([0; 4].map(|_| self.long())),
            5 => Call::OneWay([0; 2].map(|_| self.long())),
            6 => Call::Depth(self.word() as u64, [0; 4].map(|_| self.long())),
            _ => Call::Transmit(self.word() as u64),
        }
    }

    // a call that may not fit its field
    fn large_call(&mut self) -> Call {
        let side = self.below(2);
        let more = self.below(3) << 32 | self.word() as u64;
        match self.below(8) {
            0 => Call::Play(side, 65530 + self.below(12)),
            1 => Call::Depth(more, [0; 4].map(|_| self.long())),
            2 => Call::Transmit(more),
            3 => Call::Datagram(vec![7; 65533 + self.below(5) as usize]),
            _ => self.call(),
        }
    }
}

fn fail(what: &str, bytes: &[u8], ours: String, theirs: String) -> ! {
    println!("not equal: {what}\ntape {bytes:02x?}\nhere {ours}\nproved {theirs}");
    exit(1)
}

// ---- the comparisons

fn shown(f: &At, place: usize) -> [u64; 8] {
    let mut out = [0; 8];
    match f {
        At::Call(c, next) => {
            out[1] = *next as u64;
            match c {
                Call::Datagram(b) => {
                    out[0] = 1;
                    out[2] = 4 * (place as u64 + 1);
                    out[3] = b.len() as u64;
                }
                Call::Play(s, n) => (out[0], out[2], out[3]) = (2, *s, *n),
                Call::Reset(s) => (out[0], out[2]) = (3, *s),
                Call::Set(s, a, x) => {
                    (out[0], out[2], out[3]) = (4, *s, *a as u64);
                    for i in 0..4 {
                        out[4 + i] = x[i] as u64;
                    }
                }
                Call::Probe(t) => {
                    out[0] = 5;
                    out[2..6].copy_from_slice(t);
                }
                Call::OneWay(t) => {
                    out[0] = 6;
                    out[2..4].copy_from_slice(t);
                }
                Call::Depth(n, k) => {
                    (out[0], out[2]) = (7, *n);
                    out[3..7].copy_from_slice(k);
                }
                Call::Transmit(n) => (out[0], out[2]) = (8, *n),
            }
        }
        At::End => out[0] = 9,
        At::Bad(p) => (out[0], out[1]) = (10, *p as u64),
    }
    out
}

fn compare_place(bytes: &[u8], place: usize) {
    let ours = shown(&Tape { bytes }.at(place), place);
    let mut theirs = [0u64; 8];
    unsafe { tape_call_at(bytes.as_ptr(), bytes.len(), place, theirs.as_mut_ptr(), 8) };
    if ours != theirs {
        fail(&format!("the call at {place}"), bytes, format!("{ours:?}"), format!("{theirs:?}"));
    }
}

// the verdict, the setup, and what stands at each place; true where the tape is accepted
fn compare_tape(bytes: &[u8], random: &mut Random) -> bool {
    let ours = Tape { bytes }.read();
    let verdict = match &ours {
        Ok(_) => ACCEPTED,
        Err(p) => *p as u64,
    };
    let theirs = unsafe { tape_check(bytes.as_ptr(), bytes.len()) };
    if verdict != theirs {
        fail("the verdict", bytes, format!("{verdict}"), format!("{theirs}"));
    }
    let mut numbers = [0u64; 12];
    let found = unsafe { tape_setup(bytes.as_ptr(), bytes.len(), numbers.as_mut_ptr(), 12) };
    let setup = match &ours {
        Ok((s, _)) => s.map(|n| n as u64),
        Err(_) => [0; 12],
    };
    if found != verdict || numbers != setup {
        fail("the setup", bytes, format!("{verdict} {setup:?}"), format!("{found} {numbers:?}"));
    }
    for place in 0..bytes.len() / 4 + 2 {
        compare_place(bytes, place);
    }
    for place in [usize::MAX, usize::MAX / 4, usize::MAX / 4 + 1, random.next() as usize] {
        compare_place(bytes, place);
    }
    ours.is_ok()
}

fn put(c: &Call, target: &mut [u8], place: usize) -> u64 {
    let (t, n) = (target.as_mut_ptr(), target.len());
    unsafe {
        match c {
            Call::Datagram(b) => tape_put_datagram(t, n, place, b.as_ptr(), b.len()),
            Call::Play(s, m) => tape_put_play(t, n, place, *s, *m as usize),
            Call::Reset(s) => tape_put_reset(t, n, place, *s),
            Call::Set(s, a, x) => tape_put_set(t, n, place, *s, *a, x[0], x[1], x[2], x[3]),
            Call::Probe(x) => tape_put_probe(t, n, place, x[0], x[1], x[2], x[3]),
            Call::OneWay(x) => tape_put_one_way(t, n, place, x[0], x[1]),
            Call::Depth(m, k) => tape_put_depth(t, n, place, *m as usize, k[0], k[1], k[2], k[3]),
            Call::Transmit(m) => tape_put_transmit_depth(t, n, place, *m as usize),
        }
    }
}

fn compare_put(c: &Call, place: usize, target: &[u8]) -> Vec<u8> {
    let (answer, after) = written(words_of(c), place, target);
    let mut theirs = target.to_vec();
    let got = put(c, &mut theirs, place);
    if got != answer || theirs != after {
        fail(&format!("writing {c:?} at {place}"), target, format!("{answer} {after:02x?}"), format!("{got} {theirs:02x?}"));
    }
    after
}

fn compare_setup(z: [u64; 6], e: [u32; 6], place: usize, target: &[u8]) -> Vec<u8> {
    let fits = z.iter().all(|n| *n <= u32::MAX as u64);
    let words = fits.then(|| [0xe000_0000].into_iter().chain(z.map(|n| n as u32)).chain(e).collect());
    let (answer, after) = written(words, place, target);
    let mut theirs = target.to_vec();
    let s = z.map(|n| n as usize);
    let (t, n) = (theirs.as_mut_ptr(), theirs.len());
    let got = unsafe { tape_put_setup(t, n, place, s[0], s[1], s[2], s[3], s[4], s[5], e[0], e[1], e[2], e[3], e[4], e[5]) };
    if got != answer || theirs != after {
        fail("writing a setup", target, format!("{answer} {after:02x?}"), format!("{got} {theirs:02x?}"));
    }
    after
}

fn compare_end(place: usize, target: &[u8]) -> Vec<u8> {
    let (answer, after) = written(Some(vec![0]), place, target);
    let mut theirs = target.to_vec();
    let got = unsafe { tape_put_end(theirs.as_mut_ptr(), theirs.len(), place) };
    if got != answer || theirs != after {
        fail("writing the end", target, format!("{answer} {after:02x?}"), format!("{got} {theirs:02x?}"));
    }
    after
}

// a tape, written by both
fn whole(random: &mut Random, target: &[u8]) -> (Vec<u8>, [u32; 12], Vec<Call>) {
    let z = [0; 6].map(|_| random.word() as u64);
    let e = [0; 6].map(|_| random.word());
    let mut bytes = compare_setup(z, e, 0, target);
    let mut calls = Vec::new();
    let mut place = 13;
    for _ in 0..random.below(8) {
        let c = random.call();
        bytes = compare_put(&c, place, &bytes);
        place += words_of(&c).unwrap().len();
        calls.push(c);
    }
    bytes = compare_end(place, &bytes);
    bytes.truncate((place + 1) * 4);
    let mut setup = [0; 12];
    for i in 0..6 {
        setup[i] = z[i] as u32;
        setup[6 + i] = e[i];
    }
    (bytes, setup, calls)
}

fn damage(bytes: &mut Vec<u8>, random: &mut Random) {
    let n = bytes.len() as u64;
    match random.below(8) {
        0 => bytes[random.below(n) as usize] ^= 1 << random.below(8),
        1 => bytes[random.below(n) as usize] = random.word() as u8,
        2 => bytes.truncate(random.below(n) as usize),
        3 => (0..1 + random.below(9)).for_each(|_| bytes.push(random.below(3) as u8)),
        4 => {
            let at = 4 * random.below(n / 4) as usize;
            bytes.drain(at..at + 4);
        }
        5 => {
            let at = 4 * random.below(n / 4 + 1) as usize;
            let w = random.word().to_be_bytes();
            bytes.splice(at..at, w);
        }
        6 => {
            let at = 4 * random.below(n / 4) as usize;
            let w = (random.below(8) as u32) << 29 | (random.below(2) as u32) << 28 | random.below(20) as u32;
            bytes[at..at + 4].copy_from_slice(&w.to_be_bytes());
        }
        _ => {
            for b in bytes.iter_mut().skip(52) {
                *b = random.word() as u8;
            }
        }
    }
}

fn main() {
    let mut args = std::env::args().skip(1).map(|a| a.parse::<u64>().expect("a number"));
    let seed = args.next().unwrap_or(1);
    let count = args.next().unwrap_or(100_000);
    let mut random = Random::new(seed);
    let (mut accepted, mut refused, mut written_calls) = (0u64, 0u64, 0u64);
    for i in 0..count {
        let mut bytes = vec![0u8; 512];
        bytes.iter_mut().for_each(|b| *b = random.next() as u8);
        let (mut tape, setup, calls) = whole(&mut random, &bytes);
        written_calls += calls.len() as u64;
        if (Tape { bytes: &tape }).read() != Ok((setup, calls)) {
            fail("a tape that was written, read back", &tape, "other calls".into(), "-".into());
        }
        for _ in 0..i % 4 {
            if tape.len() > 4 {
                damage(&mut tape, &mut random);
            }
        }
        if compare_tape(&tape, &mut random) {
            accepted += 1;
        } else {
            refused += 1;
        }
        let c = if i % 64 == 0 { random.large_call() } else { random.call() };
        let place = if i % 16 == 0 { random.next() as usize >> random.below(64) } else { random.below(140) as usize };
        compare_put(&c, place, &bytes);
        compare_setup([0; 6].map(|_| random.word() as u64 + random.below(40) / 39 * 4294967290), [0; 6].map(|_| random.word()), place, &bytes);
        compare_end(place, &bytes);
    }
    println!("{count} tapes, {accepted} accepted and {refused} refused: same verdict, place, setup and calls; {written_calls} calls written alike; seed {seed}");
}
