// Holds a channel's sound against the original's JitterBuffer: random sessions of 5 to 500 datagrams, plays and resets of
// one channel, and after every call every counter, sample and amount. Arguments: a seed and the number of sessions.
// See jitter_buffer.sh.
#![allow(warnings)]
include!("rigflow.rs");
mod original;
mod questions;
mod random;
mod receiver_side;
mod udp_sender;

use audio::jitter_buffer::JitterBuffer;
use questions::{Call, Setup, Sizes};
use random::Random;
use receiver_side::{Ours, WORDS};
use udp_sender::header;

struct Session {
    packet: usize,
    side: usize,
    ours: Ours,
    original: JitterBuffer,
    // what the original does not count: the samples that plays found short
    filled: u64,
    // what a packet is sent in: versions and times
    wire: Random,
}

fn small_sizes(r: &mut Random) -> [usize; 3] {
    let packet = if r.below(4) == 0 { 1 } else { 1 + r.below(12) as usize };
    let target = packet + if r.below(4) == 0 { 0 } else { r.below(40) as usize };
    [packet, target, target + r.below(60) as usize]
}

// up to the largest that are allowed
fn large_sizes(r: &mut Random) -> [usize; 3] {
    let packet = 4096 - r.below(4000) as usize;
    let target = packet + r.below(65537 - packet as u64) as usize;
    [packet, target, target + r.below(131073 - target as u64) as usize]
}

impl Session {
    fn new([packet, target, max]: [usize; 3], mut wire: Random) -> Session {
        let sizes = [packet, target, max, 1, 1, 1];
        let z = Sizes(sizes);
        // whatever the free places hold
        let mut ours = Ours { words: vec![u64::MAX; WORDS], fs: vec![f32::NAN; z.float_area()], us: vec![7; z.word_area()] };
        let answer = ours.setup(&Setup { sizes, estimates: [0.0; 6] });
        let side = wire.below(2) as usize;
        let s = Session { packet, side, ours, original: JitterBuffer::new(packet, target, max), filled: 0, wire };
        s.check(answer == (true, [1, 0, 0, 0]), "setup", 0);
        s
    }

    fn check(&self, equal: bool, what: &str, call: usize) {
        if !equal {
            println!("DIFFERS: {what} after call {call} of channel {}, sizes {:?}", ["A", "B"][self.side], self.ours.sizes().0);
            std::process::exit(1)
        }
    }

    fn call(&mut self, call: usize, c: Call, out: &mut [f32]) -> [u64; 4] {
        let (there, answer) = self.ours.call(&c, out);
        self.check(there && answer[0] != 0, "a call was refused", call);
        answer
    }

    // the channel's numbers; the other channel has heard nothing
    fn compare(&self, call: usize) {
        let o = &self.original;
        let w = self.ours.jitter(self.side);
        let packet = self.packet as u64;
        let same = [
            o.max_buffered_samples() as u64 == w[0],
            o.started() == (w[1] != 0),
            o.buffered_samples() as u64 == w[4] + w[3] * packet,
            o.packets_received == w[6],
            o.packets_inserted == w[7],
            o.packets_missing_concealed == w[8],
            o.packets_dropped_late == w[9],
            o.packets_dropped_overflow == w[10],
            o.packets_dropped_invalid_size == w[11],
            o.resync_count == w[12],
            self.filled + packet * o.packets_missing_concealed == w[13],
            self.ours.jitter(1 - self.side).iter().all(|&n| n == 0),
        ];
        if let Some(i) = same.iter().position(|s| !s) {
            self.check(false, &format!("number {i}"), call);
        }
    }

    // of version 1, or of version 2 with a send time before the samples
    fn push(&mut self, call: usize, sequence: u32, samples: &[i16]) {
        self.original.push_packet(sequence, samples.iter().map(|&s| s as f32 / 32767.0).collect());
        let version = 1 + self.wire.below(2) as u8;
        let mut d = header(&mut self.wire, version, 1 + 2 * self.side as u8, sequence);
        if version == 2 {
            d.extend(self.wire.next().to_be_bytes());
        }
        d.extend(samples.iter().flat_map(|s| s.to_le_bytes()));
        let answer = self.call(call, Call::Datagram(d), &mut []);
        self.check(answer == [3, 0, 0, 0], "the answer", call);
        self.compare(call);
    }

    fn play(&mut self, call: usize, n: usize) {
        let before = self.original.buffered_samples();
        let concealed = self.original.packets_missing_concealed;
        let mut expected = vec![1.0; n];
        self.original.pop_samples(&mut expected);
        let gone = before + self.packet * (self.original.packets_missing_concealed - concealed) as usize - self.original.buffered_samples();
        let mut out = vec![2.0; n];
        let [kind, taken, dropped, short] = self.call(call, Call::Play(self.side, n), &mut out);
        self.check(out.iter().zip(&expected).all(|(a, b)| a.to_bits() == b.to_bits()), "the samples", call);
        self.check(kind == 2 && taken + dropped == gone as u64 && taken + short == n as u64, "the answer", call);
        self.filled += short;
        self.compare(call);
    }

    fn reset(&mut self, call: usize) {
        self.original.reset();
        let answer = self.call(call, Call::Reset(self.side), &mut []);
        self.check(answer == [1, 0, 0, 0], "the answer", call);
        self.filled = 0;
        self.compare(call);
    }
}

fn session(r: &mut Random, wire: Random) -> usize {
    let sizes = if r.below(400) == 0 { large_sizes(r) } else { small_sizes(r) };
    let mut s = Session::new(sizes, wire);
    let calls = 5 + r.below(496) as usize;
    // near the wrap in a quarter of the sessions
    let mut next = if r.below(4) == 0 { u32::MAX - r.below(30) as u32 } else { r.below(1000) as u32 };
    for call in 0..calls {
        match r.below(200) {
            0..=119 => {
                let sequence = match r.below(10) {
                    0 => next.wrapping_sub(r.below(12) as u32),
                    1 => next.wrapping_add(r.below(12) as u32),
                    2 => {
                        next = next.wrapping_add(1 + r.below(8) as u32);
                        next
                    }
                    _ => next,
                };
                if sequence == next {
                    next = next.wrapping_add(1);
                }
                let n = if r.below(30) == 0 { 1 + r.below(14) as usize } else { s.packet };
                let samples: Vec<i16> = (0..n).map(|_| (r.next() >> 40) as i16).collect();
                s.push(call, sequence, &samples);
            }
            120..=198 => {
                let n = r.below(2 * s.packet as u64 + 3) as usize;
                s.play(call, n);
            }
            _ => s.reset(call),
        }
    }
    calls
}

// Packets of one sample, and so many wait that one fill takes tens of thousands of them, with some lost and doubled.
fn long_fill(r: &mut Random, wire: Random) -> usize {
    let mut s = Session::new([1, 65536, 131072], wire);
    let mut call = 0;
    let mut sequence = u32::MAX - 100_000;
    while call < 70_000 {
        s.push(call, sequence, &[(r.next() >> 40) as i16]);
        call += 1;
        if r.below(500) != 0 {
            sequence += if r.below(1000) == 0 { 2 + r.below(4) as u32 } else { 1 };
        }
    }
    for n in [65535, 7, 40_000, 0, 65535] {
        s.play(call, n);
        call += 1;
    }
    call
}

fn main() {
    let mut args = std::env::args().skip(1).map(|a| a.parse::<u64>().unwrap());
    let seed = args.next().unwrap();
    let sessions = args.next().unwrap();
    let mut r = Random::new(seed);
    let mut wires = Random::new(!seed);
    let mut calls = 0;
    for _ in 0..sessions {
        calls += session(&mut r, Random::new(wires.next()));
    }
    println!("{sessions} sessions, {calls} calls: all equal");
    let calls = long_fill(&mut r, Random::new(wires.next()));
    println!("packets of one sample, {calls} calls, one fill of more than 65,000: all equal");
}
