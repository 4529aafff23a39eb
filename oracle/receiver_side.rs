// Our side of receiver.rs: the exports, a state in 90 words with its two areas, and a second writing of the questions about it.
use crate::questions::{own_verdict, Call, Setup, Sizes, BOUND, HIGH, LOW};
use std::ops::Range;

#[link(name = "receiver_exports", kind = "static")]
#[allow(improper_ctypes)]
extern "C" {
    fn receiver_setup(state: &mut [u64], fs: &[f32], us: &mut [u32], packet: usize, target: usize, max: usize, bins: usize, width: usize, height: usize, a_top: u32, a_floor: u32, a_range: u32, b_top: u32, b_floor: u32, b_range: u32, answer: &mut [u64]) -> bool;
    fn receiver_handle_media_packet(state: &mut [u64], fs: &mut [f32], us: &mut [u32], bytes: &[u8], answer: &mut [u64]) -> bool;
    fn receiver_play(state: &mut [u64], fs: &mut [f32], us: &mut [u32], side: u64, out: &mut [f32], answer: &mut [u64]) -> bool;
    fn receiver_reset(state: &mut [u64], fs: &[f32], us: &[u32], side: u64, answer: &mut [u64]) -> bool;
    fn receiver_set(state: &mut [u64], fs: &[f32], us: &[u32], side: u64, adaptive: bool, top: u32, range: u32, zoom: u32, smoothing: u32, answer: &mut [u64]) -> bool;
    fn receiver_probe(state: &mut [u64], fs: &[f32], us: &[u32], t1: u64, t2: u64, t3: u64, t4: u64, answer: &mut [u64]) -> bool;
    fn receiver_one_way(state: &mut [u64], fs: &[f32], us: &[u32], receive: u64, send: u64, answer: &mut [u64]) -> bool;
    fn receiver_depth(state: &mut [u64], fs: &[f32], us: &[u32], samples: usize, conceals: u64, late: u64, overflow: u64, resyncs: u64, answer: &mut [u64]) -> bool;
    fn receiver_transmit_depth(state: &mut [u64], fs: &[f32], us: &[u32], samples: usize, answer: &mut [u64]) -> bool;
}

pub const WORDS: usize = 90;
pub const CALLS: usize = 6;
pub const INCOMING: usize = 7;
pub const CLOCK: usize = 76;
const MOST: u64 = 4_294_967_295;

#[derive(Clone)]
pub struct Ours {
    pub words: Vec<u64>,
    pub fs: Vec<f32>,
    pub us: Vec<u32>,
}

// Words of the state, and places of the f32 area and of the u32 area.
#[derive(Default)]
pub struct Parts {
    pub words: Vec<Range<usize>>,
    pub fs: Vec<Range<usize>>,
    pub us: Vec<Range<usize>>,
}

fn jitter_words(channel: usize) -> Range<usize> {
    18 + 29 * channel..32 + 29 * channel
}

fn screen_words(channel: usize) -> Range<usize> {
    32 + 29 * channel..47 + 29 * channel
}

impl Ours {
    // whether the words are there, and the answer
    pub fn setup(&mut self, s: &Setup) -> (bool, [u64; 4]) {
        let [packet, target, max, bins, width, height] = s.sizes;
        let e = s.estimates.map(f32::to_bits);
        let mut answer = [9; 4];
        let there = unsafe { receiver_setup(&mut self.words, &self.fs, &mut self.us, packet, target, max, bins, width, height, e[0], e[1], e[2], e[3], e[4], e[5], &mut answer) };
        (there, answer)
    }

    pub fn call(&mut self, c: &Call, out: &mut [f32]) -> (bool, [u64; 4]) {
        let mut answer = [9; 4];
        (self.call_into(c, out, &mut answer), answer)
    }

    pub fn call_into(&mut self, c: &Call, out: &mut [f32], answer: &mut [u64]) -> bool {
        let (w, fs, us) = (&mut self.words[..], &mut self.fs[..], &mut self.us[..]);
        unsafe {
            match c {
                Call::Datagram(d) => receiver_handle_media_packet(w, fs, us, d, answer),
                Call::Play(side, _) => receiver_play(w, fs, us, *side as u64, out, answer),
                Call::Reset(side) => receiver_reset(w, fs, us, *side as u64, answer),
                Call::Set(side, s) => receiver_set(w, fs, us, *side as u64, s.adaptive, s.top.to_bits(), s.range.to_bits(), s.zoom.to_bits(), s.smoothing.to_bits(), answer),
                Call::Probe([t1, t2, t3, t4]) => receiver_probe(w, fs, us, *t1, *t2, *t3, *t4, answer),
                Call::OneWay(receive, send) => receiver_one_way(w, fs, us, *receive, *send, answer),
                Call::Depth(n, k) => receiver_depth(w, fs, us, *n, k[0], k[1], k[2], k[3], answer),
                Call::TransmitDepth(n) => receiver_transmit_depth(w, fs, us, *n, answer),
            }
        }
    }

    pub fn sizes(&self) -> Sizes {
        Sizes(std::array::from_fn(|i| self.words[i] as usize))
    }

    pub fn jitter(&self, channel: usize) -> &[u64] {
        &self.words[jitter_words(channel)]
    }

    pub fn screen(&self, channel: usize) -> &[u64] {
        &self.words[screen_words(channel)]
    }

    pub fn screen_mut(&mut self, channel: usize) -> &mut [u64] {
        &mut self.words[screen_words(channel)]
    }

    // a float of a channel's screen
    pub fn shown(&self, channel: usize, i: usize) -> f32 {
        f32::from_bits(self.screen(channel)[i] as u32)
    }

    // the first n values of a channel's part: 0 the row, 1 the spectrum, 2 the smoothing buffer
    pub fn part(&self, channel: usize, part: usize, n: usize) -> &[f32] {
        let z = self.sizes();
        let at = channel * z.section() + z.row() + part * z.0[3];
        &self.fs[at..at + n]
    }

    pub fn picture(&self, channel: usize) -> Range<usize> {
        let z = self.sizes();
        let at = channel * z.word_section() + z.most_waiting();
        at..at + z.0[4] * z.0[5]
    }

    pub fn same_as(&self, o: &Ours) -> bool {
        self.words == o.words && self.us == o.us && self.fs.len() == o.fs.len() && self.fs.iter().zip(&o.fs).all(|(a, b)| a.to_bits() == b.to_bits())
    }

    // ---- what a call may change

    pub fn parts(&self, c: &Call) -> Parts {
        let mut p = match c {
            Call::Datagram(d) => self.datagram_parts(d[3]),
            Call::Play(side, _) => self.sound_parts(*side),
            Call::Reset(side) => Parts { words: vec![jitter_words(*side)], ..Parts::default() },
            Call::Set(side, _) => {
                let shown = screen_words(*side).start;
                Parts { words: vec![shown + 7..shown + 12], ..Parts::default() }
            }
            _ => Parts { words: vec![CLOCK..WORDS], ..Parts::default() },
        };
        p.words.push(CALLS..CALLS + 1);
        p
    }

    fn datagram_parts(&self, stream: u8) -> Parts {
        let mut p = match stream {
            1 | 3 => self.sound_parts(stream as usize / 2),
            2 | 4 => self.row_parts(stream as usize / 2 - 1),
            _ => Parts::default(),
        };
        match stream {
            1 => p.words.push(8..13),
            2 => p.words.push(13..18),
            _ => {}
        }
        p.words.push(INCOMING..INCOMING + 1);
        p
    }

    // waiting samples and queue, and waiting sequences
    fn sound_parts(&self, channel: usize) -> Parts {
        let z = self.sizes();
        let (f, u) = (channel * z.section(), channel * z.word_section());
        Parts { words: vec![jitter_words(channel)], fs: vec![f..f + z.row()], us: vec![u..u + z.most_waiting()] }
    }

    // row, spectrum and smoothing, the work section, and the picture
    fn row_parts(&self, channel: usize) -> Parts {
        let z = self.sizes();
        let [at, work] = [channel * z.section() + z.row(), 2 * z.section()];
        let bins = z.0[3];
        Parts { words: vec![screen_words(channel)], fs: vec![at..at + 3 * bins, work..work + bins], us: vec![self.picture(channel)] }
    }

    // Whether nothing but these parts is different from before.
    pub fn kept_but(&self, parts: Parts, before: Ours) -> bool {
        let mut expected = before;
        for p in parts.words {
            expected.words[p.clone()].copy_from_slice(&self.words[p]);
        }
        for p in parts.fs {
            expected.fs[p.clone()].copy_from_slice(&self.fs[p]);
        }
        for p in parts.us {
            expected.us[p.clone()].copy_from_slice(&self.us[p]);
        }
        self.same_as(&expected)
    }

    // ---- questions 1 to 4 and each call's own: the number of the first no

    pub fn verdict(&self, c: &Call) -> Option<u64> {
        let z = self.sizes();
        if !z.allowed() {
            return Some(1);
        }
        if self.fs.len() < z.float_area() || self.us.len() < z.word_area() {
            return Some(2);
        }
        if self.broken(z).is_some() {
            return Some(3);
        }
        if self.words[CALLS] >= MOST {
            return Some(4);
        }
        own_verdict(z, c)
    }

    // question 3: the place in CLAUSES of the first one that does not hold
    pub fn broken(&self, z: Sizes) -> Option<usize> {
        let of = |start: usize| move |i: usize| start + i;
        let channel = |c: usize| self.buffer_broken(z, c).or_else(|| self.screen_broken(z, c).map(of(9)));
        channel(0)
            .or_else(|| channel(1).map(of(14)))
            .or_else(|| self.clock_broken().map(of(28)))
            .or_else(|| self.counts_broken().map(of(33)))
    }

    fn within(&self, counts: &[u64]) -> bool {
        let limit = self.words[CALLS] as u128 * MOST as u128;
        counts.iter().all(|&n| n as u128 <= limit)
    }

    fn buffer_broken(&self, z: Sizes, channel: usize) -> Option<usize> {
        let w = self.jitter(channel);
        let [packet, target, max] = [0, 1, 2].map(|i| z.0[i] as u128);
        if w[3] > z.most_waiting() as u64 {
            return Some(0);
        }
        let waiting = &self.us[channel * z.word_section()..][..w[3] as usize];
        let started = w[1] != 0;
        first_no(&[
            true,
            waiting.windows(2).all(|p| p[0] < p[1]),
            (w[4] as u128) < target + packet,
            w[5] <= 2,
            !started || waiting.iter().all(|&s| s >= w[2] as u32),
            started || w[4] == 0,
            started || packet * (w[3] as u128) < target,
            self.within(&w[6..]),
            (w[0] as u128) < max + target + 2 * packet,
        ])
    }

    fn screen_broken(&self, z: Sizes, channel: usize) -> Option<usize> {
        let w = self.screen(channel);
        let bins = z.0[3] as u64;
        let none = w[0] == 0;
        first_no(&[
            none || w[2] <= bins,
            none || (w[3] as u128) < 2 * w[2] as u128,
            none || (w[4] != 0) == (w[3] >= w[2]),
            w[5] <= bins,
            w[6] <= bins,
        ])
    }

    fn clock_broken(&self) -> Option<usize> {
        let w = &self.words[CLOCK..];
        let positive = |n: u64| (1..=BOUND as u64).contains(&n);
        let (timing, one_way) = (w[0] != 0, w[4] != 0);
        first_no(&[
            !timing || (-BOUND..=BOUND).contains(&(w[1] as i64)),
            !timing || positive(w[2]),
            !timing || positive(w[3]),
            !one_way || timing,
            !one_way || (LOW..=HIGH).contains(&(w[5] as i64)),
        ])
    }

    fn counts_broken(&self) -> Option<usize> {
        let w = &self.words;
        first_no(&[self.within(&w[INCOMING..=INCOMING]), self.within(&w[8..11]), self.within(&w[13..16])])
    }
}

fn first_no(holds: &[bool]) -> Option<usize> {
    holds.iter().position(|h| !h)
}

// The clauses of question 3: fourteen of each channel, five of the clock, three of the counts.
pub const CLAUSES: [&str; 36] = [
    "A: waiting",
    "A: rising",
    "A: queue",
    "A: run",
    "A: below next",
    "A: queued before the start",
    "A: waiting before the start",
    "A: counters",
    "A: largest",
    "A: row total",
    "A: row filled",
    "A: row done",
    "A: spectrum",
    "A: smoothing",
    "B: waiting",
    "B: rising",
    "B: queue",
    "B: run",
    "B: below next",
    "B: queued before the start",
    "B: waiting before the start",
    "B: counters",
    "B: largest",
    "B: row total",
    "B: row filled",
    "B: row done",
    "B: spectrum",
    "B: smoothing",
    "offset",
    "round trip",
    "least",
    "one-way without an offset",
    "one-way",
    "incoming",
    "counts of stream 1",
    "counts of stream 2",
];
