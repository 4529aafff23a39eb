// What the sessions of receiver.rs send: rows cut into chunks, whole, doubled, overlapping, spoiled or lost, values of many
// kinds, and settings within their limits and beyond.
use crate::original::Settings;
use crate::random::Random;

// the most values of a chunk in a datagram of 65,535 bytes
const MOST_VALUES: usize = 16378;

pub fn pick<T: Copy>(r: &mut Random, of: &[T]) -> T {
    of[r.below(of.len() as u64) as usize]
}

pub fn one_in(r: &mut Random, n: u64) -> bool {
    r.below(n) == 0
}

pub fn level(r: &mut Random) -> f32 {
    r.below(1 << 20) as f32 * (140.0 / (1 << 20) as f32) - 130.0
}

#[derive(Clone, Copy)]
pub enum Values {
    Levels,
    Whole,
    Equal(f32),
    Zeros,
    Huge,
    Subnormal,
    AnyFinite,
}

pub fn values(r: &mut Random) -> Values {
    match r.below(12) {
        0..=4 => Values::Levels,
        5 => Values::Whole,
        6 => Values::Equal(level(r)),
        7 => Values::Zeros,
        8 | 9 => Values::Huge,
        10 => Values::Subnormal,
        _ => Values::AnyFinite,
    }
}

fn value(r: &mut Random, of: Values) -> f32 {
    match of {
        Values::Levels => level(r),
        Values::Whole => r.below(9) as f32 * 10.0 - 100.0,
        Values::Equal(x) => x,
        Values::Zeros => pick(r, &[0.0, -0.0]),
        Values::Huge => pick(r, &[3e38, -3e38, f32::MAX, f32::MIN, 1e30, 0.0]),
        Values::Subnormal => f32::from_bits(r.below(0x80_0000) as u32 | pick(r, &[0, 0x8000_0000])),
        Values::AnyFinite => {
            let x = f32::from_bits((r.next() >> 16) as u32);
            if x.is_finite() { x } else { 0.0 }
        }
    }
}

pub fn not_finite(r: &mut Random) -> f32 {
    pick(r, &[f32::NAN, -f32::NAN, f32::INFINITY, f32::NEG_INFINITY])
}

pub fn settings(r: &mut Random) -> Settings {
    let usual = level(r);
    let odd = pick(r, &[0.0, -0.0, 3e38, -3e38, f32::NAN, f32::INFINITY, f32::NEG_INFINITY, 1e-40]);
    let share = r.below(1000) as f32 / 1000.0;
    Settings {
        adaptive: one_in(r, 2),
        top: if one_in(r, 5) { odd } else { usual },
        range: pick(r, &[0.0, -0.0, -5.0, 0.5, 1.0, 30.0, 70.0, 100.0 * share, 100.0 * share, odd]),
        zoom: pick(r, &[0.5, 1.0, 2.0, 2.5, 4.0, 9.0, f32::NAN, f32::INFINITY, -1.0, 1.0 + 3.0 * share, 1.0 + 3.0 * share]),
        smoothing: pick(r, &[0.0, -0.0, 0.5, 1.0, -1.0, 2.0, f32::NAN, 1e-8, share, share]),
    }
}

#[derive(Clone, Copy, Debug)]
pub struct Chunk {
    pub number: u16,
    pub total: usize,
    pub first: usize,
    pub n: usize,
}

// Cuts rows into chunks, and sends them in some order, some twice and some not at all.
pub struct Sender {
    bins: usize,
    pub number: u16,
    total: usize,
    left: Vec<(usize, usize)>,
    last: (usize, usize),
}

impl Sender {
    pub fn new(r: &mut Random, bins: usize) -> Sender {
        let number = if one_in(r, 4) { 65535 - r.below(6) as u16 } else { r.below(65536) as u16 };
        Sender { bins, number, total: bins, left: vec![], last: (0, 0) }
    }

    fn new_row(&mut self, r: &mut Random) {
        match r.below(20) {
            0 => {}
            1 => self.number = self.number.wrapping_sub(1),
            2 => self.number = r.below(65536) as u16,
            _ => self.number = self.number.wrapping_add(1),
        }
        if one_in(r, 8) {
            self.total = if one_in(r, 2) { self.bins } else { 1 + r.below(self.bins as u64) as usize };
        }
        let pieces = if one_in(r, 3) { 1 } else { 1 + r.below(6) as usize };
        let longest = ((self.total + pieces - 1) / pieces).clamp(1, MOST_VALUES);
        self.left.clear();
        let mut first = 0;
        while first < self.total {
            let most = longest.min(self.total - first);
            let n = if pieces == 1 || one_in(r, 2) { most } else { 1 + r.below(most as u64) as usize };
            // a row of many bins in few pieces
            let n = if self.left.len() > 8 { n.max((self.total - first).min(MOST_VALUES)) } else { n };
            self.left.push((first, n));
            first += n;
        }
        self.left.reverse();
        if one_in(r, 4) {
            for i in (1..self.left.len()).rev() {
                self.left.swap(i, r.below(i as u64 + 1) as usize);
            }
        }
    }

    pub fn next(&mut self, r: &mut Random) -> Chunk {
        if one_in(r, 25) {
            self.left.pop();
        }
        if self.left.is_empty() && !one_in(r, 6) || one_in(r, 40) {
            self.new_row(r);
        }
        let (first, n) = match r.below(14) {
            0 => self.last,
            1 => {
                let first = r.below(self.total as u64 + 1) as usize;
                (first, r.below((self.total - first) as u64 + 1) as usize)
            }
            _ => self.left.pop().unwrap_or(self.last),
        };
        self.last = (first, n);
        Chunk { number: self.number, total: self.total, first, n: n.min(MOST_VALUES) }
    }
}

pub fn header(r: &mut Random, version: u8, stream: u8, sequence: u32) -> Vec<u8> {
    let mut d = vec![0x52, 0x53, version, stream];
    d.extend(sequence.to_be_bytes());
    d.extend(r.next().to_be_bytes());
    d
}

pub fn payload(r: &mut Random, c: Chunk, of: Values) -> Vec<u8> {
    let mut p = vec![];
    for x in [c.number as usize, c.total, c.first] {
        p.extend((x as u16).to_be_bytes());
    }
    let odd_one = if one_in(r, 20) { r.below(c.n as u64 + 1) as usize } else { c.n };
    for i in 0..c.n {
        let x = if i == odd_one { not_finite(r) } else { value(r, of) };
        p.extend(x.to_le_bytes());
    }
    p
}

// Chunks that are to be ignored, or that are cut.
pub fn spoil(r: &mut Random, c: &mut Chunk, p: &mut Vec<u8>) {
    match r.below(200) {
        0..=3 => p.extend(&[1, 2, 3][..1 + r.below(3) as usize]),
        4..=7 => p.truncate(p.len() - (r.below(5) as usize).min(p.len())),
        8..=10 => p.truncate(r.below(7) as usize),
        11..=13 => c.total = 0,
        14..=18 => c.first = (c.total - c.n + 1 + r.below(3) as usize).min(65535),
        _ => return,
    }
    if p.len() >= 6 {
        p[2..4].copy_from_slice(&(c.total as u16).to_be_bytes());
        p[4..6].copy_from_slice(&(c.first as u16).to_be_bytes());
    }
}
