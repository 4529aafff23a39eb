// The calls, and a second writing of the questions that need no state: 1, 2 and 5 of a setup, and each call's own.
use crate::original::Settings;

// the bound of question 9, the most samples of a depth, and the ends of a delay
pub const BOUND: i64 = (1 << 62) - 1;
pub const DEPTH: usize = 16_777_216;
pub const LOW: i64 = -1_000_000_000;
pub const HIGH: i64 = 5_000_000_000;

#[derive(Clone, Debug)]
pub enum Call {
    Datagram(Vec<u8>),
    Play(usize, usize),
    Reset(usize),
    Set(usize, Settings),
    Probe([u64; 4]),
    OneWay(u64, u64),
    Depth(usize, [u64; 4]),
    TransmitDepth(usize),
}

// The six sizes with what follows from them, for sizes that are allowed.
#[derive(Clone, Copy)]
pub struct Sizes(pub [usize; 6]);

impl Sizes {
    // question 1
    pub fn allowed(&self) -> bool {
        let [packet, target, max, bins, width, height] = self.0;
        (1..=4096).contains(&packet)
            && (packet..=65_536).contains(&target)
            && (target..=131_072).contains(&max)
            && (1..=65_535).contains(&bins)
            && (1..=4096).contains(&width)
            && (1..=4096).contains(&height)
    }

    pub fn most_waiting(&self) -> usize {
        self.0[2].div_ceil(self.0[0])
    }

    // where a channel's row begins in its section
    pub fn row(&self) -> usize {
        self.most_waiting() * self.0[0] + self.0[1] + self.0[0]
    }

    pub fn section(&self) -> usize {
        self.row() + 3 * self.0[3]
    }

    pub fn word_section(&self) -> usize {
        self.most_waiting() + self.0[4] * self.0[5]
    }

    pub fn float_area(&self) -> usize {
        2 * self.section() + self.0[3]
    }

    pub fn word_area(&self) -> usize {
        2 * self.word_section()
    }
}

// ---- setup

#[derive(Clone, Copy, Debug)]
pub struct Setup {
    pub sizes: [usize; 6],
    // top, floor and range of A, then of B
    pub estimates: [f32; 6],
}

// questions 1, 2 and 5: the number of the first no
pub fn setup_verdict(s: &Setup, floats: usize, words: usize) -> Option<u64> {
    let z = Sizes(s.sizes);
    if !z.allowed() {
        return Some(1);
    }
    if floats < z.float_area() || words < z.word_area() {
        return Some(2);
    }
    s.estimates.iter().any(|e| !e.is_finite()).then_some(5)
}

// what a call asks after 1 to 4
pub fn own_verdict(z: Sizes, c: &Call) -> Option<u64> {
    match c {
        Call::Datagram(d) => datagram_verdict(z, d),
        Call::Play(_, n) => (*n > 65_535).then_some(9),
        Call::Set(_, s) => [s.top, s.range, s.zoom, s.smoothing].iter().any(|x| !x.is_finite()).then_some(5),
        Call::Probe(t) => {
            let (offset, rtt) = crate::net::udp_framing::clock_offset_rtt(t[0], t[1], t[2], t[3]);
            (!(-BOUND..=BOUND).contains(&offset) || rtt > BOUND).then_some(9)
        }
        Call::Depth(n, _) | Call::TransmitDepth(n) => (*n > DEPTH).then_some(9),
        Call::Reset(_) | Call::OneWay(..) => None,
    }
}

pub fn datagram_verdict(z: Sizes, d: &[u8]) -> Option<u64> {
    if !(16..=65_535).contains(&d.len()) {
        return Some(6);
    }
    if d[..2] != [0x52, 0x53] || !(1..=2).contains(&d[2]) {
        return Some(7);
    }
    let total = |d: &[u8]| u16::from_be_bytes([d[18], d[19]]) as usize;
    ([2, 4].contains(&d[3]) && d.len() >= 22 && total(d) > z.0[3]).then_some(8)
}
