// Random calls of a session: sequences lost, late, doubled and shuffled, chunks of rows, odd datagrams, plays, settings
// and times within their limits and beyond.
use crate::original::Settings;
use crate::questions::{Call, BOUND, DEPTH, HIGH, LOW};
use crate::random::Random;
use crate::udp_sender::{header, one_in, payload, pick, settings, spoil, Chunk, Sender, Values};

pub struct Caller {
    sizes: [usize; 6],
    sender: [Sender; 2],
    // of the streams 1 to 4
    pub sequence: [u32; 4],
}

impl Caller {
    pub fn new(r: &mut Random, sizes: [usize; 6]) -> Caller {
        let near_the_wrap = one_in(r, 4);
        Caller {
            sizes,
            sender: [Sender::new(r, sizes[3]), Sender::new(r, sizes[3])],
            sequence: std::array::from_fn(|_| if near_the_wrap { u32::MAX - r.below(30) as u32 } else { r.below(1000) as u32 }),
        }
    }

    fn sequence(&mut self, r: &mut Random, stream: u8) -> u32 {
        let next = &mut self.sequence[stream as usize - 1];
        match r.below(12) {
            0 => return next.wrapping_sub(1 + r.below(12) as u32),
            1 => return next.wrapping_add(r.below(12) as u32),
            2 => *next = next.wrapping_add(r.below(8) as u32),
            3 if one_in(r, 30) => *next = r.next() as u32,
            _ => {}
        }
        *next = next.wrapping_add(1);
        next.wrapping_sub(1)
    }

    pub fn audio(&mut self, r: &mut Random) -> Vec<u8> {
        let stream = pick(r, &[1, 3]);
        let sequence = self.sequence(r, stream);
        let version = 1 + r.below(2) as u8;
        let mut d = header(r, version, stream, sequence);
        if version == 2 {
            d.extend(r.next().to_be_bytes());
        }
        let bytes = 2 * self.sizes[0];
        let bytes = if one_in(r, 12) { r.below(bytes as u64 + 4) as usize } else { bytes };
        let edges = one_in(r, 4);
        d.extend((0..bytes).map(|_| if edges { pick(r, &[0, 0xff, 0x80, 0x7f]) } else { (r.next() >> 32) as u8 }));
        if one_in(r, 60) {
            d.truncate(16 + r.below(10) as usize);
        }
        d
    }

    pub fn chunk(&mut self, r: &mut Random, of: Values) -> Vec<u8> {
        let channel = r.below(2) as usize;
        let stream = 2 + 2 * channel as u8;
        let sequence = self.sequence(r, stream);
        let mut chunk = self.sender[channel].next(r);
        let mut p = payload(r, chunk, of);
        spoil(r, &mut chunk, &mut p);
        let version = 1 + r.below(2) as u8;
        let mut d = header(r, version, stream, sequence);
        d.extend(&p);
        d
    }

    // of another type, of a header that is not valid, too short, too long, or of a total above bins
    pub fn odd_datagram(&mut self, r: &mut Random) -> Vec<u8> {
        let mut d = if one_in(r, 2) { self.audio(r) } else { self.chunk(r, Values::Levels) };
        match r.below(6) {
            0 => d[3] = pick(r, &[0, 5, 12, 13, 255]),
            1 => d[r.below(2) as usize] ^= 1 << r.below(8),
            2 => d[2] = pick(r, &[0, 3, 255]),
            3 => d.truncate(r.below(16) as usize),
            4 => d.resize(65_535 + r.below(3) as usize, 0),
            _ => {
                let channel = r.below(2) as usize;
                d = header(r, 1, 2 + 2 * channel as u8, 0);
                let most = if one_in(r, 2) { 3 } else { 65_535 };
                let total = (self.sizes[3] + 1 + r.below(most) as usize).min(65_535);
                let number = self.sender[channel].number;
                d.extend(payload(r, Chunk { number, total, first: 0, n: 1 }, Values::Levels));
                d.extend(&[1, 2, 3][..r.below(4) as usize]);
            }
        }
        d
    }

    fn probe(r: &mut Random) -> [u64; 4] {
        let t1 = if one_in(r, 3) { r.next() } else { 1_700_000_000_000_000_000 + (r.next() >> 20) };
        let offset = match r.below(6) {
            0 => r.next(),
            1 => (BOUND as u64).wrapping_add(r.below(5)).wrapping_sub(2),
            2 => (-BOUND as u64).wrapping_add(r.below(5)).wrapping_sub(2),
            _ => r.below(4_000_000_000).wrapping_sub(2_000_000_000),
        };
        let trip = match r.below(8) {
            0 => r.next() >> r.below(64),
            1 => (BOUND as u64).wrapping_add(r.below(5)).wrapping_sub(2),
            2 => r.below(5).wrapping_sub(2),
            _ => r.below(60_000_000),
        };
        let [there, stay] = [r.below(trip.min(1 << 40) + 1), r.below(1000)];
        let t2 = t1.wrapping_add(offset).wrapping_add(there);
        [t1, t2, t2.wrapping_add(stay), t1.wrapping_add(trip).wrapping_add(stay)]
    }

    fn times(r: &mut Random, offset: u64) -> (u64, u64) {
        let send = if one_in(r, 3) { r.next() } else { 1_700_000_000_000_000_000 + (r.next() >> 20) };
        let delay = match r.below(5) {
            0 => LOW + r.below(5) as i64 - 2,
            1 => HIGH + r.below(5) as i64 - 2,
            2 => r.next() as i64,
            _ => r.below(50_000_000) as i64,
        };
        (send.wrapping_add(delay as u64).wrapping_sub(offset), send)
    }

    fn depth(r: &mut Random) -> usize {
        match r.below(8) {
            0 => 0,
            1 => DEPTH - r.below(3) as usize,
            2 => DEPTH + 1 + r.below(3) as usize,
            3 => r.next() as usize,
            _ => r.below(48_000) as usize,
        }
    }

    // a call by a sender who knows the channels' settings and the clock's offset
    pub fn next(&mut self, r: &mut Random, of: Values, known: &[Settings; 2], offset: u64) -> Call {
        let side = r.below(2) as usize;
        match r.below(40) {
            0..=13 => Call::Datagram(self.chunk(r, of)),
            14..=20 => Call::Datagram(self.audio(r)),
            21 => Call::Datagram(self.odd_datagram(r)),
            22..=26 => {
                let n = r.below(3 * self.sizes[0] as u64 + 3) as usize;
                Call::Play(side, if one_in(r, 200) { 65_534 + r.below(3) as usize } else { n })
            }
            27 if one_in(r, 3) => Call::Reset(side),
            27..=30 => {
                let (new, mut s) = (settings(r), known[side]);
                match r.below(8) {
                    0 => s.adaptive = new.adaptive,
                    1 => s.top = new.top,
                    2 => s.range = new.range,
                    3 => s.zoom = new.zoom,
                    4 => s.smoothing = new.smoothing,
                    _ => s = new,
                }
                Call::Set(side, s)
            }
            31..=33 => Call::Probe(Self::probe(r)),
            34..=35 => {
                let (receive, send) = Self::times(r, offset);
                Call::OneWay(receive, send)
            }
            36..=37 => Call::Depth(Self::depth(r), std::array::from_fn(|_| r.next() >> r.below(64))),
            _ => Call::TransmitDepth(Self::depth(r)),
        }
    }
}
