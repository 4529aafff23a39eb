// Random tapes: sessions of every kind of call on both channels, setups at and beyond their limits, and damaged tapes.
use crate::caller::Caller;
use crate::net::udp_framing::clock_offset_rtt;
use crate::original::{Settings, FIRST_SETTINGS};
use crate::questions::{setup_verdict, Call, Setup, Sizes};
use crate::random::Random;
use crate::replaying::{AREA, MOST_BYTES};
use crate::tape_words::{words_of, Call as Taped};
use crate::udp_sender::{header, level, not_finite, one_in, pick, values, Values};

pub const MOST_WORDS: usize = MOST_BYTES / 4;
pub const SETUP: u32 = 7 << 29;
// the most samples of a play that is not meant to be long
const USUAL_PLAY: usize = 9000;

// ---- tapes in the making

#[derive(Clone)]
pub struct Made {
    pub words: Vec<u32>,
    // where the calls begin
    pub starts: Vec<usize>,
}

impl Made {
    pub fn new(s: &Setup) -> Made {
        let mut words = vec![SETUP];
        words.extend(s.sizes.map(|n| n as u32));
        words.extend(s.estimates.map(f32::to_bits));
        Made { words, starts: vec![] }
    }

    pub fn put(&mut self, c: &Call) {
        self.starts.push(self.words.len());
        self.words.extend(words_of(&taped(c)).expect("a call that fits its fields"));
    }

    pub fn with(mut self, calls: &[Call]) -> Made {
        calls.iter().for_each(|c| self.put(c));
        self
    }

    // with the end behind the words
    pub fn bytes(&self) -> Vec<u8> {
        self.words.iter().chain(&[0]).flat_map(|w| w.to_be_bytes()).collect()
    }

    // so many bytes, with datagrams that no channel takes and resets before the end; a part of a word at the end is cut off
    pub fn filled(mut self, r: &mut Random, bytes: usize) -> Vec<u8> {
        let words = bytes.div_ceil(4);
        while self.words.len() + 1 < words {
            let left = words - 1 - self.words.len();
            if left < 6 || one_in(r, 4) {
                self.put(&Call::Reset(r.below(2) as usize));
                continue;
            }
            let most = 4 * (left - 1);
            let n = if one_in(r, 2) { most } else { 16 + r.below(most as u64 - 15) as usize };
            let version = 1 + r.below(2) as u8;
            let mut d = header(r, version, 5, 0);
            d.extend((16..n.min(65_535)).map(|_| (r.next() >> 32) as u8));
            self.put(&Call::Datagram(d));
        }
        let mut tape = self.bytes();
        tape.truncate(bytes);
        tape
    }
}

fn taped(c: &Call) -> Taped {
    match c {
        Call::Datagram(d) => Taped::Datagram(d.clone()),
        Call::Play(side, n) => Taped::Play(*side as u64, *n as u64),
        Call::Reset(side) => Taped::Reset(*side as u64),
        Call::Set(side, s) => Taped::Set(*side as u64, s.adaptive, [s.top, s.range, s.zoom, s.smoothing].map(f32::to_bits)),
        Call::Probe(t) => Taped::Probe(*t),
        Call::OneWay(receive, send) => Taped::OneWay([*receive, *send]),
        Call::Depth(n, k) => Taped::Depth(*n as u64, *k),
        Call::TransmitDepth(n) => Taped::Transmit(*n as u64),
    }
}

// ---- setups

fn between(r: &mut Random, low: usize, high: usize) -> usize {
    low + r.below((high - low + 1) as u64) as usize
}

fn small(r: &mut Random) -> [usize; 6] {
    let packet = between(r, 1, 12);
    let target = packet + r.below(40) as usize;
    let max = target + r.below(60) as usize;
    [packet, target, max, pick(r, &[1, 2, 3, 4, 5, 8, 16, 64]), between(r, 1, 9), between(r, 1, 9)]
}

// packets of which a quarter is more than one sample, and targets between them: here the queue's oldest are dropped
fn middle(r: &mut Random) -> [usize; 6] {
    let packet = between(r, 16, 160);
    let target = packet + r.below(3 * packet as u64) as usize;
    let max = target + r.below(4 * packet as u64) as usize;
    [packet, target, max, between(r, 1, 300), between(r, 1, 40), between(r, 1, 20)]
}

// the f32 area to its last place: of max / packet packets that wait
pub fn all_floats(r: &mut Random) -> [usize; 6] {
    let bins = 2 * between(r, 1, 1100);
    let half = (AREA - 7 * bins) / 2;
    let waiting = between(r, 2, 6);
    let packet = between(r, half.div_ceil(2 * waiting + 1), half / (waiting + 2));
    [packet, half - (waiting + 1) * packet, waiting * packet, bins, between(r, 1, 9), between(r, 1, 9)]
}

// the u32 area to its last place
pub fn all_words(r: &mut Random) -> [usize; 6] {
    let width = pick(r, &[2, 3, 63, 64, 100, 2730, 4095]);
    let height = (AREA / 2 - 1) / width;
    let waiting = AREA / 2 - width * height;
    let packet = between(r, 1, 3);
    let target = packet + r.below((packet * waiting - packet + 1) as u64) as usize;
    [packet, target, packet * waiting, between(r, 1, 64), width, height]
}

// one size out of its range, or in its range with areas that are too short
fn beyond(r: &mut Random) -> [usize; 6] {
    let mut z = small(r);
    let i = r.below(6) as usize;
    let most = [4096, 65_536, 131_072, 65_535, 4096, 4096];
    z[i] = match r.below(6) {
        0 => 0,
        1 => most[i] + 1,
        2 => u32::MAX as usize,
        3 => (r.next() as u32) as usize,
        4 if i > 0 => z[i - 1] - 1,
        _ => most[i],
    };
    z
}

fn sizes(r: &mut Random) -> [usize; 6] {
    match r.below(40) {
        0 => all_floats(r),
        1 => all_words(r),
        2 => {
            let (mut z, i) = (if one_in(r, 2) { all_floats(r) } else { all_words(r) }, r.below(6) as usize);
            z[i] += 1;
            z
        }
        3 | 4 => beyond(r),
        5..=12 => middle(r),
        _ => small(r),
    }
}

pub fn setup(r: &mut Random) -> Setup {
    let mut s = Setup { sizes: sizes(r), estimates: std::array::from_fn(|_| level(r)) };
    let i = r.below(6) as usize;
    match r.below(40) {
        0 => s.estimates[i] = not_finite(r),
        1 => s.estimates[i] = pick(r, &[0.0, -0.0, 3e38, -3e38, 1e-40]),
        _ => {}
    }
    s
}

// ---- calls

// as much of a call as its fields hold; long datagrams and long plays are rare
fn fitting(r: &mut Random, c: Call) -> Call {
    match c {
        Call::Datagram(mut d) => {
            if d.len() > 20_000 {
                let n = if one_in(r, 10) { 60_000 } else { r.below(16) as usize };
                d.truncate(n);
            }
            Call::Datagram(d)
        }
        Call::Play(side, n) => {
            let most = if one_in(r, 8) { 65_535 } else { USUAL_PLAY };
            Call::Play(side, n.min(most))
        }
        Call::Depth(n, k) => Call::Depth(n as u32 as usize, k),
        Call::TransmitDepth(n) => Call::TransmitDepth(n as u32 as usize),
        other => other,
    }
}

#[derive(Clone, Copy)]
enum Focus {
    All,
    Sound,
    Rows,
    Odd,
}

struct Script {
    caller: Caller,
    packet: usize,
    focus: Focus,
    values: Values,
    settings: [Settings; 2],
    offset: u64,
}

impl Script {
    fn next(&mut self, r: &mut Random) -> Call {
        let side = r.below(2) as usize;
        let c = match (self.focus, r.below(10)) {
            (Focus::Sound, 0..=4) => Call::Datagram(self.caller.audio(r)),
            (Focus::Sound, 5..=7) => Call::Play(side, r.below(2 * self.packet as u64 + 2) as usize),
            (Focus::Rows, 0..=7) => Call::Datagram(self.caller.chunk(r, self.values)),
            (Focus::Odd, 0..=4) => Call::Datagram(self.caller.odd_datagram(r)),
            _ => self.caller.next(r, self.values, &self.settings, self.offset),
        };
        let c = fitting(r, c);
        match &c {
            Call::Set(side, s) if [s.top, s.range, s.zoom, s.smoothing].iter().all(|x| x.is_finite()) => self.settings[*side] = *s,
            Call::Probe([t1, t2, t3, t4]) => self.offset = clock_offset_rtt(*t1, *t2, *t3, *t4).0 as u64,
            _ => {}
        }
        c
    }
}

// calls that were lost, sent twice or overtaken on their way
fn on_the_way(r: &mut Random, calls: &mut Vec<Call>) {
    for _ in 0..calls.len() / 6 {
        let n = calls.len() as u64;
        if n < 2 {
            return;
        }
        let i = r.below(n) as usize;
        let j = (i + 1 + r.below(4) as usize).min(n as usize - 1);
        match r.below(3) {
            0 => drop(calls.remove(i)),
            1 => calls.insert(j, calls[i].clone()),
            _ => calls.swap(i, j),
        }
    }
}

pub fn calls(r: &mut Random, z: [usize; 6], n: usize) -> Vec<Call> {
    let mut script = Script {
        caller: Caller::new(r, z),
        packet: z[0],
        focus: pick(r, &[Focus::All, Focus::All, Focus::Sound, Focus::Sound, Focus::Sound, Focus::Rows, Focus::Odd]),
        values: values(r),
        settings: [FIRST_SETTINGS; 2],
        offset: 0,
    };
    let mut calls: Vec<Call> = (0..n).map(|_| script.next(r)).collect();
    if one_in(r, 2) {
        on_the_way(r, &mut calls);
    }
    calls
}

// ---- damage

fn damage(r: &mut Random, made: &Made) -> Vec<u8> {
    let mut m = made.clone();
    let places = m.words.len() as u64;
    let place = r.below(places) as usize;
    let start = if m.starts.is_empty() || one_in(r, 8) { place } else { pick(r, &m.starts) };
    match r.below(16) {
        // a bit of any word, of a call's first word, or of the setup
        0 | 1 => m.words[place] ^= 1 << r.below(32),
        2 => m.words[start] ^= 1 << r.below(32),
        3 => m.words[r.below(13) as usize] ^= 1 << r.below(32),
        // the end, a setup or a call's first word in the middle, or in place of another word
        4 => m.words.insert(start, 0),
        5 => m.words[start] = 0,
        6 => m.words.insert(start, SETUP),
        7 => drop(m.words.splice(start..start, made.words[..13].to_vec())),
        8 => m.words[start] = (r.below(8) as u32) << 29 | (r.below(2) as u32) << 28 | r.below(20) as u32,
        9 => drop(m.words.remove(place)),
        10 => m.words.push(0),
        11 => nonzero_padding(r, &mut m),
        _ => return cut_or_longer(r, m.bytes()),
    }
    m.bytes()
}

// one bit of the bytes behind a datagram's last
fn nonzero_padding(r: &mut Random, m: &mut Made) {
    let padded: Vec<usize> = m.starts.iter().copied().filter(|&s| m.words[s] >> 29 == 1 && m.words[s] % 4 != 0).collect();
    if let Some(&start) = padded.get(r.below(padded.len().max(1) as u64) as usize) {
        let n = m.words[start] as usize & 0xffff;
        m.words[start + n.div_ceil(4)] ^= 1 << r.below(8 * (4 - n as u64 % 4));
    }
}

fn cut_or_longer(r: &mut Random, mut tape: Vec<u8>) -> Vec<u8> {
    let n = tape.len();
    match r.below(5) {
        0 => tape.truncate(r.below(n as u64 + 1) as usize),
        1 => tape.truncate(n - 1 - r.below(4) as usize),
        2 => tape.extend(vec![0; 1 + r.below(9) as usize]),
        3 => tape.extend((0..1 + r.below(9)).map(|_| (r.next() >> 32) as u8)),
        _ => tape.truncate(n - 4),
    }
    tape
}

// ---- a tape of any kind

pub fn session(r: &mut Random, most_calls: u64) -> Made {
    let s = setup(r);
    let n = r.below(most_calls + 1) as usize;
    // no calls of a size that no receiver has
    let z = if setup_verdict(&s, AREA, AREA).is_some() { small(r) } else { s.sizes };
    let mut made = Made::new(&s).with(&calls(r, z, n));
    // a tape is seldom too long
    if made.words.len() >= MOST_WORDS && !one_in(r, 10) {
        let start = *made.starts.iter().rfind(|&&s| s < MOST_WORDS).unwrap();
        made.words.truncate(start);
        made.starts.retain(|&s| s < start);
    }
    made
}

pub fn tape(r: &mut Random) -> Vec<u8> {
    match r.below(400) {
        0 => vec![],
        1 => (0..r.below(80)).map(|_| (r.next() >> 32) as u8).collect(),
        2 => {
            let made = session(r, 60);
            let bytes = MOST_BYTES - 1 + r.below(6) as usize;
            if made.words.len() < 15_000 { made.filled(r, bytes) } else { made.bytes() }
        }
        3..=12 => session(r, 600).bytes(),
        n => {
            let made = session(r, 60);
            if n % 4 == 0 { damage(r, &made) } else { made.bytes() }
        }
    }
}
