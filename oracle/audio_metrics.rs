// Holds the crate audio_metrics against the original, on sessions of random calls with edges among their numbers. After
// each call every reading must be equal bit for bit, and a NaN is equal to a NaN; after a session so must the numbers
// that no reading shows. Arguments: a seed, and the number of cases a function. See audio_metrics.sh.
mod random;
use random::Random;

#[path = "rigflow/rigflow-client/src/audio_metrics.rs"]
mod audio_metrics;
use audio_metrics::AudioMetrics;

type Words = [u64; 14];

#[link(name = "audio_metrics_words", kind = "static")]
extern "C" {
    fn audio_metrics_new(state: &mut Words);
    fn audio_metrics_could_be_held(state: &Words) -> bool;
    fn audio_metrics_record_probe(state: &mut Words, offset_ns: i64, rtt_ns: i64) -> bool;
    fn audio_metrics_record_audio_one_way(state: &mut Words, recv_ns: u64, send_ns: u64) -> bool;
    fn audio_metrics_publish_jitter(
        state: &mut Words,
        samples: usize,
        conceals: u64,
        late: u64,
        overflow: u64,
        resyncs: u64,
    ) -> bool;
    fn audio_metrics_note_tx_ring(state: &mut Words, samples: usize) -> bool;
    fn audio_metrics_rx_one_way_ms(state: &Words) -> u64;
    fn audio_metrics_rtt_ms(state: &Words) -> u64;
    fn audio_metrics_clock_offset_ms(state: &Words) -> u64;
    fn audio_metrics_jitter_ms(state: &Words) -> u32;
    fn audio_metrics_jitter_peak_ms(state: &Words) -> u32;
    fn audio_metrics_tx_ring_peak_ms(state: &Words) -> u32;
    fn audio_metrics_conceals(state: &Words) -> u64;
    fn audio_metrics_late(state: &Words) -> u64;
    fn audio_metrics_overflow(state: &Words) -> u64;
    fn audio_metrics_resyncs(state: &Words) -> u64;
}

// the bound of question 9, the most samples of a depth, and the ends of a delay
const BOUND: i64 = (1 << 62) - 1;
const DEPTH: usize = 16_777_216;
const LOW: i64 = -1_000_000_000;
const HIGH: i64 = 5_000_000_000;

impl Random {
    // a step of at most n either way
    fn near(&mut self, n: u64) -> i64 {
        self.below(2 * n + 1) as i64 - n as i64
    }
    // any length, near the bound, beyond it, near the last one, or small
    fn offset(&mut self, last: i64) -> i64 {
        let any = self.next() as i64;
        match self.below(6) {
            0 => any >> self.below(64),
            1 => (if any < 0 { -BOUND } else { BOUND }) + self.near(3),
            2 => last.wrapping_add(self.near(9)),
            3 => self.near(2_000_000_000),
            4 => any >> 1,
            _ => self.near(300),
        }
    }
    // at the gate and around it, 0 and below, of any length, or near the bound
    fn round_trip(&mut self, least: i64) -> i64 {
        let any = self.next();
        let relaxed = least.wrapping_add(least / 64);
        match self.below(10) {
            0 => self.near(2),
            1 => -((any >> self.below(64)) as i64 & i64::MAX),
            2 | 3 => relaxed.wrapping_add(relaxed / 2).wrapping_add(self.near(2)),
            4 => relaxed.wrapping_add(self.near(2)),
            5 => (any >> (2 + self.below(62))) as i64,
            6 => BOUND + self.near(3),
            7 => 20_000_000 + self.near(10_000_000),
            8 => i64::MIN + self.below(3) as i64,
            _ => 1 + self.below(400) as i64,
        }
    }
    // two times whose delay is at an end, in the range, or near the last one; near the wrap, or any
    fn times(&mut self, offset: i64, last: i64) -> (u64, u64) {
        let any = self.next();
        let send = match self.below(3) {
            0 => any,
            1 => (self.near(5) as u64).wrapping_add(any >> 60),
            _ => 1_700_000_000_000_000_000 + (any >> 20),
        };
        let delay = match self.below(7) {
            0 => LOW + self.near(2),
            1 => HIGH + self.near(2),
            2 => last.wrapping_add(self.near(9)),
            3 => LOW + self.below((HIGH - LOW) as u64) as i64,
            4 => self.near(50_000_000),
            5 => i64::MIN.wrapping_add(self.near(2)),
            _ => return (self.next(), send),
        };
        (send.wrapping_add(delay as u64).wrapping_sub(offset as u64), send)
    }
    fn samples(&mut self) -> usize {
        let any = self.next();
        let n = match self.below(6) {
            0 => 0,
            1 => DEPTH as u64 - self.below(3),
            2 => DEPTH as u64 + 1 + (any >> self.below(63) >> 1),
            3 => any >> (40 + self.below(24)),
            _ => self.below(48_000),
        };
        n as usize
    }
}

fn pattern(x: f32) -> u64 {
    if x.is_nan() { 0x7fc0_0000 } else { x.to_bits() as u64 }
}

fn known(x: Option<f32>) -> u64 {
    x.map_or(0, |x| 1 << 32 | pattern(x))
}

// a number that the original keeps and no reading shows
fn kept(m: &AudioMetrics, name: &str) -> i64 {
    let text = format!("{m:?}");
    let at = text.find(&format!(" {name}: ")).unwrap() + name.len() + 3;
    text[at..].split([',', ' ']).next().unwrap().parse().unwrap()
}

struct Session {
    state: Words,
    model: AudioMetrics,
    calls: Vec<String>,
}

impl Session {
    fn new() -> Self {
        let mut state = [u64::MAX; 14];
        unsafe { audio_metrics_new(&mut state) };
        Session { state, model: AudioMetrics::default(), calls: Vec::new() }
    }

    fn hold(&self, name: &str, found: u64, expected: u64) {
        if found != expected {
            println!("{name}: {found:x}, and the original has {expected:x}, after");
            self.calls.iter().for_each(|c| println!("  {c}"));
            std::process::exit(1);
        }
    }

    fn hold_readings(&self) {
        let (s, m) = (&self.state, &self.model);
        unsafe {
            self.hold("could_be_held", audio_metrics_could_be_held(s) as u64, 1);
            self.hold("rx_one_way_ms", audio_metrics_rx_one_way_ms(s), known(m.rx_one_way_ms()));
            self.hold("rtt_ms", audio_metrics_rtt_ms(s), known(m.rtt_ms()));
            self.hold("clock_offset_ms", audio_metrics_clock_offset_ms(s), known(m.clock_offset_ms()));
            self.hold("jitter_ms", audio_metrics_jitter_ms(s) as u64, pattern(m.jitter_ms()));
            self.hold("jitter_peak_ms", audio_metrics_jitter_peak_ms(s) as u64, pattern(m.jitter_peak_ms()));
            self.hold("tx_ring_peak_ms", audio_metrics_tx_ring_peak_ms(s) as u64, pattern(m.tx_ring_peak_ms()));
            self.hold("conceals", audio_metrics_conceals(s), m.conceals());
            self.hold("late", audio_metrics_late(s), m.late());
            self.hold("overflow", audio_metrics_overflow(s), m.overflow());
            self.hold("resyncs", audio_metrics_resyncs(s), m.resyncs());
        }
    }

    fn hold_kept(&self) {
        if self.state[0] != 0 {
            self.hold("offset", self.state[1], kept(&self.model, "offset_ns") as u64);
            self.hold("round trip", self.state[2], kept(&self.model, "rtt_ns") as u64);
            self.hold("least", self.state[3], kept(&self.model, "min_rtt_ns") as u64);
        }
        if self.state[4] != 0 {
            self.hold("one way", self.state[5], kept(&self.model, "one_way_ns") as u64);
        }
    }

    // the answer says whether the numbers are in range; a refused call leaves every word
    fn hold_answer(&self, before: Words, found: bool, allowed: bool) {
        self.hold("answer", found as u64, allowed as u64);
        if !allowed {
            (0..14).for_each(|i| self.hold("a word of a refused call", self.state[i], before[i]));
        }
    }

    fn probe(&mut self, random: &mut Random) {
        let least = if self.state[0] == 0 { 64 } else { self.state[3] as i64 };
        let (offset, rtt) = (random.offset(self.state[1] as i64), random.round_trip(least));
        self.calls.push(format!("record_probe({offset}, {rtt})"));
        let before = self.state;
        let found = unsafe { audio_metrics_record_probe(&mut self.state, offset, rtt) };
        let allowed = (-BOUND..=BOUND).contains(&offset) && rtt <= BOUND;
        self.hold_answer(before, found, allowed);
        if allowed {
            self.model.record_probe(offset, rtt);
        }
    }

    fn one_way(&mut self, random: &mut Random) {
        let (recv, send) = random.times(self.state[1] as i64, self.state[5] as i64);
        self.calls.push(format!("record_audio_one_way({recv}, {send})"));
        let before = self.state;
        let found = unsafe { audio_metrics_record_audio_one_way(&mut self.state, recv, send) };
        self.hold_answer(before, found, true);
        self.model.record_audio_one_way(recv, send);
    }

    fn jitter(&mut self, random: &mut Random) {
        let samples = random.samples();
        let [c, l, o, r] = [(); 4].map(|()| random.next() >> random.below(64));
        self.calls.push(format!("publish_jitter({samples}, {c}, {l}, {o}, {r})"));
        let before = self.state;
        let found = unsafe { audio_metrics_publish_jitter(&mut self.state, samples, c, l, o, r) };
        self.hold_answer(before, found, samples <= DEPTH);
        if samples <= DEPTH {
            self.model.publish_jitter(samples, c, l, o, r);
        }
    }

    fn tx_ring(&mut self, random: &mut Random) {
        let samples = random.samples();
        self.calls.push(format!("note_tx_ring({samples})"));
        let before = self.state;
        let found = unsafe { audio_metrics_note_tx_ring(&mut self.state, samples) };
        self.hold_answer(before, found, samples <= DEPTH);
        if samples <= DEPTH {
            self.model.note_tx_ring(samples);
        }
    }
}

// what the sessions reached, so that a run shows that its edges were met
#[derive(Default)]
struct Reached {
    sessions: u64,
    calls: [u64; 4],
    changed: [u64; 4],
    offset_moved: u64,
    gated: u64,
    delay_moved: u64,
    delay_left: u64,
}

impl Reached {
    fn note(&mut self, which: usize, before: &Words, after: &Words) {
        self.calls[which] += 1;
        self.changed[which] += (before != after) as u64;
        if which == 0 && before[0] != 0 && before[..4] != after[..4] {
            self.offset_moved += (before[1] != after[1]) as u64;
            self.gated += (after[2] > after[3] + after[3] / 2) as u64;
        }
        if which == 1 && before[0] != 0 {
            let moved = before[4..6] != after[4..6];
            self.delay_moved += moved as u64;
            self.delay_left += !moved as u64;
        }
    }
}

fn main() {
    let words: Vec<String> = std::env::args().collect();
    let mut random = Random::new(words[1].parse().unwrap());
    let count: u64 = words[2].parse().unwrap();
    let mut reached = Reached::default();
    while reached.calls.iter().any(|n| *n < count) {
        let mut session = Session::new();
        for _ in 0..10 + random.below(51) {
            let which = random.below(4) as usize;
            let before = session.state;
            match which {
                0 => session.probe(&mut random),
                1 => session.one_way(&mut random),
                2 => session.jitter(&mut random),
                _ => session.tx_ring(&mut random),
            }
            session.hold_readings();
            reached.note(which, &before, &session.state);
        }
        session.hold_kept();
        reached.sessions += 1;
    }
    let names = ["record_probe", "record_audio_one_way", "publish_jitter", "note_tx_ring"];
    for (i, name) in names.iter().enumerate() {
        println!("{name}: {} calls, {} of them changed the state", reached.calls[i], reached.changed[i]);
    }
    println!("{} probes moved a known offset, {} were stopped by the gate", reached.offset_moved, reached.gated);
    println!("{} packets moved the one-way delay after an offset, {} left it", reached.delay_moved, reached.delay_left);
    println!("{} sessions equal, every reading after each call, seed {}", reached.sessions, words[1]);
}
