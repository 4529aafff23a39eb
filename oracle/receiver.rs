// Holds the receiver against the original: random sessions of setup and the eight calls on both channels, and after each
// call the answer and everything that a receiver holds, and that nothing else of state and areas has changed. Then states
// of every kind, where the answer is held against a second writing of the questions, and after a refusal every word.
// Arguments: a seed, the number of sessions, and their sizes: small, set or largest. See receiver.sh.
#![allow(warnings)]
include!("rigflow.rs");
mod caller;
mod original;
mod original_clock;
mod questions;
mod random;
mod receiver_side;
mod udp_sender;

use audio_metrics::AudioMetrics;
use caller::Caller;
use original::{Original, Settings, FIRST_SETTINGS};
use original_clock::{clock_words, pattern};
use questions::{setup_verdict, Call, Setup, Sizes, BOUND};
use random::Random;
use receiver_side::{Ours, Parts, CALLS, CLAUSES, CLOCK, INCOMING, WORDS};
use udp_sender::{level, not_finite, one_in, pick, values, Values};
use std::fmt::Debug;
use ui::layout::{WATERFALL_IMAGE_HEIGHT as HEIGHT, WATERFALL_IMAGE_WIDTH as WIDTH};

struct Seen {
    calls: usize,
    refused: usize,
    rows: usize,
    longest: usize,
    // rows with adaptive on, and rows with a setting or an estimate that is not finite
    adaptive: usize,
    not_finite: usize,
    // settings and estimates that question 5 refuses, in a state that was handed in
    handed_in: usize,
    // changed states: accepted, and refused by each number
    accepted: usize,
    by_number: [usize; 10],
    by_clause: [usize; CLAUSES.len()],
    short: usize,
    setups: [usize; 6],
}

struct Session {
    number: usize,
    call: usize,
    ours: Ours,
    original: Original,
    // the same chunks at smoothing 0, so that its smoothing buffer is the last completed row
    plain: Original,
    clock: AudioMetrics,
    clock_words: [u64; 14],
    // the samples that plays found short, since reset
    filled: [u64; 2],
    caller: Caller,
    settings: [Settings; 2],
    // the last sequences of the streams 1 and 2
    last: [Option<u32>; 2],
}

fn same(a: f32, b: f32) -> bool {
    a.to_bits() == b.to_bits() || a.is_nan() && b.is_nan()
}

// a real set's, the largest, or small with the limits of each size among them
fn sizes(r: &mut Random, of: &str) -> [usize; 6] {
    match of {
        "set" => return [480, 1920, 9600, 4096, WIDTH, HEIGHT],
        "largest" => return [4096, 65_536, 131_072, 65_535, WIDTH, HEIGHT],
        _ => {}
    }
    let packet = if one_in(r, 60) { pick(r, &[1, 4096]) } else { 1 + r.below(12) as usize };
    let target = if one_in(r, 60) { 65_536 } else { packet + r.below(40) as usize };
    let max = if one_in(r, 60) { 131_072 } else { target + r.below(60) as usize };
    let bins = match r.below(80) {
        0 => 65_535,
        1 => 1000 + r.below(64_536) as usize,
        _ => pick(r, &[1, 2, 3, 5, 16, 64, 512]),
    };
    [packet, target, max, bins, WIDTH, HEIGHT]
}

fn estimate(r: &mut Random) -> f32 {
    if one_in(r, 20) { pick(r, &[0.0, -0.0, 3e38, -3e38]) } else { level(r) }
}

// Areas that hold anything, and may be longer than they need to be.
fn areas(r: &mut Random, z: Sizes) -> Ours {
    let junk = [f32::NAN, 0.0, -7.5, f32::INFINITY, 3e38][r.below(5) as usize];
    let mut o = Ours {
        words: (0..WORDS + r.below(6) as usize).map(|_| r.next()).collect(),
        fs: vec![junk; z.float_area()],
        us: vec![r.next() as u32; z.word_area()],
    };
    o.fs.extend((0..r.below(6)).map(|_| level(r)).collect::<Vec<_>>());
    o.us.extend((0..r.below(6)).map(|_| r.next() as u32).collect::<Vec<_>>());
    o
}

// A setup that is accepted. It writes the words of the state and both pictures.
fn set_up(r: &mut Random, setup: &Setup) -> Ours {
    let mut o = areas(r, Sizes(setup.sizes));
    let before = o.clone();
    let answered = o.setup(setup);
    let parts = |o: &Ours| Parts { words: vec![0..WORDS], fs: vec![], us: vec![o.picture(0), o.picture(1)] };
    if answered != (true, [1, 0, 0, 0]) || !o.kept_but(parts(&o), before) {
        println!("DIFFERS: {setup:?} answers {answered:?}, or changed a place that is not its own");
        std::process::exit(1)
    }
    o
}

// Estimates that no setup takes, in a state that can be held all the same.
fn hand_in_estimates(r: &mut Random, o: &mut Ours, estimates: &mut [f32; 6], seen: &mut Seen) {
    for (i, e) in estimates.iter_mut().enumerate() {
        if one_in(r, 3) {
            *e = not_finite(r);
            o.screen_mut(i / 3)[12 + i % 3] = pattern(*e);
            seen.handed_in += 1;
        }
    }
}

impl Session {
    fn new(r: &mut Random, number: usize, of: &str, seen: &mut Seen) -> Session {
        let mut setup = Setup { sizes: sizes(r, of), estimates: std::array::from_fn(|_| estimate(r)) };
        let [packet, target, max, ..] = setup.sizes;
        let mut ours = set_up(r, &setup);
        if one_in(r, 6) {
            hand_in_estimates(r, &mut ours, &mut setup.estimates, seen);
        }
        let s = Session {
            number,
            call: 0,
            ours,
            original: Original::new(packet, target, max, setup.estimates),
            plain: Original::new(packet, target, max, setup.estimates),
            clock: AudioMetrics::default(),
            clock_words: clock_words(&AudioMetrics::default()),
            filled: [0; 2],
            caller: Caller::new(r, setup.sizes),
            settings: [FIRST_SETTINGS; 2],
            last: [None; 2],
        };
        s.everything(&"setup");
        s
    }

    fn fail(&self, what: &str, call: &dyn Debug) -> ! {
        println!("DIFFERS: {what}");
        println!("  after {}", format!("{call:?}").chars().take(600).collect::<String>());
        println!("  call {} of session {}, sizes {:?}, settings {:?}", self.call, self.number, self.ours.sizes().0, self.settings);
        std::process::exit(1)
    }

    fn check(&self, equal: bool, what: &str, call: &dyn Debug) {
        if !equal {
            self.fail(what, call);
        }
    }

    fn floats(&self, what: &str, found: &[f32], expected: &[f32], call: &dyn Debug) {
        if found.len() != expected.len() {
            self.fail(&format!("{what}: {} values, expected {}", found.len(), expected.len()), call);
        }
        if let Some(i) = (0..found.len()).find(|&i| !same(found[i], expected[i])) {
            let (f, e) = (found[i], expected[i]);
            self.fail(&format!("{what} {i}: {f:e} {:08x}, expected {e:e} {:08x}", f.to_bits(), e.to_bits()), call);
        }
    }

    fn numbers(&self, what: &str, found: &[u64], expected: &[u64], call: &dyn Debug) {
        if found != expected {
            self.fail(&format!("{what} {found:?}, expected {expected:?}"), call);
        }
    }

    // ---- what a receiver holds

    fn everything(&self, call: &dyn Debug) {
        for channel in 0..2 {
            self.jitter(channel, call);
            self.screen(channel, call);
        }
        self.counts(call);
        self.clock(call);
        self.numbers("calls", &self.ours.words[CALLS..=CALLS], &[self.call as u64], call);
    }

    fn jitter(&self, channel: usize, call: &dyn Debug) {
        let o = self.original.jitter[channel].lock().unwrap();
        let w = self.ours.jitter(channel);
        let packet = self.ours.sizes().0[0] as u64;
        let found = [w[0], w[1], w[4] + w[3] * packet, w[6], w[7], w[8], w[9], w[10], w[11], w[12], w[13]];
        let expected = [
            o.max_buffered_samples() as u64,
            o.started() as u64,
            o.buffered_samples() as u64,
            o.packets_received,
            o.packets_inserted,
            o.packets_missing_concealed,
            o.packets_dropped_late,
            o.packets_dropped_overflow,
            o.packets_dropped_invalid_size,
            o.resync_count,
            self.filled[channel] + packet * o.packets_missing_concealed,
        ];
        self.numbers(["jitter buffer of A", "jitter buffer of B"][channel], &found, &expected, call);
    }

    fn screen(&self, channel: usize, call: &dyn Debug) {
        let (o, u) = (&self.original, &self.ours);
        let w = u.screen(channel);
        self.floats("spectrum", u.part(channel, 1, w[5] as usize), &o.spectrum[channel].lock().unwrap(), call);
        self.floats("smoothing", u.part(channel, 2, w[6] as usize), &o.smooth[channel], call);
        let s = self.settings[channel];
        let e = o.estimates(channel);
        let found: Vec<f32> = (8..15).map(|i| u.shown(channel, i)).collect();
        self.floats("setting or estimate", &found, &[s.top, s.range, s.zoom, s.smoothing, e[0], e[1], e[2]], call);
        self.check(w[7] == s.adaptive as u64, "adaptive", call);
        let found = &u.us[u.picture(channel)];
        let expected = o.picture[channel].lock().unwrap();
        if found != &expected[..] {
            let i = (0..found.len()).find(|&i| found[i] != expected[i]).unwrap();
            self.fail(&format!("pixel {i} of channel {channel}: {:06x}, expected {:06x}", found[i], expected[i]), call);
        }
    }

    fn counts(&self, call: &dyn Debug) {
        let s = self.original.stats.lock().unwrap();
        let last = |i: usize| [self.last[i].is_some() as u64, self.last[i].unwrap_or(0) as u64];
        let [known_a, last_a] = last(0);
        let [known_w, last_w] = last(1);
        let expected = [
            s.incoming_packets,
            s.audio_packets,
            s.dropped_audio_packets,
            s.late_audio_packets,
            known_a,
            last_a,
            s.waterfall_packets,
            s.dropped_waterfall_packets,
            s.late_waterfall_packets,
            known_w,
            last_w,
        ];
        self.numbers("counts", &self.ours.words[INCOMING..18], &expected, call);
    }

    fn clock(&self, call: &dyn Debug) {
        self.numbers("clock", &self.ours.words[CLOCK..CLOCK + 14], &self.clock_words, call);
    }

    // ---- calls

    fn next_call(&mut self, r: &mut Random, of: Values) -> Call {
        self.caller.next(r, of, &self.settings, self.ours.words[CLOCK + 1])
    }

    // one call on both sides, and everything compared
    fn act(&mut self, c: &Call, seen: &mut Seen) {
        let before = self.ours.clone();
        let verdict = before.verdict(c);
        let mut out = vec![2.0; if let Call::Play(_, n) = c { *n } else { 0 }];
        let (there, answer) = self.ours.call(c, &mut out);
        self.check(there, "the words were not there", c);
        if let Some(number) = verdict {
            self.numbers("answer", &answer, &[0, number, 0, 0], c);
            self.check(self.ours.same_as(&before), "a refused call changed something", c);
            self.check(out.iter().all(|x| *x == 2.0), "a refused play changed the output", c);
            seen.refused += 1;
            return;
        }
        self.call += 1;
        let expected = self.original_call(c, &answer, &out, c, seen);
        self.numbers("answer", &answer, &expected, c);
        let parts = before.parts(c);
        self.check(self.ours.kept_but(parts, before), "a place that is not the call's", c);
        self.check(self.ours.broken(self.ours.sizes()).is_none(), "no receiver could hold what it left", c);
        self.everything(c);
    }

    // Settings that no set takes, in a state that can be held all the same.
    fn hand_in(&mut self, side: usize, s: Settings, seen: &mut Seen) {
        let w = self.ours.screen_mut(side);
        w[7] = s.adaptive as u64;
        w[8..12].copy_from_slice(&[s.top, s.range, s.zoom, s.smoothing].map(pattern));
        self.original.set(side, s);
        self.settings[side] = s;
        self.everything(&("handed in", s));
        seen.handed_in += 1;
    }

    // the same call on the original, and the answer that it calls for
    fn original_call(&mut self, c: &Call, answer: &[u64; 4], out: &[f32], name: &dyn Debug, seen: &mut Seen) -> [u64; 4] {
        match c {
            Call::Datagram(d) => return self.original_datagram(d, name, seen),
            Call::Play(side, n) => return self.original_play(*side, *n, answer, out, name),
            Call::Reset(side) => {
                self.original.jitter[*side].lock().unwrap().reset();
                self.filled[*side] = 0;
            }
            Call::Set(side, s) => {
                self.original.set(*side, *s);
                self.settings[*side] = *s;
            }
            Call::Probe([t1, t2, t3, t4]) => {
                let (offset, rtt) = net::udp_framing::clock_offset_rtt(*t1, *t2, *t3, *t4);
                self.clock.record_probe(offset, rtt);
            }
            Call::OneWay(receive, send) => self.clock.record_audio_one_way(*receive, *send),
            Call::Depth(n, k) => self.clock.publish_jitter(*n, k[0], k[1], k[2], k[3]),
            Call::TransmitDepth(n) => self.clock.note_tx_ring(*n),
        }
        self.clock_words = clock_words(&self.clock);
        [1, 0, 0, 0]
    }

    fn original_datagram(&mut self, d: &[u8], name: &dyn Debug, seen: &mut Seen) -> [u64; 4] {
        let stream = d[3];
        let sequence = u32::from_be_bytes([d[4], d[5], d[6], d[7]]);
        if let 1 | 2 = stream {
            self.last[stream as usize - 1] = Some(sequence);
        }
        if !matches!(stream, 2 | 4) {
            self.original.datagram(d);
            return [3, 0, 0, 0];
        }
        let channel = stream as usize / 2 - 1;
        let drawn = self.original.draws(channel, d);
        self.plain.datagram(d);
        if !drawn {
            return [3, 0, 0, 0];
        }
        let row = &self.plain.smooth[channel];
        self.floats("row", self.ours.part(channel, 0, row.len()), row, name);
        seen.rows += 1;
        seen.adaptive += self.settings[channel].adaptive as usize;
        seen.not_finite += (8..15).any(|i| !self.ours.shown(channel, i).is_finite()) as usize;
        seen.longest = seen.longest.max(row.len());
        [4, row.len() as u64, 0, 0]
    }

    fn original_play(&mut self, side: usize, n: usize, answer: &[u64; 4], out: &[f32], name: &dyn Debug) -> [u64; 4] {
        let [packet, target, ..] = self.ours.sizes().0;
        let mut o = self.original.jitter[side].lock().unwrap();
        let (before, concealed) = (o.buffered_samples(), o.packets_missing_concealed);
        let mut expected = vec![1.0; n];
        o.pop_samples(&mut expected);
        let gone = before + packet * (o.packets_missing_concealed - concealed) as usize - o.buffered_samples();
        let started = o.started();
        drop(o);
        self.floats("sample", out, &expected, name);
        // the queue before the drop, and what the rule drops of it
        let queue = gone + self.ours.jitter(side)[4] as usize;
        let over = queue.saturating_sub(target);
        let dropped = if started && over >= 1 && over >= packet / 4 { queue.min(16) } else { 0 };
        let taken = gone - dropped.min(gone);
        self.filled[side] += (n - taken.min(n)) as u64;
        [2, taken as u64, dropped as u64, (n - taken.min(n)) as u64]
    }

    // ---- states of every kind

    fn change_word(&self, r: &mut Random, o: &mut Ours) {
        let i = r.below(WORDS as u64) as usize;
        let z = self.ours.sizes().0;
        let near = pick(r, &z) as u64;
        let old = o.words[i];
        o.words[i] = match r.below(9) {
            0 => 0,
            1 => old ^ 1 << r.below(64),
            2 => old.wrapping_add(1),
            3 => old.wrapping_sub(1),
            4 => r.next(),
            5 => pick(r, &[u64::MAX, u32::MAX as u64, 1 << 32, BOUND as u64, BOUND as u64 + 1]),
            6 => near.wrapping_add(r.below(3)).wrapping_sub(1),
            7 => r.below(5),
            _ => o.words[CALLS].wrapping_mul(4_294_967_295).wrapping_add(r.below(3)).wrapping_sub(1),
        };
    }

    fn change(&self, r: &mut Random, o: &mut Ours) {
        let z = self.ours.sizes();
        match r.below(14) {
            0 => o.fs.truncate(z.float_area() - 1),
            1 => o.us.truncate(z.word_area() - 1),
            2 => o.words[CALLS] = 4_294_967_294 + r.below(3),
            3 => o.words[r.below(6) as usize] = pick(r, &[0, 4096, 4097, 65_535, 65_536, 65_537, 131_072, 131_073, u64::MAX]),
            4 | 5 => {
                let at = r.below(2) as usize * z.word_section() + r.below(z.most_waiting() as u64) as usize;
                let any = r.next() as u32;
                o.us[at] = pick(r, &[0, 1, u32::MAX, o.us[at].wrapping_add(1), any]);
            }
            _ => self.change_word(r, o),
        }
    }

    // a changed state and any call: the verdict is the second writing's, and a refusal changes nothing
    fn any_state(&mut self, r: &mut Random, seen: &mut Seen) {
        let mut o = self.ours.clone();
        for _ in 0..1 + r.below(3) {
            self.change(r, &mut o);
        }
        let sequence = self.caller.sequence;
        let c = self.next_call(r, Values::Levels);
        self.caller.sequence = sequence;
        let verdict = o.verdict(&c);
        let before = o.clone();
        let name = ("a changed state", &before.words, &c);
        let mut out = vec![2.0; if let Call::Play(_, n) = c { n } else { 0 }];
        let (there, answer) = o.call(&c, &mut out);
        self.check(there, "the words were not there", &name);
        match verdict {
            Some(number) => {
                self.numbers("answer", &answer, &[0, number, 0, 0], &name);
                self.check(o.same_as(&before) && out.iter().all(|x| *x == 2.0), "a refused call changed something", &name);
                seen.by_number[number as usize] += 1;
                if number == 3 {
                    seen.by_clause[before.broken(before.sizes()).unwrap()] += 1;
                }
            }
            None => {
                self.check(answer[0] != 0, "refused", &name);
                self.check(o.words[CALLS] == before.words[CALLS] + 1, "the number of calls", &name);
                self.check(o.verdict(&Call::Reset(0)).is_none_or(|n| n == 4), "no receiver could hold what it left", &name);
                // words are written as a receiver's are, so that all of them may change
                let parts = Parts { words: vec![0..WORDS], ..before.parts(&c) };
                self.check(o.kept_but(parts, before.clone()), "a place that is not the call's", &name);
                seen.accepted += 1;
            }
        }
    }

    // a state or an answer one word short
    fn short_words(&mut self, r: &mut Random, seen: &mut Seen) {
        let mut o = self.ours.clone();
        let sequence = self.caller.sequence;
        let c = self.next_call(r, Values::Levels);
        self.caller.sequence = sequence;
        let mut out = vec![2.0; if let Call::Play(_, n) = c { n } else { 0 }];
        let mut answer = vec![9; 4];
        if one_in(r, 2) {
            o.words.truncate(r.below(WORDS as u64) as usize);
        } else {
            answer.truncate(r.below(4) as usize);
        }
        let before = o.clone();
        let there = o.call_into(&c, &mut out, &mut answer);
        let kept = o.same_as(&before) && answer.iter().all(|&n| n == 9) && out.iter().all(|x| *x == 2.0);
        self.check(!there && kept, "a call on too few words acted", &c);
        seen.short += 1;
    }
}

// setups of every kind: the verdict is the second writing's
fn any_setup(r: &mut Random, seen: &mut Seen) {
    let mut setup = Setup { sizes: [1 + r.below(12) as usize, 20, 40, 5, 3, 2], estimates: std::array::from_fn(|_| estimate(r)) };
    let mut o = areas(r, Sizes(setup.sizes));
    match r.below(4) {
        0 => setup.sizes[r.below(6) as usize] = pick(r, &[0, 4097, 65_536, 65_537, 131_073, usize::MAX]),
        1 if one_in(r, 2) => o.fs.truncate(Sizes(setup.sizes).float_area() - 1),
        1 => o.us.truncate(Sizes(setup.sizes).word_area() - 1),
        2 => setup.estimates[r.below(6) as usize] = not_finite(r),
        _ => {}
    }
    let Some(number) = setup_verdict(&setup, o.fs.len(), o.us.len()) else {
        set_up(r, &setup);
        seen.setups[0] += 1;
        return;
    };
    let before = o.clone();
    let answered = o.setup(&setup);
    if answered != (true, [0, number, 0, 0]) || !o.same_as(&before) {
        println!("DIFFERS: {setup:?} answers {answered:?}, expected {number}, or changed something");
        std::process::exit(1)
    }
    seen.setups[number as usize] += 1;
}

fn session(r: &mut Random, number: usize, of: &str, seen: &mut Seen) {
    let mut s = Session::new(r, number, of, seen);
    let large = s.ours.fs.len() > 20_000 || s.ours.us.len() > 20_000;
    let calls = if large { 20 + r.below(60) } else { 10 + r.below(290) };
    let usual = values(r);
    let steady = one_in(r, 2);
    for _ in 0..calls {
        let of = if steady || one_in(r, 2) { usual } else { values(r) };
        let c = s.next_call(r, of);
        s.act(&c, seen);
        seen.calls += 1;
        if let Call::Set(side, x) = c {
            if s.ours.verdict(&c) == Some(5) && one_in(r, 3) {
                s.hand_in(side, x, seen);
            }
        }
        if one_in(r, 4) {
            s.any_state(r, seen);
        }
        if one_in(r, 40) {
            s.short_words(r, seen);
        }
    }
    any_setup(r, seen);
}

fn main() {
    let args: Vec<String> = std::env::args().collect();
    let seed: u64 = args[1].parse().unwrap();
    let sessions: usize = args[2].parse().unwrap();
    // other sessions at each size of the picture
    let mut r = Random::new((seed << 26) + ((WIDTH as u64) << 13) + HEIGHT as u64);
    let mut seen = Seen {
        calls: 0,
        refused: 0,
        rows: 0,
        longest: 0,
        adaptive: 0,
        not_finite: 0,
        handed_in: 0,
        accepted: 0,
        by_number: [0; 10],
        by_clause: [0; CLAUSES.len()],
        short: 0,
        setups: [0; 6],
    };
    for number in 0..sessions {
        session(&mut r, number, &args[3], &mut seen);
    }
    println!(
        "picture {WIDTH} x {HEIGHT}: {sessions} sessions, {} calls ({} refused), {} rows completed, the longest {} bins: all equal",
        seen.calls, seen.refused, seen.rows, seen.longest
    );
    println!(
        "  {} of the rows with adaptive on, {} with a setting or an estimate that is not finite, handed in {} times",
        seen.adaptive, seen.not_finite, seen.handed_in
    );
    let changed = seen.accepted + seen.by_number.iter().sum::<usize>();
    let least = (0..CLAUSES.len()).min_by_key(|&i| seen.by_clause[i]).unwrap();
    println!(
        "  {changed} changed states: {} accepted, refused by 1 to 9 {:?}, by each clause of question 3 at least {} times ({})",
        seen.accepted, &seen.by_number[1..], seen.by_clause[least], CLAUSES[least]
    );
    println!(
        "  {} calls on too few words; setups: {} accepted, refused by 1, 2, 5 {:?}",
        seen.short, seen.setups[0], [seen.setups[1], seen.setups[2], seen.setups[5]]
    );
    if sessions >= 1000 && seen.by_clause[least] == 0 {
        println!("NOT STRUCK: {}", CLAUSES[least]);
        std::process::exit(1)
    }
}
