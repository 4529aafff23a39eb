// Random sessions on the original, printed as equations that the definitions of crates/model must meet.
// Arguments: a seed and the number of sessions. See definitions.sh.
#![allow(warnings)]
include!("rigflow.rs");
mod original;

use audio_metrics::AudioMetrics;
use original::{Original, Settings};
use std::sync::Arc;

struct Random(u64);

impl Random {
    fn next(&mut self) -> u64 {
        self.0 ^= self.0 << 13;
        self.0 ^= self.0 >> 7;
        self.0 ^= self.0 << 17;
        self.0
    }
    fn below(&mut self, n: u64) -> u64 {
        self.next() % n
    }
    fn one_in(&mut self, n: u64) -> bool {
        self.below(n) == 0
    }
    fn level(&mut self) -> u32 {
        ((self.below(200) as f32) * 0.7 - 120.0).to_bits()
    }
    // a finite float, with both zeros and a huge value among them
    fn finite(&mut self) -> u32 {
        match self.below(8) {
            0 => 0x8000_0000,
            1 => 0,
            2 => 0x7f61_b1e6,
            _ => self.level(),
        }
    }
    // any float
    fn float(&mut self) -> u32 {
        match self.below(12) {
            0 => 0x8000_0000,
            1 => 0,
            2 => 0x7f61_b1e6,
            3 => 0xff61_b1e6,
            4 => 0x7f80_0000,
            5 => 0x7fc0_0001,
            _ => self.level(),
        }
    }
}

fn bits(x: f32) -> u64 {
    if x.is_nan() { 0x7fc0_0000 } else { x.to_bits() as u64 }
}

fn list<T: std::fmt::Display>(items: &[T]) -> String {
    let mut s = String::new();
    for x in items {
        s += &format!("{} ∷ ", x);
    }
    s + "[]"
}

// One receiver of the original, with the calls made so far and the numbers that they gave.
struct Session {
    original: Original,
    metrics: Arc<AudioMetrics>,
    calls: Vec<String>,
    numbers: Vec<u64>,
}

impl Session {
    fn new(packet: usize, target: usize, max: usize, e: &[u32; 6]) -> Session {
        Session {
            original: Original::new(packet, target, max, e.map(f32::from_bits)),
            metrics: AudioMetrics::new(),
            calls: vec![],
            numbers: vec![],
        }
    }

    fn datagram(&mut self, d: &[u8]) {
        self.original.datagram(d);
        self.calls.push(format!("datagram ({})", list(d)));
    }

    fn audio(&mut self, r: &mut Random, packet: usize, base: u32) {
        let version = 1 + !r.one_in(3) as u8;
        let stream = [1u8, 1, 3][r.below(3) as usize];
        let sequence = base.wrapping_add(r.below(24) as u32);
        let mut d = vec![0x52, 0x53, version, stream];
        d.extend(sequence.to_be_bytes());
        d.extend(r.next().to_be_bytes());
        if version == 2 && !r.one_in(9) {
            d.extend(r.next().to_be_bytes());
        }
        let n = if r.one_in(7) { r.below(2 * packet as u64 + 3) as usize } else { 2 * packet };
        for _ in 0..n {
            d.push([0, 0xff, 0x80, 0x7f, r.next() as u8][r.below(5) as usize]);
        }
        self.datagram(&d);
    }

    fn waterfall(&mut self, r: &mut Random, bins: u64, base: u32) {
        let stream = [2u8, 2, 4][r.below(3) as usize];
        let mut d = vec![0x52, 0x53, 1 + r.below(2) as u8, stream];
        d.extend(base.wrapping_add(r.below(24) as u32).to_be_bytes());
        d.extend([0; 8]);
        let total = if r.one_in(12) { 0 } else { 1 + r.below(bins) };
        let first = if r.one_in(2) { 0 } else { r.below(total + 1) };
        let room = total.saturating_sub(first);
        let n = if r.one_in(9) {
            room + 1
        } else if r.one_in(2) {
            room
        } else {
            r.below(room + 1)
        };
        d.extend((r.below(2) as u16).to_be_bytes());
        d.extend((total as u16).to_be_bytes());
        d.extend((first as u16).to_be_bytes());
        for _ in 0..n {
            let value = if r.one_in(10) { r.float() } else { r.finite() };
            d.extend(value.to_le_bytes());
        }
        if r.one_in(15) {
            d.push(1);
        }
        if r.one_in(25) {
            d.truncate(20);
        }
        self.datagram(&d);
    }

    fn play(&mut self, r: &mut Random, packet: usize) {
        let n = r.below(2 * packet as u64 + 2) as usize;
        let b = r.one_in(3) as usize;
        let mut out = vec![9f32; n];
        self.original.jitter[b].lock().unwrap().pop_samples(&mut out);
        self.numbers.extend(out.iter().map(|x| bits(*x)));
        self.calls.push(format!("play {} {}", ["A", "B"][b], n));
    }

    fn reset(&mut self, r: &mut Random) {
        let b = r.one_in(2) as usize;
        self.original.jitter[b].lock().unwrap().reset();
        self.calls.push(format!("reset {}", ["A", "B"][b]));
    }

    fn set(&mut self, r: &mut Random) {
        let b = r.one_in(3);
        let adaptive = r.one_in(2);
        let top = f32::from_bits(r.finite());
        let range = [0.0, -5.0, r.below(100) as f32, r.below(100) as f32][r.below(4) as usize];
        let zoom = [0.5f32, 1.0, 2.0, 2.5, 4.0, 9.0, 1.3, -1.0][r.below(8) as usize];
        let smoothing = [0f32, 0.5, 1.0, 2.0, -1.0, 0.3, 0.9][r.below(7) as usize];
        self.original.set(b as usize, Settings { adaptive, top, range, zoom, smoothing });
        let [top, range, zoom, smoothing] = [top, range, zoom, smoothing].map(bits);
        self.calls.push(format!(
            "set {} (record {{ adaptive = {}; top = {}; range = {}; zoom = {}; smoothing = {} }})",
            if b { "B" } else { "A" },
            adaptive,
            top,
            range,
            zoom,
            smoothing
        ));
    }

    fn probe(&mut self, r: &mut Random) {
        let t = r.next() >> r.below(60);
        let times = match r.below(3) {
            0 => [t, t.wrapping_add(r.below(100)), t.wrapping_add(r.below(100) + 50), t.wrapping_add(r.below(400))],
            1 => [r.next(), r.next(), r.next(), r.next()],
            _ => {
                let ahead = r.below(1_000_000);
                [t, t.wrapping_add(ahead), t.wrapping_add(ahead + 10), t.wrapping_add(30 + r.below(200))]
            }
        };
        let [t1, t2, t3, t4] = times;
        let (offset, round_trip) = net::udp_framing::clock_offset_rtt(t1, t2, t3, t4);
        let bound = 4611686018427387903i64;
        if (-bound..=bound).contains(&offset) && round_trip <= bound {
            self.metrics.record_probe(offset, round_trip);
        }
        self.calls.push(format!("probe {} {} {} {}", t1, t2, t3, t4));
    }

    fn one_way(&mut self, r: &mut Random) {
        let send = r.next() >> r.below(60);
        let receive = send.wrapping_add(r.below(6_000_000_000)).wrapping_sub(500_000_000);
        self.metrics.record_audio_one_way(receive, send);
        self.calls.push(format!("one_way {} {}", receive, send));
    }

    fn depth(&mut self, r: &mut Random) {
        let n = r.below(20000);
        let [a, b, c, d] = [r.below(9), r.below(9), r.below(9), r.below(9)];
        self.metrics.publish_jitter(n as usize, a, b, c, d);
        self.calls.push(format!(
            "depth {} (record {{ conceals = {}; late = {}; overflow = {}; resyncs = {} }})",
            n, a, b, c, d
        ));
    }

    fn transmit(&mut self, r: &mut Random) {
        let n = r.below(20000);
        self.metrics.note_tx_ring(n as usize);
        self.calls.push(format!("transmit_depth {}", n));
    }

    // the final state, in the order of `digest` in definitions.sh
    fn close(&mut self) {
        let out = &mut self.numbers;
        let o = &self.original;
        for j in &o.jitter {
            let j = j.lock().unwrap();
            out.extend([j.packets_received, j.packets_inserted, j.packets_missing_concealed]);
            out.extend([j.packets_dropped_late, j.packets_dropped_overflow, j.packets_dropped_invalid_size]);
            out.extend([j.resync_count, j.max_buffered_samples() as u64, j.buffered_samples() as u64]);
        }
        let s = o.stats.lock().unwrap();
        out.extend([s.incoming_packets, s.audio_packets, s.waterfall_packets, s.dropped_audio_packets]);
        out.extend([s.dropped_waterfall_packets, s.late_audio_packets, s.late_waterfall_packets]);
        for s in &o.spectrum {
            out.extend(s.lock().unwrap().iter().map(|x| bits(*x)));
            out.push(77);
        }
        for s in &o.smooth {
            out.extend(s.iter().map(|x| bits(*x)));
            out.push(77);
        }
        for p in &o.picture {
            out.extend(p.lock().unwrap().iter().map(|x| *x as u64));
        }
        for channel in 0..2 {
            out.extend(o.estimates(channel).map(bits));
        }
        let m = &self.metrics;
        for reading in [m.clock_offset_ms(), m.rtt_ms(), m.rx_one_way_ms()] {
            out.push(reading.map_or(1, bits));
        }
        out.extend([m.jitter_ms(), m.jitter_peak_ms(), m.tx_ring_peak_ms()].map(bits));
        out.extend([m.conceals(), m.late(), m.overflow(), m.resyncs()]);
    }
}

fn main() {
    let mut args = std::env::args().skip(1);
    let mut r = Random(args.next().unwrap().parse::<u64>().unwrap() | 1);
    let count: usize = args.next().unwrap().parse().unwrap();
    for _ in 0..20 {
        r.next();
    }
    for case in 0..count {
        let packet = 1 + r.below(4) as usize;
        let target = packet + r.below(9) as usize;
        let max = target + r.below(12) as usize;
        let bins = 1 + r.below(6);
        let e: [u32; 6] = std::array::from_fn(|_| r.level());
        let mut s = Session::new(packet, target, max, &e);
        let base = if r.one_in(3) { 0xffff_fff0 } else { r.below(50) as u32 };
        let focus = r.below(4);
        for _ in 0..8 + r.below(20) {
            let kind = match focus {
                0 => r.below(6),
                1 => 6 + r.below(6),
                _ => r.below(20),
            };
            match kind {
                0..=4 | 14 => s.audio(&mut r, packet, base),
                5 | 15 => s.play(&mut r, packet),
                6..=9 | 16 | 17 => s.waterfall(&mut r, bins, base),
                10 | 11 => s.set(&mut r),
                12 => s.probe(&mut r),
                13 => s.one_way(&mut r),
                18 => s.depth(&mut r),
                _ if r.one_in(3) => s.reset(&mut r),
                _ => s.transmit(&mut r),
            }
        }
        s.close();
        println!("session_{case} : digest (setup_of {packet} {target} {max} {bins} {}) ({})", e.map(|x| x.to_string()).join(" "), list(&s.calls));
        println!("    ≡ {}", list(&s.numbers));
        println!("unfolding computes digest setup_of play_bits counters_of float_bits mark lent option_bits display_bits clock_digest");
        println!("session_{case} = refl\n");
    }
}
