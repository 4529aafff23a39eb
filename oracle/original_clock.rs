// The clock of the original in words: its readings, and what it keeps and no reading shows.
use crate::audio_metrics::AudioMetrics;

pub fn pattern(x: f32) -> u64 {
    if x.is_nan() { 0x7fc0_0000 } else { x.to_bits() as u64 }
}

// a number that the original keeps and no reading shows, in the original as text
fn kept(text: &str, name: &str) -> u64 {
    let at = text.find(&format!(" {name}: ")).unwrap() + name.len() + 3;
    text[at..].split([',', ' ']).next().unwrap().parse::<i64>().unwrap() as u64
}

// whether timing is known, offset, round trip and least, whether one-way is known, one-way, and the depths
pub fn clock_words(m: &AudioMetrics) -> [u64; 14] {
    let text = format!("{m:?}");
    let timing = m.clock_offset_ms().is_some() as u64;
    let one_way = m.rx_one_way_ms().is_some() as u64;
    let there = |flag: u64, name: &str| if flag == 1 { kept(&text, name) } else { 0 };
    [
        timing,
        there(timing, "offset_ns"),
        there(timing, "rtt_ns"),
        there(timing, "min_rtt_ns"),
        one_way,
        there(one_way, "one_way_ns"),
        text.contains("have_jitter: true") as u64,
        pattern(m.jitter_ms()),
        pattern(m.jitter_peak_ms()),
        m.conceals(),
        m.late(),
        m.overflow(),
        m.resyncs(),
        pattern(m.tx_ring_peak_ms()),
    ]
}
