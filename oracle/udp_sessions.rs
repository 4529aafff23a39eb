// Runs chosen sessions on the original's handle_media_packet and prints them with what it showed, in the form that
// crates/udp_vectors reads. The size of the picture picks the sessions. See udp_sessions.sh.
#![allow(warnings)]
include!("rigflow.rs");
mod original;

use original::{Original, Settings, FIRST_SETTINGS};
use ui::layout::{WATERFALL_IMAGE_HEIGHT as HEIGHT, WATERFALL_IMAGE_WIDTH as WIDTH};

// Answers. A refusal is the number of its question.
const ACCEPTED: u32 = 0x10;
const NO_ROW: u32 = 0x20;
const ROW: u32 = 0x10000;

// to a set or a setup: question 5
fn asked(floats: &[f32]) -> u32 {
    if floats.iter().all(|x| x.is_finite()) { ACCEPTED } else { 5 }
}

fn bits(x: f32) -> u32 {
    if x.is_nan() { 0x7fc0_0000 } else { x.to_bits() }
}

fn line(letter: &str, words: impl IntoIterator<Item = u32>) {
    print!("{letter}");
    for w in words {
        print!(" {w:x}");
    }
    println!();
}

fn floats(letter: &str, values: &[f32]) {
    line(letter, values.iter().map(|x| bits(*x)));
}

// Each word changes the whole sum, and so does its place.
fn sum(values: &[f32]) -> u32 {
    values.iter().fold(0, |s: u32, x| s.wrapping_mul(31).wrapping_add(bits(*x)))
}

// The value of a bin in rows too long to write out; all of them are exact.
fn ruled(rule: u32, bin: usize) -> f32 {
    let scattered = ((bin as u32 * 25173 + 13849) % 65536) as f32;
    match rule {
        0 => scattered / 512.0 - 100.0,
        1 => -20.0 - scattered / 1024.0,
        _ => bin as f32 - 255.0,
    }
}

struct Session {
    bins: usize,
    original: Original,
    // the same chunks at smoothing 0, so that its smoothing buffer is the last completed row
    plain: Original,
    settings: Settings,
}

impl Session {
    fn new(name: &str, bins: usize, estimates: [f32; 3]) -> Session {
        let [t, f, r] = estimates;
        let e = [t, f, r, t, f, r];
        println!("\n= {name}");
        line("Z", [asked(&estimates), bins as u32, WIDTH as u32, HEIGHT as u32].into_iter().chain(estimates.map(bits)));
        Session {
            bins,
            original: Original::new(1, 1, 1, e),
            plain: Original::new(1, 1, 1, e),
            settings: FIRST_SETTINGS,
        }
    }

    fn set(&mut self, change: impl Fn(&mut Settings)) {
        change(&mut self.settings);
        let s = self.settings;
        self.original.set(0, s);
        let floats = [s.top, s.range, s.zoom, s.smoothing];
        line("D", [asked(&floats), s.adaptive as u32].into_iter().chain(floats.map(bits)));
    }

    fn answer(&mut self, payload: &[u8]) -> u32 {
        let mut d = header(2, 0);
        d.extend(payload);
        self.plain.datagram(&d);
        if !self.original.draws(0, &d) {
            return NO_ROW;
        }
        ROW + self.plain.smooth[0].len() as u32
    }

    fn shown(&self) {
        floats("S", &self.original.spectrum[0].lock().unwrap());
        floats("M", &self.original.smooth[0]);
        self.display();
    }

    fn display(&self) {
        floats("E", &self.original.estimates(0));
        line("P", self.original.picture[0].lock().unwrap().iter().copied());
    }

    fn chunk(&mut self, number: u16, total: u16, first: u16, values: &[f32]) {
        let answer = self.answer(&payload(number, total, first, values));
        let head = [answer, number as u32, total as u32, first as u32];
        line("C", head.into_iter().chain(values.iter().map(|x| bits(*x))));
        if answer > ROW {
            floats("R", &self.plain.smooth[0]);
            self.shown();
        }
    }

    fn row(&mut self, number: u16, values: &[f32]) {
        self.chunk(number, values.len() as u16, 0, values);
    }

    fn ruled(&mut self, rule: u32, number: u16, total: u16, first: u16, n: u16) {
        let values: Vec<f32> = (first..first + n).map(|bin| ruled(rule, bin as usize)).collect();
        let answer = self.answer(&payload(number, total, first, &values));
        line("L", [answer, number as u32, total as u32, first as u32, n as u32, rule]);
        if answer > ROW {
            let spectrum = self.original.spectrum[0].lock().unwrap();
            line("T", [sum(&self.plain.smooth[0]), sum(&spectrum), sum(&self.original.smooth[0])]);
            self.display();
        }
    }

    fn bytes(&mut self, payload: &[u8]) {
        let answer = self.answer(payload);
        line("B", [answer].into_iter().chain(payload.iter().map(|b| *b as u32)));
    }

    // a total above bins: refused by question 8, and all stays as it was
    fn refused(&mut self, payload: &[u8]) {
        line("B", [8].into_iter().chain(payload.iter().map(|b| *b as u32)));
        self.shown();
    }
}

fn header(stream: u8, sequence: u32) -> Vec<u8> {
    let mut d = vec![0x52, 0x53, 1, stream];
    d.extend(sequence.to_be_bytes());
    d.extend([0; 8]);
    d
}

fn payload(number: u16, total: u16, first: u16, values: &[f32]) -> Vec<u8> {
    let mut p = vec![];
    for x in [number, total, first] {
        p.extend(x.to_be_bytes());
    }
    for v in values {
        p.extend(v.to_le_bytes());
    }
    p
}

const QUIET: [f32; 3] = [-40.0, -100.0, 63.0];

fn rows() {
    let mut s = Session::new("a chunk of 2 bins sent twice fills a row of 4", 4, QUIET);
    s.chunk(7, 4, 0, &[1.0, 2.0]);
    s.chunk(7, 4, 0, &[1.0, 2.0]);

    let mut s = Session::new("1 bin", 1, QUIET);
    s.row(1, &[-50.0]);
    s.row(2, &[-70.0]);
    s.set(|d| d.adaptive = true);
    s.row(3, &[-60.0]);

    let mut s = Session::new("totals below bins, and the lengths change", 8, QUIET);
    s.set(|d| d.smoothing = 0.5);
    s.row(1, &[-40.0, -50.0, -60.0, -70.0, -80.0]);
    s.row(2, &[-45.5, -55.25, -60.0, -75.0, -90.0]);
    s.row(3, &[-41.0, -42.0, -43.0]);
    s.row(4, &[-90.0, -80.0, -70.0, -60.0, -50.0, -40.0, -45.0, -65.0]);
    s.row(5, &[-66.0, -77.0, -88.0]);

    let mut s = Session::new("overlaps count again", 6, QUIET);
    s.chunk(1, 6, 0, &[-40.0, -45.0, -50.0]);
    s.chunk(1, 6, 2, &[-55.0, -60.0, -65.0]);
    s.chunk(1, 6, 5, &[-70.0]);
    s.chunk(2, 6, 1, &[-41.0, -42.0, -43.0, -44.0, -45.0]);
    s.chunk(2, 6, 0, &[-46.0, -47.0, -48.0, -49.0, -50.0, -51.0]);
}

fn spoiled_rows() {
    let mut s = Session::new("values that are not finite in the middle of a chunk", 5, QUIET);
    s.chunk(1, 5, 0, &[-41.0, f32::NAN, -43.0, -44.0, -45.0]);
    s.chunk(1, 5, 1, &[-52.0, f32::INFINITY, -54.0]);
    s.chunk(1, 5, 2, &[-63.0, -64.0, f32::NEG_INFINITY]);
    s.chunk(1, 5, 4, &[f32::NAN]);
    s.chunk(1, 5, 3, &[-74.0, -75.0]);
    s.chunk(1, 5, 3, &[-84.0, -85.0]);
    s.chunk(1, 5, 4, &[-95.0]);

    let mut s = Session::new("chunks that are ignored", 4, QUIET);
    for n in 0..6 {
        s.bytes(&[0, 9, 0, 1, 0][..n.min(5)]);
    }
    s.bytes(&[0, 9, 0, 0, 0, 0]);
    s.bytes(&[0, 9, 0, 1, 0, 0, 0, 0, 0]);
    s.bytes(&[0, 9, 0, 1, 0, 0, 0, 0, 0, 64, 1]);
    s.chunk(9, 2, 1, &[-40.0, -50.0]);
    s.chunk(9, 2, 3, &[]);
    s.chunk(9, 2, 2, &[]);
    s.chunk(9, 2, 0, &[-40.0]);
    s.bytes(&[0, 9, 0, 0, 0, 0]);
    s.bytes(&[0, 8, 0, 2, 0, 0, 1]);
    s.chunk(8, 2, 65535, &[-50.0]);
    s.chunk(9, 2, 1, &[-50.0]);
    s.chunk(9, 2, 0, &[-60.0, -70.0]);

    let mut s = Session::new("row numbers wrap, come back, and change their total", 4, QUIET);
    s.row(65535, &[-40.0, -50.0]);
    s.row(0, &[-60.0, -70.0]);
    s.row(65535, &[-80.0, -90.0]);
    s.chunk(65535, 3, 0, &[-45.0, -55.0]);
    s.chunk(65535, 2, 0, &[-65.0]);
    s.chunk(65535, 3, 2, &[-75.0]);
    s.chunk(65535, 3, 0, &[-85.0, -95.0]);

    let mut s = Session::new("a total above bins is refused", 4, QUIET);
    s.row(1, &[-40.0, -50.0, -60.0, -70.0]);
    s.refused(&payload(1, 5, 0, &[-80.0]));
    s.refused(&[0, 2, 255, 255, 0, 0, 1]);
    s.row(2, &[-45.0, -55.0, -65.0, -75.0]);
}

fn estimates() {
    let mut s = Session::new("row 0, -0 with adaptive on", 2, [-0.0, -0.0, 50.0]);
    s.set(|d| d.adaptive = true);
    s.row(1, &[0.0, -0.0]);

    let mut s = Session::new("row -0, 0 with adaptive on", 2, [-0.0, -0.0, 50.0]);
    s.set(|d| d.adaptive = true);
    s.row(1, &[-0.0, 0.0]);

    let mut s = Session::new("adaptive on, off and on, with the range at both ends", 5, QUIET);
    s.set(|d| d.adaptive = true);
    s.row(1, &[-90.0, -95.0, -20.0, -85.0, -91.0]);
    s.row(2, &[300.0, -95.0, 200.0, -1085.0, -91.0]);
    s.set(|d| d.adaptive = false);
    s.row(3, &[-40.0, -50.0, -60.0, -70.0, -80.0]);
    s.set(|d| d.adaptive = true);
    s.row(4, &[-3e38, 3e38, 1e-40, -1e-40, 7.5]);
    s.row(5, &[3e38, 3e38, 3e38, 3e38, 3e38]);

    let mut s = Session::new("estimates NaN, infinite and negative infinite", 3, [f32::NAN, f32::INFINITY, f32::NEG_INFINITY]);
    s.row(1, &[-40.0, -50.0, -60.0]);
    s.set(|d| d.adaptive = true);
    s.row(2, &[-45.0, -55.0, -65.0]);
    s.row(3, &[-50.0, -60.0, -70.0]);
}

fn smoothing() {
    let mut s = Session::new("smoothing 0.5 over 3e38, -3e38, -3e38", 1, QUIET);
    s.set(|d| d.smoothing = 0.5);
    s.row(1, &[3e38]);
    s.row(2, &[-3e38]);
    s.row(3, &[-3e38]);
    s.row(4, &[-50.0]);

    let mut s = Session::new("smoothing 0, 0.5, 1, -1, 2 and NaN", 3, QUIET);
    s.row(1, &[-40.0, -60.0, -80.0]);
    for (number, w) in [(2, 0.0), (3, 0.5), (4, 1.0), (5, -1.0), (6, 2.0), (7, 1e-8), (8, f32::NAN)] {
        s.set(|d| d.smoothing = w);
        let up = number as f32;
        s.row(number, &[-50.0 - up, -61.3 + up, -70.0]);
    }
}

fn ranges() {
    let mut s = Session::new("ranges 0, -0, -5, 0.5, 1, 30, infinite and NaN", 4, QUIET);
    for (number, range) in [0.0, -0.0, -5.0, 0.5, 1.0, 30.0, f32::INFINITY, f32::NAN].into_iter().enumerate() {
        s.set(|d| d.range = range);
        s.row(number as u16, &[-35.0, -35.5, -36.0, -50.25]);
    }
    s.set(|d| d.top = f32::NAN);
    s.row(100, &[-35.0, -35.5, -36.0, -50.25]);
    s.set(|d| d.top = f32::INFINITY);
    s.row(101, &[-35.0, -35.5, -36.0, -50.25]);
}

fn zoom_of_5_bins() {
    let mut s = Session::new("5 bins at zoom 2 show bins 1, 1, 2, 3", 5, QUIET);
    s.set(|d| d.zoom = 2.0);
    s.row(1, &[-40.0, -50.0, -60.0, -70.0, -80.0]);
}

fn zooms() {
    for (name, n) in [("10 bins at zoom 0.5, 1, 2, 2.5, 4, 9 and NaN", 10), ("3 bins at the same", 3)] {
        let mut s = Session::new(name, n, QUIET);
        for (number, zoom) in [0.5, 1.0, 2.0, 2.5, 4.0, 9.0, f32::NAN].into_iter().enumerate() {
            s.set(|d| d.zoom = zoom);
            let row: Vec<f32> = (0..n).map(|i| -36.0 - 6.0 * i as f32 - number as f32).collect();
            s.row(number as u16, &row);
        }
    }
}

fn levels() {
    let mut s = Session::new("256 bins show every level", 256, QUIET);
    s.set(|d| {
        d.top = 0.0;
        d.range = 255.0;
    });
    s.ruled(2, 1, 256, 0, 256);
}

// the counts of streams 1 and 2: packets, dropped ones and late ones
fn counts_of(o: &Original) -> [[u64; 3]; 2] {
    let s = o.stats.lock().unwrap();
    [
        [s.audio_packets, s.dropped_audio_packets, s.late_audio_packets],
        [s.waterfall_packets, s.dropped_waterfall_packets, s.late_waterfall_packets],
    ]
}

// headers alone: streams 1 and 2 count them alike, and 3 and 4 leave the counts
fn sequences(name: &str, numbers: &[u32]) {
    let mut o = Session::new(name, 1, QUIET).original;
    for sequence in numbers {
        o.datagram(&header(1, *sequence));
        o.datagram(&header(2, *sequence));
        let [audio, waterfall] = counts_of(&o);
        assert_eq!(audio, waterfall);
        o.datagram(&header(3, *sequence));
        o.datagram(&header(4, *sequence));
        assert_eq!(counts_of(&o), [audio, waterfall]);
        let [packets, dropped, late] = audio;
        line("Q", [*sequence, packets as u32, (dropped >> 32) as u32, dropped as u32, late as u32]);
    }
}

fn counts() {
    sequences("sequences in order, ahead, late and twice", &[5, 6, 9, 8, 9, 10, 10, 0, 1]);
    sequences("sequence 4294967295 twice", &[u32::MAX, u32::MAX, 0, u32::MAX, 1]);
}

fn colours() {
    println!("\n= 256 colours");
    for first in (0..256).step_by(16) {
        line("K", std::iter::once(first).chain((first..first + 16).map(|v| ui::spectrum_utils::color_map(v as u8))));
    }
}

fn long_rows() {
    let mut s = Session::new("65535 bins", 65535, QUIET);
    s.set(|d| {
        d.adaptive = true;
        d.smoothing = 0.5;
    });
    for (number, rule) in [(1, 0), (2, 1)] {
        for first in [0, 16378, 32756, 49134] {
            s.ruled(rule, number, 65535, first, 16378);
        }
        s.ruled(rule, number, 65535, 65512, 23);
    }
}

fn main() {
    match WIDTH {
        4 => {
            rows();
            spoiled_rows();
            estimates();
            smoothing();
            ranges();
            zoom_of_5_bins();
        }
        8 => zooms(),
        _ => {
            levels();
            colours();
            counts();
            long_rows();
        }
    }
}
