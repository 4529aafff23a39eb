// Prints what the original's replay of a long tape is, in bounded memory: the file is read by windows, once to check it and
// once to replay it. The tape, the questions and the lines are those of replaying.rs.
//   hours [--summary] FILE
// Every play must ask for at most target - packet samples: then none is both short and dropped from. See hours.sh.
#![allow(warnings)]
include!("rigflow.rs");
mod original;
mod original_clock;
mod questions;
mod tape_words;
#[path = "replay_lines.rs"]
mod lines;

use audio_metrics::AudioMetrics;
use original::Original;
use original_clock::clock_words;
use questions::{own_verdict, setup_verdict, Call, Sizes};
use std::fs::File;
use std::io::{stdout, BufWriter, StdoutLock, Write};
use std::os::unix::fs::FileExt;
use tape_words::{At, Tape};

const WINDOW: usize = 1 << 19;
// the words of the longest call
const LONGEST: usize = 16_385;

// ---- the file

// what stands at a place of a window; a datagram's bytes stay where they are
enum Here {
    Datagram(usize, usize, usize),
    Other(At),
}

fn here(window: &[u8], place: usize) -> Here {
    let at = 4 * place;
    if at + 4 <= window.len() {
        let first = u32::from_be_bytes(window[at..at + 4].try_into().unwrap());
        let (n, from) = ((first & 0xffff) as usize, at + 4);
        let behind = from + n.div_ceil(4) * 4;
        if first >> 16 == 0x2000 && behind <= window.len() && window[from + n..behind].iter().all(|b| *b == 0) {
            return Here::Datagram(from, from + n, behind / 4);
        }
    }
    Here::Other(Tape { bytes: window }.at(place))
}

struct Windows {
    file: File,
    bytes: usize,
    window: Vec<u8>,
}

impl Windows {
    // The calls one after the other, each with its window; the answer is the place of the first bad word.
    fn calls(&mut self, mut act: impl FnMut(&[u8], Here)) -> Option<usize> {
        let (mut base, mut place) = (0, 13);
        loop {
            let left = self.bytes - 4 * base;
            let n = left.min(WINDOW);
            self.file.read_exact_at(&mut self.window[..n], 4 * base as u64).expect("the file");
            let (window, last) = (&self.window[..n], left <= WINDOW);
            while last || place + LONGEST <= n / 4 {
                let found = here(window, place);
                place = match &found {
                    Here::Datagram(_, _, next) => *next,
                    Here::Other(At::Call(_, next)) => *next,
                    Here::Other(At::End) => return None,
                    Here::Other(At::Bad(bad)) => return Some(base + bad),
                };
                act(window, found);
            }
            base += place;
            place = 0;
        }
    }
}

// ---- the replay

struct Session {
    sizes: Sizes,
    summary: bool,
    original: Original,
    // the same rows at smoothing 0, so that its smoothing buffer is the last completed row
    plain: Option<Original>,
    clock: AudioMetrics,
    // the samples that plays found short, since the reset
    short: [usize; 2],
    samples: Vec<f32>,
    line: String,
    out: BufWriter<StdoutLock<'static>>,
}

impl Session {
    fn datagram(&mut self, d: &[u8]) {
        if let Some(number) = questions::datagram_verdict(self.sizes, d) {
            writeln!(self.out, "X {number}").unwrap();
            return;
        }
        if ![2, 4].contains(&d[3]) {
            self.original.datagram(d);
            return;
        }
        if let Some(plain) = &mut self.plain {
            plain.datagram(d);
        }
        let side = d[3] as usize / 2 - 1;
        if !self.original.draws(side, d) {
            return;
        }
        match &self.plain {
            None => writeln!(self.out, "W {} {}", lines::LETTERS[side], u16::from_be_bytes([d[18], d[19]])).unwrap(),
            Some(plain) => {
                self.line.clear();
                lines::row_line(&mut self.line, side, &plain.smooth[side]);
                self.out.write_all(self.line.as_bytes()).unwrap();
            }
        }
    }

    fn play(&mut self, side: usize, n: usize) {
        let [packet, target, ..] = self.sizes.0;
        assert!(n + packet <= target, "a play of {n} samples");
        let mut j = self.original.jitter[side].lock().unwrap();
        let (before, concealed) = (j.buffered_samples(), j.packets_missing_concealed);
        self.samples.resize(n, 1.0);
        j.pop_samples(&mut self.samples);
        let gone = before + packet * (j.packets_missing_concealed - concealed) as usize - j.buffered_samples();
        let taken = gone.min(n);
        self.short[side] += n - taken;
        let numbers = [taken, gone - taken, n - taken];
        if self.summary {
            let [taken, dropped, short] = numbers;
            writeln!(self.out, "P {} {taken} {dropped} {short}", lines::LETTERS[side]).unwrap();
            return;
        }
        self.line.clear();
        lines::play_line(&mut self.line, side, numbers, &self.samples);
        self.out.write_all(self.line.as_bytes()).unwrap();
    }

    fn call(&mut self, c: Call) {
        if let Some(number) = own_verdict(self.sizes, &c) {
            writeln!(self.out, "X {number}").unwrap();
            return;
        }
        match c {
            Call::Datagram(d) => self.datagram(&d),
            Call::Play(side, n) => self.play(side, n),
            Call::Reset(side) => {
                self.original.jitter[side].lock().unwrap().reset();
                self.short[side] = 0;
            }
            Call::Set(side, s) => self.original.set(side, s),
            Call::Probe([t1, t2, t3, t4]) => {
                let (offset, rtt) = net::udp_framing::clock_offset_rtt(t1, t2, t3, t4);
                self.clock.record_probe(offset, rtt);
            }
            Call::OneWay(receive, send) => self.clock.record_audio_one_way(receive, send),
            Call::Depth(n, k) => self.clock.publish_jitter(n, k[0], k[1], k[2], k[3]),
            Call::TransmitDepth(n) => self.clock.note_tx_ring(n),
        }
    }

    fn closing(&mut self) {
        self.line.clear();
        let (sound, datagrams) = self.original.closing_numbers(self.sizes.0[0], self.short);
        lines::closing_lines(&mut self.line, sound, datagrams, &clock_words(&self.clock));
        self.out.write_all(self.line.as_bytes()).unwrap();
        self.out.flush().unwrap();
    }
}

fn main() {
    let args: Vec<String> = std::env::args().skip(1).collect();
    let summary = args[0] == "--summary";
    let file = File::open(args.last().unwrap()).expect("the file");
    let bytes = file.metadata().expect("its length").len() as usize;
    let mut windows = Windows { file, bytes, window: vec![0; WINDOW] };
    let mut front = vec![0; bytes.min(52)];
    windows.file.read_exact_at(&mut front, 0).expect("the front");
    let bad = match (Tape { bytes: &front }).setup() {
        Err(place) => Some(place),
        Ok(_) => windows.calls(|_, _| {}),
    };
    if let Some(place) = bad {
        println!("X 11 {place}");
        return;
    }
    let setup = lines::setup_of(&Tape { bytes: &front }.setup().unwrap());
    if let Some(number) = setup_verdict(&setup, lines::FLOATS, lines::WORDS) {
        println!("X {number}");
        return;
    }
    let sizes = Sizes(setup.sizes);
    let [packet, target, max, ..] = setup.sizes;
    let original = || Original::new(packet, target, max, setup.estimates);
    let mut session = Session {
        sizes,
        summary,
        original: original(),
        plain: (!summary).then(original),
        clock: AudioMetrics::default(),
        short: [0; 2],
        samples: vec![],
        line: String::new(),
        out: BufWriter::with_capacity(1 << 16, stdout().lock()),
    };
    windows.calls(|window, found| match found {
        Here::Datagram(from, to, _) => session.datagram(&window[from..to]),
        Here::Other(At::Call(c, _)) => session.call(lines::call_of(c)),
        _ => {}
    });
    session.closing();
}
