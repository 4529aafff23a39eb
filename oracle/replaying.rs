// What a replay prints for a tape: the tape and the lines by replay_lines.rs, the questions by their second writing, and
// everything else by the original.
use crate::audio::jitter_buffer::JitterBuffer;
use crate::audio_metrics::AudioMetrics;
use crate::net::udp_framing::clock_offset_rtt;
use crate::original::Original;
use crate::original_clock::clock_words;
use crate::questions::{own_verdict, setup_verdict, Call, Setup, Sizes};
use std::fmt::Write;

#[path = "replay_lines.rs"]
mod lines;
pub use lines::*;

// What a channel's buffer was given since its reset.
enum Given {
    Datagram(Vec<u8>),
    Play(usize),
}

struct Session {
    sizes: Sizes,
    original: Original,
    // The same datagrams at smoothing 0, so that its smoothing buffer is the last completed row. Each play is one of no
    // samples here first, which tells what is dropped.
    plain: Original,
    clock: AudioMetrics,
    given: [Vec<Given>; 2],
    // the samples that plays found short, since the reset
    short: [usize; 2],
    text: String,
}

// How many samples leave a buffer at a play, and the samples.
fn pop(j: &mut JitterBuffer, packet: usize, n: usize) -> (usize, Vec<f32>) {
    let (before, concealed) = (j.buffered_samples(), j.packets_missing_concealed);
    let mut out = vec![1.0; n];
    j.pop_samples(&mut out);
    let made = packet * (j.packets_missing_concealed - concealed) as usize;
    (before + made - j.buffered_samples(), out)
}

fn buffers(z: Sizes, estimates: [f32; 6]) -> Original {
    let [packet, target, max, ..] = z.0;
    Original::new(packet, target, max, estimates)
}

impl Session {
    fn new(s: &Setup) -> Session {
        let sizes = Sizes(s.sizes);
        Session {
            sizes,
            original: buffers(sizes, s.estimates),
            plain: buffers(sizes, s.estimates),
            clock: AudioMetrics::default(),
            given: [vec![], vec![]],
            short: [0; 2],
            text: String::new(),
        }
    }

    fn call(&mut self, c: &Call) {
        if let Some(number) = own_verdict(self.sizes, c) {
            writeln!(self.text, "X {number}").unwrap();
            return;
        }
        match c {
            Call::Datagram(d) => self.datagram(d),
            Call::Play(side, n) => self.play(*side, *n),
            Call::Reset(side) => self.reset(*side),
            Call::Set(side, s) => self.original.set(*side, *s),
            Call::Probe([t1, t2, t3, t4]) => {
                let (offset, rtt) = clock_offset_rtt(*t1, *t2, *t3, *t4);
                self.clock.record_probe(offset, rtt);
            }
            Call::OneWay(receive, send) => self.clock.record_audio_one_way(*receive, *send),
            Call::Depth(n, k) => self.clock.publish_jitter(*n, k[0], k[1], k[2], k[3]),
            Call::TransmitDepth(n) => self.clock.note_tx_ring(*n),
        }
    }

    fn datagram(&mut self, d: &[u8]) {
        self.plain.datagram(d);
        match d[3] {
            1 | 3 => {
                self.original.datagram(d);
                self.given[d[3] as usize / 2].push(Given::Datagram(d.to_vec()));
            }
            2 | 4 => {
                let side = d[3] as usize / 2 - 1;
                if self.original.draws(side, d) {
                    row_line(&mut self.text, side, &self.plain.smooth[side]);
                }
            }
            _ => self.original.datagram(d),
        }
    }

    fn play(&mut self, side: usize, n: usize) {
        let packet = self.sizes.0[0];
        let dropped = self.dropped(side);
        let (gone, samples) = pop(&mut self.original.jitter[side].lock().unwrap(), packet, n);
        pop(&mut self.plain.jitter[side].lock().unwrap(), packet, n);
        self.given[side].push(Given::Play(n));
        let taken = gone - dropped;
        let short = n - taken;
        self.short[side] += short;
        play_line(&mut self.text, side, [taken, dropped, short], &samples);
    }

    // What a play drops: a play of no samples drops as many, and takes none. Where it dropped any, the buffer is made anew
    // from what it was given.
    fn dropped(&mut self, side: usize) -> usize {
        let packet = self.sizes.0[0];
        let (dropped, _) = pop(&mut self.plain.jitter[side].lock().unwrap(), packet, 0);
        if dropped > 0 {
            let mut again = buffers(self.sizes, [0.0; 6]);
            for g in &self.given[side] {
                match g {
                    Given::Datagram(d) => again.datagram(d),
                    Given::Play(n) => drop(pop(&mut again.jitter[side].lock().unwrap(), packet, *n)),
                }
            }
            self.plain.jitter[side] = again.jitter[side].clone();
        }
        dropped
    }

    fn reset(&mut self, side: usize) {
        self.original.jitter[side].lock().unwrap().reset();
        self.plain.jitter[side].lock().unwrap().reset();
        self.given[side].clear();
        self.short[side] = 0;
    }

    fn closing(&mut self) {
        let (sound, datagrams) = self.original.closing_numbers(self.sizes.0[0], self.short);
        closing_lines(&mut self.text, sound, datagrams, &clock_words(&self.clock));
    }
}

pub fn replay(tape: &[u8]) -> String {
    replay_over(tape, MOST_BYTES, AREA, AREA)
}

// with a most of bytes and areas of these lengths
pub fn replay_over(tape: &[u8], most: usize, floats: usize, words: usize) -> String {
    let (setup, calls) = match session_of(tape, most) {
        Ok(session) => session,
        Err(line) => return line,
    };
    if let Some(number) = setup_verdict(&setup, floats, words) {
        return format!("X {number}\n");
    }
    let mut session = Session::new(&setup);
    for c in calls {
        session.call(&c);
    }
    session.closing();
    session.text
}
