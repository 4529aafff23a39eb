// Runs sessions on the original's JitterBuffer and prints crates/jitter_vectors/src/sessions.rt.
// See jitter_sessions.sh.
#[path = "rigflow/rigflow-core/src/audio/jitter_buffer.rs"]
mod original;
use original::JitterBuffer;

#[derive(Clone, Copy)]
enum Call {
    // sequence, samples, and the first of them: the rest count up from it, in 16 bits
    Push(u32, usize, u16),
    Play(usize),
    Reset,
}
use Call::{Play, Push, Reset};

struct Session {
    name: &'static str,
    sizes: [usize; 3],
    calls: Vec<Call>,
}

// What the private fields show under Debug.
fn shown(j: &JitterBuffer, field: &str) -> u64 {
    let all = format!("{j:?}");
    let from = all.find(&format!(" {field}: ")).unwrap() + field.len() + 3;
    let digits: String = all[from..].trim_start_matches("Some(").chars().take_while(|c| c.is_ascii_digit()).collect();
    digits.parse().unwrap_or(0)
}

fn samples(n: usize, first: u16) -> Vec<f32> {
    (0..n).map(|i| first.wrapping_add(i as u16) as i16 as f32 / 32767.0).collect()
}

// How many samples leave the buffer at a play, and the samples.
fn play(j: &mut JitterBuffer, packet: usize, n: usize) -> (usize, Vec<f32>) {
    let before = j.buffered_samples();
    let concealed = j.packets_missing_concealed;
    let mut out = vec![1.0; n];
    j.pop_samples(&mut out);
    let made = packet * (j.packets_missing_concealed - concealed) as usize;
    (before + made - j.buffered_samples(), out)
}

impl Session {
    fn after(&self, calls: usize) -> JitterBuffer {
        let [packet, target, max] = self.sizes;
        let mut j = JitterBuffer::new(packet, target, max);
        for call in &self.calls[..calls] {
            match *call {
                Push(sequence, n, first) => j.push_packet(sequence, samples(n, first)),
                Play(n) => drop(play(&mut j, packet, n)),
                Reset => j.reset(),
            }
        }
        j
    }

    fn print(&self) {
        let [packet, target, max] = self.sizes;
        println!("{} {packet} {target} {max}", self.name);
        let mut short = 0;
        for (i, call) in self.calls.iter().enumerate() {
            let mut j = self.after(i);
            let mut end = String::new();
            match *call {
                Push(sequence, n, first) => {
                    print!("push {sequence} {n} {first}:");
                    j.push_packet(sequence, samples(n, first));
                }
                Play(n) => {
                    print!("play {n}:");
                    // a play of no samples drops as many, and takes none
                    let (dropped, _) = play(&mut self.after(i), packet, 0);
                    let (gone, out) = play(&mut j, packet, n);
                    let taken = gone - dropped;
                    short += n - taken;
                    end = format!(" {taken} {dropped} {}", n - taken);
                    for x in out {
                        end += &format!(" {:08x}", x.to_bits());
                    }
                }
                Reset => {
                    print!("reset:");
                    j.reset();
                    short = 0;
                }
            }
            let filled = short as u64 + packet as u64 * j.packets_missing_concealed;
            let numbers = [
                j.packets_received,
                j.packets_inserted,
                j.packets_missing_concealed,
                j.packets_dropped_late,
                j.packets_dropped_overflow,
                j.packets_dropped_invalid_size,
                j.resync_count,
                filled,
                j.max_buffered_samples() as u64,
                j.buffered_samples() as u64,
                j.started() as u64,
                shown(&j, "next_sequence"),
                shown(&j, "consecutive_conceals"),
            ];
            for n in numbers {
                print!(" {n}");
            }
            println!("{end}");
        }
    }
}

fn session(name: &'static str, packet: usize, target: usize, max: usize, calls: &[Call]) -> Session {
    Session { name, sizes: [packet, target, max], calls: calls.to_vec() }
}

const LAST: u32 = u32::MAX;

fn groups() -> Vec<(&'static str, Vec<Session>)> {
    vec![
        ("starred", vec![
        session("in order", 4, 8, 16, &[Push(10, 4, 1), Push(11, 4, 5), Play(4), Play(4), Play(4)]),
        session("gap", 4, 8, 16, &[Push(10, 4, 1), Push(20, 4, 5), Play(8), Play(8), Play(8), Play(3)]),
        session("above target", 64, 112, 256, &[Push(1, 64, 1), Push(2, 64, 65), Play(10), Play(60), Play(60)]),
        session("near target", 64, 113, 256, &[Push(1, 64, 1), Push(2, 64, 65), Play(10), Play(64), Play(64)]),
        ]),
        ("order", vec![
        session("wrap", 2, 4, 8, &[
            Push(LAST - 1, 2, 32766), Push(LAST, 2, 65534), Push(0, 2, 9), Push(LAST, 2, 20), Push(1, 2, 11), Play(3), Play(4), Push(3, 2, 13), Play(6), Play(2),
        ]),
        session("late across the wrap", 2, 4, 12, &[
            Push(LAST - 3, 2, 1), Push(LAST - 2, 2, 3), Push(0, 2, 5), Push(LAST, 2, 7), Play(4), Play(4), Push(0, 2, 9), Push(2, 2, 11), Play(4), Play(9),
        ]),
        session("out of order", 3, 9, 18, &[
            Push(7, 3, 1), Push(5, 3, 4), Push(6, 3, 7), Push(9, 3, 10), Push(8, 3, 13), Play(5), Push(10, 3, 16), Play(9), Play(9),
        ]),
        ]),
        ("full", vec![
        session("duplicate of a full buffer", 4, 8, 16, &[
            Push(10, 4, 1), Push(11, 4, 5), Push(12, 4, 9), Push(13, 4, 13), Push(13, 4, 100), Push(14, 4, 17), Play(8), Play(8),
        ]),
        session("duplicate with room", 4, 12, 24, &[
            Push(10, 4, 1), Push(11, 4, 5), Push(10, 4, 100), Push(12, 4, 9), Push(13, 4, 13), Push(13, 4, 200), Play(12), Play(4), Play(1),
        ]),
        session("max between packets", 4, 8, 9, &[
            Push(1, 4, 1), Push(2, 4, 5), Push(3, 4, 9), Push(4, 4, 13), Play(3), Push(4, 4, 17), Push(5, 4, 21), Play(8), Play(8),
        ]),
        session("late", 4, 8, 24, &[
            Push(10, 4, 1), Push(11, 4, 5), Push(9, 4, 50), Push(11, 4, 60), Push(10, 3, 70), Push(12, 4, 9), Push(0, 4, 80), Play(4), Push(12, 4, 90), Play(8), Play(8),
        ]),
        ]),
        ("gaps", vec![
        session("two gaps", 2, 10, 20, &[
            Push(1, 2, 1), Push(2, 2, 3), Push(3, 2, 5), Push(4, 2, 7), Push(5, 2, 9), Push(8, 2, 11), Play(4), Push(10, 2, 13), Play(6), Play(6), Play(6),
        ]),
        session("resync", 2, 10, 20, &[
            Push(100, 2, 1), Push(101, 2, 3), Push(102, 2, 5), Push(200, 2, 7), Push(300, 2, 9), Push(400, 2, 11), Play(5), Play(10), Push(150, 2, 13), Play(10), Push(402, 2, 15), Play(10),
        ]),
        session("plays of none", 64, 112, 256, &[
            Play(0), Push(1, 64, 1), Play(0), Push(2, 64, 65), Play(0), Play(0), Push(3, 64, 129), Play(0), Play(2), Reset, Play(0),
        ]),
        ]),
        ("small", vec![
        session("packet of one sample", 1, 3, 6, &[
            Push(5, 1, 1), Push(6, 1, 32767), Push(7, 1, 32768), Play(1), Push(9, 1, 65535), Play(2), Push(13, 1, 5), Push(14, 1, 6), Push(15, 1, 7), Play(3), Play(0), Play(4), Play(1),
        ]),
        session("target of one packet", 4, 4, 4, &[
            Push(3, 4, 1), Push(4, 4, 5), Play(1), Push(4, 4, 9), Push(5, 4, 13), Play(4), Play(4), Push(9, 4, 17), Play(4), Play(4), Play(4), Play(4),
        ]),
        session("wrong size", 4, 8, 16, &[
            Push(1, 3, 1), Push(1, 5, 1), Push(1, 1, 1), Push(1, 4, 1), Push(2, 8, 1), Push(2, 4, 5), Push(0, 5, 9), Push(0, 4, 9), Play(9),
        ]),
        session("reset", 4, 8, 16, &[
            Push(1, 4, 1), Push(2, 4, 5), Push(3, 4, 9), Play(2), Reset, Play(3), Push(1, 4, 13), Play(2), Push(2, 4, 17), Play(8), Reset, Reset,
        ]),
        session("before the start", 4, 12, 16, &[
            Play(5), Push(7, 4, 1), Play(4), Push(6, 4, 5), Play(3), Push(9, 4, 9), Play(4), Play(4), Play(4), Play(4),
        ]),
        ]),
    ]
}

fn main() {
    println!("// Sessions of the jitter buffer, with what the original answered to each call (rustc 1.95.0). Printed by");
    println!("// oracle/jitter_sessions.sh, which says how a line is read.");
    println!("use crate::bench::Bench;\nuse crate::session::run;");
    let groups = groups();
    for (name, sessions) in &groups {
        println!("\nfn {name}(b: &mut Bench) {{\n    run(\n        b,");
        print!("        \"");
        for (i, s) in sessions.iter().enumerate() {
            if 0 < i {
                println!();
            }
            s.print();
        }
        println!("\",\n    );\n}}");
    }
    println!("\npub fn all(b: &mut Bench) {{");
    for (name, _) in &groups {
        println!("    {name}(b);");
    }
    println!("}}");
}
