// Holds a player against the receiver of this repository, called through the static library of receiver_exports, on random
// tapes: what it prints, line by line.
//   player PLAYER SEED TAPES TAPE KEEP
// TAPE is a file for the tape at hand; the tape of the first difference is kept in the file KEEP. See player.sh.
#![allow(warnings)]
mod caller;
mod questions;
mod random;
mod receiver_side;
mod tape_words;
mod tapes;
mod udp_sender;

// of the files that stand on the original, the halves that do not
#[path = "settings.rs"]
mod original;
#[path = "replay_lines.rs"]
mod replaying;

mod net {
    pub mod udp_framing {
        // in place of the original's: offset and round trip of a probe
        pub fn clock_offset_rtt(t1: u64, t2: u64, t3: u64, t4: u64) -> (i64, i64) {
            let [t1, t2, t3, t4] = [t1, t2, t3, t4].map(|t| t as i128);
            ((((t2 - t1) + (t3 - t4)) / 2) as i64, ((t4 - t1) - (t3 - t2)) as i64)
        }
    }
}

use caller::Caller;
use original::Settings;
use questions::{setup_verdict, Call};
use random::Random;
use receiver_side::{Ours, CALLS, CLOCK, INCOMING, WORDS};
use replaying::{closing_lines, or_dash, play_line, row_line, session_of, AREA, LETTERS, MOST_BYTES};
use std::collections::BTreeMap;
use std::fs::{self, File};
use std::process::{exit, Command};
use tapes::Made;
use udp_sender::{one_in, pick, settings, values, Values};

// the seconds that a player has for a tape
const SECONDS: &str = "20";
const SHOWN: usize = 3;

// ---- what must come

// What a tape had, for the counts at the end.
const HAD: [&str; 6] =
    ["a picture that is not all 0", "adaptive on at a completed row", "an offset", "a one-way", "a depth", "a resync"];

struct Expected {
    replay: String,
    state: String,
    had: [bool; HAD.len()],
}

fn expected(tape: &[u8]) -> Expected {
    let mut e = Expected { replay: String::new(), state: String::new(), had: Default::default() };
    let (setup, calls) = match session_of(tape, MOST_BYTES) {
        Ok(session) => session,
        Err(line) => return Expected { replay: line, ..e },
    };
    let mut o = Ours { words: vec![0; WORDS], fs: vec![0.0; AREA], us: vec![0; AREA] };
    let (_, answer) = o.setup(&setup);
    if answer[0] == 0 {
        return Expected { replay: format!("X {}\n", answer[1]), ..e };
    }
    for c in &calls {
        call(&mut o, c, &mut e);
    }
    let w = &o.words;
    let sound = [0, 1].map(|c| std::array::from_fn(|i| o.jitter(c)[6 + i]));
    closing_lines(&mut e.replay, sound, [INCOMING, 8, 13, 9, 14, 10, 15].map(|i| w[i]), &w[CLOCK..]);
    state(&o, &mut e.state);
    e.had[0] = [0, 1].iter().any(|&c| o.us[o.picture(c)].iter().any(|&x| x != 0));
    e.had[2..5].copy_from_slice(&[0, 4, 6].map(|i| w[CLOCK + i] == 1));
    e.had[5] = [0, 1].iter().any(|&c| o.jitter(c)[12] > 0);
    e
}

fn call(o: &mut Ours, c: &Call, e: &mut Expected) {
    let mut out = vec![1.0; if let Call::Play(_, n) = c { *n } else { 0 }];
    let (_, [kind, n, dropped, short]) = o.call(c, &mut out);
    match (kind, c) {
        (0, _) => e.replay += &format!("X {n}\n"),
        (2, Call::Play(side, _)) => play_line(&mut e.replay, *side, [n, dropped, short].map(|n| n as usize), &out),
        (4, Call::Datagram(d)) => {
            let channel = d[3] as usize / 2 - 1;
            row_line(&mut e.replay, channel, o.part(channel, 0, n as usize));
            e.had[1] |= o.screen(channel)[7] == 1;
        }
        _ => {}
    }
}

// ---- the final state

fn bits(x: f32) -> String {
    format!("{:08x}", if x.is_nan() { 0x7fc0_0000 } else { x.to_bits() })
}

fn bits_of(words: &[u64]) -> Vec<String> {
    words.iter().map(|&w| bits(f32::from_bits(w as u32))).collect()
}

fn line(text: &mut String, name: &str, words: Vec<String>) {
    *text += &format!("state {name}");
    words.iter().for_each(|w| *text += &format!(" {w}"));
    text.push('\n');
}

fn state(o: &Ours, text: &mut String) {
    let w = &o.words;
    line(text, "calls", vec![w[CALLS].to_string()]);
    line(text, "last1", vec![or_dash(w[11], w[12].to_string())]);
    line(text, "last2", vec![or_dash(w[16], w[17].to_string())]);
    (0..2).for_each(|c| channel(o, c, text));
    let k = &w[CLOCK..];
    let timed = |there: usize, of: usize, show: fn(i64) -> String| or_dash(k[there], show(k[of] as i64));
    // the exports hand out no readings, so these are worked out here
    let ms = |n: i64| bits(n as f32 / 1_000_000.0);
    line(text, "clock", [(0, 1), (0, 2), (0, 3), (4, 5)].map(|(there, n)| timed(there, n, |n| n.to_string())).to_vec());
    line(text, "ms", [(0, 1), (0, 2), (4, 5)].map(|(there, n)| timed(there, n, ms)).to_vec());
    line(text, "depth", bits_of(&k[7..9]));
    line(text, "counts", k[9..13].iter().map(u64::to_string).collect());
    line(text, "transmit", bits_of(&k[13..14]));
}

fn channel(o: &Ours, c: usize, text: &mut String) {
    let (z, j, s) = (o.sizes(), o.jitter(c), o.screen(c));
    let mut say = |name: &str, words: Vec<String>| line(text, &format!("{} {name}", LETTERS[c]), words);
    let floats = |xs: &[f32]| xs.iter().map(|&x| bits(x)).collect::<Vec<_>>();
    let waiting = &o.us[c * z.word_section()..][..j[3] as usize];
    let queue = &o.fs[c * z.section() + z.most_waiting() * z.0[0]..][..j[4] as usize];
    say("next", vec![or_dash(j[1], j[2].to_string())]);
    say("waiting", waiting.iter().map(u32::to_string).collect());
    say("queue", floats(queue));
    say("run", vec![j[5].to_string()]);
    say("largest", vec![j[0].to_string()]);
    let row = || s[1..5].iter().map(u64::to_string).chain(floats(o.part(c, 0, s[2] as usize))).collect();
    say("row", if s[0] == 0 { vec!["-".into()] } else { row() });
    say("spectrum", floats(o.part(c, 1, s[5] as usize)));
    say("smoothing", floats(o.part(c, 2, s[6] as usize)));
    say("picture", o.us[o.picture(c)].iter().map(|x| format!("{x:06x}")).collect());
    say("settings", [vec![s[7].to_string()], bits_of(&s[8..12])].concat());
    say("estimates", bits_of(&s[12..15]));
}

// ---- tapes

// Small sizes, with many rows and many settings among the calls. In some tapes no value but -0 and 0, where the order of
// equal values shows; in many a zoom that leaves half a bin, where the rounding shows.
fn rows(r: &mut Random) -> Vec<u8> {
    let mut setup = loop {
        let s = tapes::setup(r);
        if setup_verdict(&s, AREA, AREA).is_none() && s.sizes[3] <= 64 && s.sizes[4] * s.sizes[5] <= 800 {
            break s;
        }
    };
    setup.sizes[3] = 1 + r.below(setup.sizes[3] as u64) as usize;
    let mut of = values(r);
    if one_in(r, 8) {
        setup.estimates = [-0.0; 6];
        of = Values::Zeros;
    }
    let mut caller = Caller::new(r, setup.sizes);
    let n = 1 + r.below(40) as usize;
    let mut made = Made::new(&setup);
    for c in tapes::calls(r, setup.sizes, n) {
        if one_in(r, 4) {
            let s = settings(r);
            let zoom = if one_in(r, 2) { pick(r, &[2.0, 4.0]) } else { s.zoom };
            made.put(&Call::Set(r.below(2) as usize, Settings { adaptive: !one_in(r, 3), zoom, ..s }));
        }
        for _ in 0..r.below(4) {
            made.put(&Call::Datagram(caller.chunk(r, of)));
        }
        made.put(&c);
    }
    made.bytes()
}

// ---- what comes

fn printed(player: &str, tape: &str) -> String {
    let run = File::open(tape).and_then(|f| Command::new("timeout").args([SECONDS, player, "--state"]).stdin(f).output());
    match run {
        Ok(out) if ![Some(126), Some(127)].contains(&out.status.code()) => String::from_utf8_lossy(&out.stdout).into_owned(),
        Ok(out) => stop(&format!("{player} could not be run: {}", String::from_utf8_lossy(&out.stderr).trim())),
        Err(e) => stop(&format!("{player} could not be run: {e}")),
    }
}

fn stop(why: &str) -> ! {
    eprintln!("{why}");
    exit(2)
}

fn lines(text: &str) -> Vec<&str> {
    text.split_inclusive('\n').collect()
}

// the first line that differs: its number from 0, as found and as expected
fn first_difference<'a>(found: &[&'a str], expected: &[&'a str]) -> Option<(usize, Option<&'a str>, Option<&'a str>)> {
    let at = (0..found.len().max(expected.len())).find(|&i| found.get(i) != expected.get(i))?;
    Some((at, found.get(at).copied(), expected.get(at).copied()))
}

// where a line stands: its letter, or `state` with its name
fn name(line: Option<&str>) -> String {
    let words: Vec<&str> = line.unwrap_or("").split_whitespace().collect();
    match words[..] {
        ["state", channel @ ("A" | "B"), name, ..] => format!("state {channel} {name}"),
        ["state", name, ..] => format!("state {name}"),
        [letter, ..] => letter.into(),
        [] => "behind the last line".into(),
    }
}

fn words(line: Option<&str>) -> Vec<&str> {
    line.map_or(vec![], |l| l.split(' ').collect())
}

// the first word that differs, and both lines
fn in_full(found: Option<&str>, expected: Option<&str>) -> String {
    let short = |l: Option<&str>| l.map_or("no line".into(), |l| format!("{:?}", l.chars().take(200).collect::<String>()));
    let (f, e) = (words(found), words(expected));
    let at = f.iter().zip(&e).take_while(|(x, y)| x == y).count();
    let [x, y] = [f.get(at), e.get(at)].map(|w| w.map_or("none", |w| w.trim_end()));
    format!("word {}: {x}, expected {y}\n    found    {}\n    expected {}", at + 1, short(found), short(expected))
}

fn main() {
    let args: Vec<String> = std::env::args().collect();
    let number = |s: &String| s.parse::<u64>().unwrap_or_else(|_| stop(&format!("'{s}' is no number")));
    let (player, seed, tapes, file, keep) = (&args[1], number(&args[2]), number(&args[3]), &args[4], &args[5]);
    let mut r = Random::new(seed);
    // tapes that agree, that differ in the replay's lines, that differ in the state's
    let [mut agree, mut in_replay, mut in_state] = [0; 3];
    let mut had = [0; HAD.len()];
    let mut places: BTreeMap<String, u64> = BTreeMap::new();
    let mut shown = vec![];
    for i in 0..tapes {
        let tape = if i % 3 == 2 { rows(&mut r) } else { tapes::tape(&mut r) };
        fs::write(file, &tape).unwrap_or_else(|e| stop(&format!("{file}: {e}")));
        let e = expected(&tape);
        had.iter_mut().zip(e.had).for_each(|(n, h)| *n += h as u64);
        let text = printed(player, file);
        let found = lines(&text);
        let end = found.iter().position(|l| l.starts_with("state")).unwrap_or(found.len());
        let replay = first_difference(&found[..end], &lines(&e.replay));
        let state = first_difference(&found[end..], &lines(&e.state));
        in_replay += replay.is_some() as u64;
        in_state += state.is_some() as u64;
        let first = replay.or(state.map(|(at, f, x)| (end + at, f, x)));
        let Some((at, f, x)) = first else {
            agree += 1;
            continue;
        };
        *places.entry(name(x)).or_default() += 1;
        if shown.is_empty() {
            fs::copy(file, keep).unwrap_or_else(|e| stop(&format!("{keep}: {e}")));
        }
        if shown.len() < SHOWN {
            shown.push(format!("tape {i}, {} bytes, line {}, {}", tape.len(), at + 1, in_full(f, x)));
        }
    }
    println!("{tapes} tapes, seed {seed}: {agree} agree wholly, {in_replay} differ in the replay's lines, {in_state} in the state's lines");
    let counts: Vec<String> = HAD.iter().zip(had).map(|(what, n)| format!("{what}: {n}")).collect();
    println!("  tapes with {}", counts.join(", "));
    if !shown.is_empty() {
        println!("  the first difference of a tape stands in");
        places.iter().for_each(|(place, n)| println!("    {place}: {n}"));
        shown.iter().for_each(|s| println!("  {s}"));
        println!("  the tape of the first one is kept in {keep}");
    }
    if let Some((what, _)) = HAD.iter().zip(had).find(|&(_, n)| n == 0 && tapes >= 1000) {
        stop(&format!("no tape had {what}: the tapes show too little"));
    }
    exit(if agree == tapes { 0 } else { 1 })
}
