// Holds the crate floats against Rust's own operations. The results must be equal bit for bit, and
// a NaN is equal to a NaN. Arguments: a seed, the number of random cases a function, and `every`
// where the functions of one float are to be tried on every float. See floats.sh.
mod random;
use random::Random;

#[link(name = "floats", kind = "static")]
extern "C" {
    fn floats_is_finite(x: f32) -> bool;
    fn floats_max(a: f32, b: f32) -> f32;
    fn floats_clamp(x: f32, low: f32, high: f32) -> f32;
    fn floats_from_bits(b: u32) -> f32;
    fn floats_to_bits(x: f32) -> u32;
    fn floats_sample(lo: u8, hi: u8) -> f32;
    fn floats_as_u8(x: f32) -> u8;
    fn floats_as_u32(x: f32) -> u32;
    fn floats_as_usize(x: f32) -> usize;
    fn floats_round(x: f32) -> f32;
    fn floats_round_to_u8(x: f32) -> u8;
    fn floats_nearest_i64_to_f32(n: i64) -> f32;
}

impl Random {
    // any pattern, one near an edge, one between 2^-7 and 2^33, or a number of halves
    fn pattern(&mut self, edges: &[u32]) -> u32 {
        let any = (self.next() >> 32) as u32;
        match self.below(4) {
            0 => {
                let edge = edges[self.below(edges.len() as u64) as usize];
                edge.wrapping_add(self.below(5) as u32).wrapping_sub(2)
            }
            1 => (any & 0x807f_ffff) | (((120 + self.below(40)) as u32) << 23),
            2 => {
                let halves = (any >> self.below(31)) as f32 / 2.0;
                halves.to_bits() | (any << 31)
            }
            _ => any,
        }
    }
    // a whole number of any length, one near a power of two, or one near a tie at the 24th digit
    fn whole(&mut self) -> i64 {
        let any = self.next();
        let n = match self.below(3) {
            0 => (1u64 << self.below(64)).wrapping_add(self.below(9)).wrapping_sub(4),
            1 => {
                let dropped = 1 + self.below(40);
                let kept = (1 << 23) | self.below(1 << 23);
                ((kept << dropped) | (1 << (dropped - 1))).wrapping_add(self.below(3)).wrapping_sub(1)
            }
            _ => any >> self.below(64),
        };
        if any & 1 == 0 { n as i64 } else { (n as i64).wrapping_neg() }
    }
}

// each power of two with its neighbours, the numbers that the functions test, and the ends
fn float_edges() -> Vec<u32> {
    let mut edges = vec![0, 1, 2, 0x7f7f_ffff, 0x7f80_0000, 0x7f80_0001, 0x7fbf_ffff];
    edges.extend([0x7fc0_0000, 0x7fc0_0001, 0x7fff_ffff]);
    for x in [0.3f32, 0.5, 1.5, 2.5, 3.5, 255.0, 4194303.75, 4194304.5, 8388607.0, 8388607.5] {
        edges.push(x.to_bits());
    }
    for field in 1..255 {
        edges.extend([(field << 23) - 1, field << 23, (field << 23) + 1]);
    }
    edges.iter().flat_map(|b| [*b, *b | 0x8000_0000]).collect()
}

fn whole_edges() -> Vec<i64> {
    let mut edges = vec![i64::MAX, i64::MIN];
    for k in 0..64 {
        for d in 0..9 {
            let n = (1u64 << k).wrapping_add(d).wrapping_sub(4) as i64;
            edges.extend([n, n.wrapping_neg()]);
        }
    }
    edges
}

fn pattern_of(x: f32) -> u64 {
    if x.is_nan() { 0x7fc0_0000 } else { x.to_bits() as u64 }
}

fn hold(name: &str, case: &[u64], found: u64, expected: u64) {
    if found != expected {
        println!("{name} of {case:x?}: {found:x}, and Rust has {expected:x}");
        std::process::exit(1);
    }
}

fn one_float(b: u32) {
    let x = f32::from_bits(b);
    let case = [b as u64];
    unsafe {
        hold("is_finite", &case, floats_is_finite(x) as u64, x.is_finite() as u64);
        hold("from_bits", &case, pattern_of(floats_from_bits(b)), pattern_of(x));
        hold("to_bits", &case, floats_to_bits(x) as u64, pattern_of(x));
        hold("as_u8", &case, floats_as_u8(x) as u64, x as u8 as u64);
        hold("as_u32", &case, floats_as_u32(x) as u64, x as u32 as u64);
        hold("as_usize", &case, floats_as_usize(x) as u64, x as usize as u64);
        hold("round_to_u8", &case, floats_round_to_u8(x) as u64, x.round() as u8 as u64);
        hold("round", &case, pattern_of(floats_round(x)), pattern_of(x.round()));
    }
}

// Of two zeros Rust leaves open which one `max` gives; here it is the first.
fn larger(a: u32, b: u32) {
    let (x, y) = (f32::from_bits(a), f32::from_bits(b));
    let expected = if x == 0.0 && y == 0.0 { x } else { x.max(y) };
    hold("max", &[a as u64, b as u64], pattern_of(unsafe { floats_max(x, y) }), pattern_of(expected));
}

// Rust's `clamp` stops where low is not at most high; there the order of the tests is held.
fn clamped(a: u32, b: u32, c: u32) {
    let (x, low, high) = (f32::from_bits(a), f32::from_bits(b), f32::from_bits(c));
    let expected = if low <= high {
        x.clamp(low, high)
    } else if x < low {
        low
    } else if x > high {
        high
    } else {
        x
    };
    let found = unsafe { floats_clamp(x, low, high) };
    hold("clamp", &[a as u64, b as u64, c as u64], pattern_of(found), pattern_of(expected));
}

fn sampled(b: u16) {
    let [lo, hi] = b.to_le_bytes();
    let expected = i16::from_le_bytes([lo, hi]) as f32 / 32767.0;
    hold("sample", &[b as u64], pattern_of(unsafe { floats_sample(lo, hi) }), pattern_of(expected));
}

fn nearest(n: i64) {
    hold("nearest", &[n as u64], pattern_of(unsafe { floats_nearest_i64_to_f32(n) }), pattern_of(n as f32));
}

fn main() {
    let words: Vec<String> = std::env::args().collect();
    let mut random = Random::new(words[1].parse().unwrap());
    let count: u64 = words[2].parse().unwrap();
    let edges = float_edges();
    let wholes = whole_edges();
    edges.iter().for_each(|b| one_float(*b));
    for a in &edges {
        edges.iter().for_each(|b| larger(*a, *b));
        edges.iter().for_each(|b| clamped(*a, *b, edges[random.below(edges.len() as u64) as usize]));
    }
    wholes.iter().for_each(|n| nearest(*n));
    (0..=u16::MAX).for_each(sampled);
    for _ in 0..count {
        one_float(random.pattern(&edges));
        larger(random.pattern(&edges), random.pattern(&edges));
        clamped(random.pattern(&edges), random.pattern(&edges), random.pattern(&edges));
        nearest(random.whole());
    }
    println!("{} edges, {} pairs of them, {} edges of i64, every sample", edges.len(), edges.len() * edges.len(), wholes.len());
    println!("{count} random cases a function equal, seed {}", words[1]);
    if words.get(3).map(String::as_str) == Some("every") {
        (0..=u32::MAX).for_each(one_float);
        println!("every float equal, for the functions of one float");
    }
}
