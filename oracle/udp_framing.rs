// Holds udp_framing against the original by running both on random cases, edges among them. See udp_framing.sh.
// Arguments: a seed and the number of cases for each function.
#![allow(warnings)]
mod random;
use random::Random;

#[path = "rigflow/rigflow-core/src/net/udp_framing.rs"]
mod udp_framing;

use udp_framing::*;

// A slice goes as a pointer and a length.
#[link(name = "udp_framing_exports", kind = "static")]
extern "C" {
    fn udp_framing_parse_media_header(packet: *const u8, packet_len: usize, numbers: *mut u64, numbers_len: usize) -> bool;
    fn udp_framing_is_valid_header(magic: u16, version: u8) -> bool;
    fn udp_framing_audio_samples_offset(version: u8) -> usize;
    fn udp_framing_audio_send_wall_ns(version: u8, packet: *const u8, packet_len: usize, numbers: *mut u64, numbers_len: usize) -> bool;
    fn udp_framing_build_time_sync_request(target: *mut u8, target_len: usize, probe_id: u32, t1: u64) -> usize;
    fn udp_framing_build_time_sync_response(target: *mut u8, target_len: usize, probe_id: u32, t1: u64, t2: u64, t3: u64) -> usize;
    fn udp_framing_parse_time_sync_request(packet: *const u8, packet_len: usize, numbers: *mut u64, numbers_len: usize) -> bool;
    fn udp_framing_parse_time_sync_response(packet: *const u8, packet_len: usize, numbers: *mut u64, numbers_len: usize) -> bool;
    fn udp_framing_clock_offset(t1: u64, t2: u64, t3: u64, t4: u64) -> i64;
    fn udp_framing_clock_rtt(t1: u64, t2: u64, t3: u64, t4: u64) -> i64;
}

impl Random {
    fn of(&mut self, from: &[u64]) -> u64 {
        from[self.below(from.len() as u64) as usize]
    }
    // an edge, a number near one, a small number, a time of these years, or any number
    fn number(&mut self) -> u64 {
        let edges = [0, 1, 255, 256, 65535, 65536, (1 << 32) - 1, 1 << 32, (1 << 63) - 1, 1 << 63, (1 << 63) + 1, u64::MAX - 1, u64::MAX];
        match self.below(6) {
            0 => self.of(&edges),
            1 => self.of(&edges).wrapping_add(self.below(5)).wrapping_sub(2),
            2 => self.below(8),
            3 => 1_700_000_000_000_000_000 + self.below(1_000_000_000),
            _ => self.next(),
        }
    }
    fn byte(&mut self) -> u8 {
        match self.below(4) {
            0 => self.of(&[0, 1, 2, 3, 127, 128, 254, 255]) as u8,
            _ => self.below(256) as u8,
        }
    }
    fn length(&mut self) -> usize {
        match self.below(3) {
            0 => self.of(&[0, 1, 15, 16, 17, 23, 24, 25, 39, 40, 41]) as usize,
            _ => self.below(49) as usize,
        }
    }
    fn bytes(&mut self) -> Vec<u8> {
        let n = self.length();
        (0..n).map(|_| self.byte()).collect()
    }
    // a datagram whose type is often that of a time packet
    fn packet(&mut self) -> Vec<u8> {
        let mut p = self.bytes();
        if p.len() > 3 && self.below(4) > 0 {
            p[3] = self.of(&[11, 12, 13, 14]) as u8;
        }
        if p.len() > 1 && self.below(2) > 0 {
            p[0] = 0x52;
            p[1] = 0x53;
        }
        p
    }
}

// what an export handed over: the numbers, or none
fn handed(found: bool, numbers: &[u64]) -> Option<Vec<u64>> {
    if found { Some(numbers.to_vec()) } else { None }
}

// numbers that are not there must be left as they were
fn untouched(found: bool, numbers: &[u64]) -> bool {
    found || numbers.iter().all(|&n| n == 77)
}

fn hold<A: PartialEq + std::fmt::Debug>(name: &str, case: &dyn Fn() -> String, original: A, ours: A) {
    if original != ours {
        println!("{}: not equal at {}", name, case());
        println!("original {:?}", original);
        println!("ours     {:?}", ours);
        std::process::exit(1);
    }
}

fn header_with(magic: u16, version: u8) -> MediaHeader {
    MediaHeader { magic, version, stream_type: 1, sequence: 0, timestamp: 0 }
}

fn read<const N: usize>(packet: &[u8], f: unsafe extern "C" fn(*const u8, usize, *mut u64, usize) -> bool) -> (Option<Vec<u64>>, bool) {
    let mut numbers = [77u64; N];
    let found = unsafe { f(packet.as_ptr(), packet.len(), numbers.as_mut_ptr(), N) };
    (handed(found, &numbers), untouched(found, &numbers))
}

fn headers(r: &mut Random, count: u64) {
    for _ in 0..count {
        let p = r.packet();
        let original = parse_media_header(&p).map(|h| vec![h.magic as u64, h.version as u64, h.stream_type as u64, h.sequence as u64, h.timestamp]);
        hold("parse_media_header", &|| format!("{:?}", p), (original, true), read::<5>(&p, udp_framing_parse_media_header));
    }
    println!("parse_media_header: {} cases equal", count);
}

fn validity(r: &mut Random, count: u64) {
    for i in 0..count {
        let version = r.byte();
        let magic = if r.below(3) > 0 { MAGIC } else { r.next() as u16 };
        hold("is_valid_header", &|| format!("{} {}", magic, version), is_valid_header(&header_with(magic, version)), unsafe { udp_framing_is_valid_header(magic, version) });
        hold("audio_samples_offset", &|| format!("{}", version), audio_samples_offset(version), unsafe { udp_framing_audio_samples_offset(version) });
    }
    println!("is_valid_header: {} cases equal", count);
    println!("audio_samples_offset: {} cases equal", count);
}

fn send_times(r: &mut Random, count: u64) {
    for _ in 0..count {
        let p = r.packet();
        let version = r.byte();
        let mut numbers = [77u64; 1];
        let found = unsafe { udp_framing_audio_send_wall_ns(version, p.as_ptr(), p.len(), numbers.as_mut_ptr(), 1) };
        let original = audio_send_wall_ns(&header_with(MAGIC, version), &p).map(|n| vec![n]);
        hold("audio_send_wall_ns", &|| format!("{} {:?}", version, p), (original, true), (handed(found, &numbers), untouched(found, &numbers)));
    }
    println!("audio_send_wall_ns: {} cases equal", count);
}

// the number of bytes and the target, where the original's bytes fit it; else 0 and the target as it was
fn placed(packet: Vec<u8>, target: &[u8]) -> (usize, Vec<u8>) {
    let mut after = target.to_vec();
    if after.len() < packet.len() {
        return (0, after);
    }
    after[..packet.len()].copy_from_slice(&packet);
    (packet.len(), after)
}

fn builds(r: &mut Random, count: u64) {
    for _ in 0..count {
        let before = r.bytes();
        let (id, t1, t2, t3) = (r.number() as u32, r.number(), r.number(), r.number());
        let mut target = before.clone();
        let n = unsafe { udp_framing_build_time_sync_request(target.as_mut_ptr(), target.len(), id, t1) };
        hold("build_time_sync_request", &|| format!("{:?} {} {}", before, id, t1), placed(build_time_sync_request(id, t1), &before), (n, target));
        let mut target = before.clone();
        let n = unsafe { udp_framing_build_time_sync_response(target.as_mut_ptr(), target.len(), id, t1, t2, t3) };
        hold("build_time_sync_response", &|| format!("{:?} {} {} {} {}", before, id, t1, t2, t3), placed(build_time_sync_response(id, t1, t2, t3), &before), (n, target));
    }
    println!("build_time_sync_request: {} cases equal", count);
    println!("build_time_sync_response: {} cases equal", count);
}

fn parses(r: &mut Random, count: u64) {
    let mut found = 0;
    for _ in 0..count {
        let p = r.packet();
        let request = parse_time_sync_request(&p).map(|(id, t1)| vec![id as u64, t1]);
        let response = parse_time_sync_response(&p).map(|(id, t1, t2, t3)| vec![id as u64, t1, t2, t3]);
        found += request.is_some() as u64 + response.is_some() as u64;
        hold("parse_time_sync_request", &|| format!("{:?}", p), (request, true), read::<2>(&p, udp_framing_parse_time_sync_request));
        hold("parse_time_sync_response", &|| format!("{:?}", p), (response, true), read::<4>(&p, udp_framing_parse_time_sync_response));
    }
    println!("parse_time_sync_request: {} cases equal", count);
    println!("parse_time_sync_response: {} cases equal, {} packets of either accepted", count, found);
}

fn clocks(r: &mut Random, count: u64) {
    let edges = [0, 1, 2, (1 << 63) - 1, 1 << 63, (1 << 63) + 1, u64::MAX - 1, u64::MAX];
    let mut held = 0;
    let mut one = |t1, t2, t3, t4| {
        let ours = unsafe { (udp_framing_clock_offset(t1, t2, t3, t4), udp_framing_clock_rtt(t1, t2, t3, t4)) };
        hold("clock_offset_rtt", &|| format!("{} {} {} {}", t1, t2, t3, t4), clock_offset_rtt(t1, t2, t3, t4), ours);
        held += 1;
    };
    for &t1 in &edges {
        for &t2 in &edges {
            for &t3 in &edges {
                for &t4 in &edges {
                    one(t1, t2, t3, t4);
                }
            }
        }
    }
    for _ in 0..count {
        let (t1, t2, t3, t4) = (r.number(), r.number(), r.number(), r.number());
        one(t1, t2, t3, t4);
        // a probe between clocks that are near each other
        let near = |r: &mut Random| t1.wrapping_add(r.below(2001)).wrapping_sub(1000);
        let (a, b, c) = (near(r), near(r), near(r));
        one(t1, a, b, c);
    }
    println!("clock_offset_rtt: {} cases equal", held);
}

fn main() {
    let mut arguments = std::env::args().skip(1).map(|a| a.parse::<u64>().expect("a number"));
    let seed = arguments.next().unwrap_or(1);
    let count = arguments.next().unwrap_or(1_000_000);
    let mut r = Random::new(seed);
    headers(&mut r, count);
    validity(&mut r, count);
    send_times(&mut r, count);
    builds(&mut r, count);
    parses(&mut r, count);
    clocks(&mut r, count);
    println!("all equal, seed {}", seed);
}
