// The payloads and routes of main.rt, judged by a plain walk over all payloads.
use std::time::Instant;

#[derive(Clone, Copy, PartialEq)]
struct Payload { asn: u32, address: u128, length: u8, max: u8 }

fn next(x: u64) -> u64 {
    x.wrapping_mul(6_364_136_223_846_793_005).wrapping_add(1_442_695_040_888_963_407)
}

fn address_of(x: u64, length: u8) -> u128 {
    ((x >> 32) as u128) << 96 >> (128 - length) << (128 - length)
}

fn payload_of(x: u64) -> Payload {
    let length = 8 + ((x >> 8) % 17) as u8;
    Payload { asn: 64_496 + ((x >> 25) % 16) as u32, address: address_of(x, length), length, max: 24 + ((x >> 16) % 9) as u8 }
}

fn main() {
    let mut list: Vec<Payload> = Vec::new();
    let mut x: u64 = 1;
    while list.len() < 4096 {
        x = next(x);
        let p = payload_of(x);
        if !list.contains(&p) { list.push(p); }
    }
    let start = Instant::now();
    let mut counts = [0u64; 3];
    for _ in 0..1_000_000 {
        x = next(x);
        let origin = 64_496 + ((x >> 25) % 16) as u32;
        let address = address_of(x, 24);
        let mut verdict = 2;
        for p in &list {
            if p.length <= 24 && (p.address ^ address) >> (128 - p.length) == 0 {
                verdict = 1;
                if p.max >= 24 && p.asn == origin && origin != 0 { verdict = 0; break; }
            }
        }
        counts[verdict] += 1;
    }
    println!("1000000 judgements by a plain walk in Rust: {:?} ({} valid, {} invalid, {} not found)", start.elapsed(), counts[0], counts[1], counts[2]);
}
