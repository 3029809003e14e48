//! The same as `buffer.rattle`, in Rust's `BTreeMap`.
use std::collections::BTreeMap;
use std::hint::black_box;
use std::time::Instant;

const MESSAGES: u64 = 10_000;
const ROUNDS: u64 = 20;
const LOOK_UPS: u64 = 2_000_000;

/// The key of a message: the tenant's index in four bytes, then sixteen of its own.
fn key_of(index: u64) -> [u8; 20] {
    let mut key = *b"\0\0\0\x01key:000000000000";
    key[16..].copy_from_slice(&(index as u32).to_be_bytes());
    key
}

fn main() {
    let start = Instant::now();
    let mut buffer = BTreeMap::new();
    for _ in 0..ROUNDS {
        buffer.clear();
        for turn in 0..MESSAGES {
            let key = key_of(turn * 7_919 % MESSAGES);
            buffer.insert((key.to_vec(), 1u64), vec![b'v'; 63]);
        }
    }
    let pushed = start.elapsed().as_nanos() as u64 / (ROUNDS * MESSAGES);
    let start = Instant::now();
    let (mut state, mut found) = (7u64, 0u64);
    for _ in 0..LOOK_UPS {
        state = state
            .wrapping_mul(6_364_136_223_846_793_005)
            .wrapping_add(1_442_695_040_888_963_407);
        let key = key_of(state / 8_589_934_592 % MESSAGES);
        let from = (key.to_vec(), 0u64);
        if let Some((place, value)) = buffer.range(from..).next() {
            found += (place.0 == key && black_box(value).len() == 63) as u64;
        }
    }
    let looked = start.elapsed().as_nanos() as u64 / LOOK_UPS;
    println!("BTreeMap: {pushed} nanoseconds a push, {looked} a look-up, {found} found");
}
