//! The loops of `crates/bench/src/bits_loops.rt` in plain Rust, by the same words.
use plain::bits::Bits;
use plain::timed;
use std::hint::black_box;

const BYTES: usize = 37_450;
const COUNTS: u64 = 50_000;
const WALKS: u64 = 5_000;

fn filled(step: usize) -> Bits {
    let mut bytes = vec![0u8; BYTES];
    for (place, byte) in bytes.iter_mut().enumerate() {
        if place % step == step - 1 {
            *byte = 1 << (place / step % 8);
        }
    }
    Bits::Bytes { bytes, count: 8 * BYTES as u64 }
}

fn sum_of_counts(bits: &Bits, counts: u64) -> u64 {
    let count = bits.count();
    let mut sum = 0u64;
    for call in 0..counts {
        sum = sum.wrapping_add(bits.ones(count - call % 100));
    }
    sum
}

fn sum_of_walks(bits: &Bits, walks: u64) -> u64 {
    let mut sum = 0u64;
    for walk in 0..walks {
        sum = sum.wrapping_add(sum_of_places(bits, walk % 64));
    }
    sum
}

fn sum_of_places(bits: &Bits, first: u64) -> u64 {
    let end = bits.count();
    let mut sum = 0u64;
    let mut from = first;
    while let Some(place) = bits.next_one(from, end) {
        sum = sum.wrapping_add(place);
        from = place + 1;
    }
    sum
}

fn main() {
    let dense = black_box(filled(2));
    let sparse = black_box(filled(512));
    timed("ones", None, || sum_of_counts(&dense, black_box(COUNTS)));
    timed("next_one", None, || sum_of_walks(&sparse, black_box(WALKS)));
    timed("next_near", None, || sum_of_walks(&dense, black_box(WALKS / 100)));
}
