//! The loops of `crates/bench/src/morton_loops.rt` in plain Rust, by the same masks.
use plain::morton::{coords3, index3};
use plain::timed;
use std::hint::black_box;

const CALLS: u64 = 50_000_000;
const COORDINATE_END: u64 = 1 << 21;

fn sum_of_indices(calls: u64) -> u64 {
    let mut sum = 0u64;
    for call in 0..calls {
        let x = (call % COORDINATE_END) as u32;
        let y = ((call >> 5) % COORDINATE_END) as u32;
        let z = ((call >> 11) % COORDINATE_END) as u32;
        sum = sum.wrapping_add(index3(x, y, z));
    }
    sum
}

fn sum_of_coordinates(calls: u64) -> u64 {
    let mut sum = 0u64;
    for call in 0..calls {
        let (x, y, z) = coords3(call << 20 >> 1);
        sum = sum.wrapping_add(x as u64 + y as u64 + z as u64);
    }
    sum
}

fn main() {
    timed("index3", None, || sum_of_indices(black_box(CALLS)));
    timed("coords3", None, || sum_of_coordinates(black_box(CALLS)));
}
