//! The loops of `crates/bench/src/turn_loops.rt` in plain Rust, with `std::sync::Mutex`.
use plain::timed;
use std::hint::black_box;
use std::sync::Mutex;

const TURNS: u64 = 8_000_000;

fn count(counter: &Mutex<u64>, turns: u64) -> u64 {
    let mut last = 0;
    for _ in 0..turns {
        let mut value = counter.lock().unwrap();
        *value = value.wrapping_add(1);
        last = *value;
    }
    last
}

fn by_one(turns: u64) -> u64 {
    count(&Mutex::new(0), turns)
}

fn by_four(turns: u64) -> u64 {
    let counter = Mutex::new(0);
    std::thread::scope(|scope| {
        for _ in 0..4 {
            scope.spawn(|| count(&counter, turns / 4));
        }
    });
    count(&counter, 1)
}

fn main() {
    timed("turns1", None, || by_one(black_box(TURNS)));
    timed("turns4", None, || by_four(black_box(TURNS)));
}
