//! What the plain programs share: the tree of tiles, bits, the files of a tileset, walks over them, tilesets that
//! are made, and the commands that read an input.
pub mod batch;
pub mod bits;
pub mod make;
pub mod morton;
pub mod replay;
pub mod request;
pub mod steps;
pub mod subtree;
pub mod tileset;
pub mod tree;
pub mod walk;

use std::hint::black_box;
use std::time::Instant;

/// Times a loop: its checksum goes to standard output, behind it the bytes that it read where it reads files, and its time in
/// microseconds to standard error.
pub fn timed(name: &str, bytes: Option<u64>, work: impl FnOnce() -> u64) {
    let start = Instant::now();
    let checksum = black_box(work());
    let time = start.elapsed();
    match bytes {
        Some(bytes) => println!("{name} {checksum} {bytes}"),
        None => println!("{name} {checksum}"),
    }
    eprintln!("{name} {}", time.as_micros());
}
