//! The loops of `crates/bench/src/decode_loops.rt` in plain Rust, by the crate serde_json: the same members are read of the
//! same JSON, and the same bits are copied, counted and compared.
use plain::subtree::{decode, Subtree};
use plain::tileset::Layout;
use plain::timed;
use plain::tree::Scheme;
use std::hint::black_box;
use std::io;

const NODE_BYTES: usize = 37_450;
const FIRST_VIEW: &str = "{\"bufferViews\":[{\"buffer\":0,\"byteLength\":37450,\"byteOffset\":0}";
const NEXT_VIEW: &str = ",{\"buffer\":0,\"byteLength\":37450,\"byteOffset\":0}";
const MEMBERS: &str = "],\"buffers\":[{\"byteLength\":37450}],\"childSubtreeAvailability\":{\"constant\":1},\"contentAvailability\":[{\"constant\":1}],\"tileAvailability\":{\"availableCount\":299593,\"bitstream\":0},\"extras\":\"";
const SENTENCE: &str = "Nothing reads this text. ";

fn file(views: usize, sentences: usize) -> Vec<u8> {
    let mut json = [FIRST_VIEW, &NEXT_VIEW.repeat(views), MEMBERS, &SENTENCE.repeat(sentences), "\"}"].concat().into_bytes();
    json.resize(json.len().next_multiple_of(8), b' ');
    let mut binary = vec![0xFF; NODE_BYTES];
    binary.resize(NODE_BYTES.next_multiple_of(8), 0);
    let mut bytes = b"subt\x01\0\0\0".to_vec();
    bytes.extend_from_slice(&(json.len() as u64).to_le_bytes());
    bytes.extend_from_slice(&(binary.len() as u64).to_le_bytes());
    bytes.extend_from_slice(&json);
    bytes.extend_from_slice(&binary);
    bytes
}

// The files have no outer buffers.
fn no_file(_uri: &str, _most: u64) -> io::Result<Result<Vec<u8>, u64>> {
    Ok(Err(1))
}

fn sum_of_decodes(layout: &Layout, file: &[u8], calls: u64) -> u64 {
    let mut sum = 0u64;
    for _ in 0..calls {
        if let Ok(Ok(subtree)) = decode(layout, 0, file, &no_file) {
            sum = sum.wrapping_add(sum_of_bits(&subtree));
        }
    }
    sum
}

fn sum_of_bits(subtree: &Subtree) -> u64 {
    let tiles = subtree.tiles.ones(subtree.tiles.count());
    let child = subtree.child.ones(subtree.child.count());
    tiles.wrapping_add(child).wrapping_add(subtree.contents.len() as u64)
}

fn time_decodes(name: &str, file: Vec<u8>, calls: u64) {
    let contents = vec![String::from("c")];
    let layout = Layout { scheme: Scheme::Oct, subtree_levels: 7, levels: 18, subtree: String::from("s"), contents };
    timed(name, Some(calls * file.len() as u64), || sum_of_decodes(black_box(&layout), black_box(&file), black_box(calls)));
}

fn main() {
    time_decodes("decode_bits", file(0, 0), 20_000);
    time_decodes("decode_views", file(356_000, 0), 3);
    time_decodes("decode_text", file(0, 669_000), 30);
}
