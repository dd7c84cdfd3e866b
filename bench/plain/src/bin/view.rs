//! The commands of view in plain Rust, over good command lines and layouts: the same text, the same files. `tiles` keeps all
//! subtrees, or only as many as FRAMES in the environment says.
use plain::make::Recipe;
use plain::tree::Region;
use plain::walk::{End, Folder, Scene};
use plain::{batch, replay};
use std::collections::HashMap;
use std::io::Read;
use std::{env, fs, io};

const MOST_INPUT: u64 = 1_048_576;

fn corner(word: &str) -> [u32; 3] {
    let mut corner = [0; 3];
    for (axis, number) in word.split(',').enumerate() {
        corner[axis] = number.parse().expect("a coordinate");
    }
    corner
}

fn tiles(level: &str, lo: &str, hi: &str) -> io::Result<()> {
    let level = level.parse().expect("a level");
    let frames = env::var("FRAMES").ok().map(|frames| frames.parse().expect("how many frames"));
    Scene::open(Folder)?.tiles(&Region { level, lo: corner(lo), hi: corner(hi) }, frames)
}

fn make(recipe: &Recipe) -> io::Result<()> {
    let (files, tiles) = recipe.make(|name, bytes| fs::write(name, bytes))?;
    println!("made\t{files}\t{tiles}");
    Ok(())
}

fn survey(recipe: &Recipe) -> io::Result<()> {
    let mut kept = HashMap::new();
    let (files, tiles) = recipe.make(|name, bytes| {
        kept.insert(name, bytes);
        Ok(())
    })?;
    let scene = Scene::open(kept)?;
    let last = (1 << (recipe.levels - 1)) - 1;
    let mut hi = [last; 3];
    hi[scene.scheme().axes() as usize..].fill(0);
    let (mut listed, mut contents) = (0, 0);
    let end = scene.walk(&Region { level: recipe.levels - 1, lo: [0; 3], hi }, |tile| {
        listed += 1;
        contents += tile.mask.count_ones();
        Ok(())
    })?;
    let state = if let End::TooMany = end { "too-many" } else { "complete" };
    println!("survey\t{files}\t{tiles}\t{listed}\t{contents}\t{state}");
    Ok(())
}

fn input() -> io::Result<Vec<u8>> {
    let mut input = Vec::new();
    io::stdin().lock().take(MOST_INPUT + 1).read_to_end(&mut input)?;
    assert!(input.len() as u64 <= MOST_INPUT, "the input is too long");
    Ok(input)
}

fn number(word: &str) -> usize {
    word.parse().expect("a number")
}

fn main() -> io::Result<()> {
    let words: Vec<String> = env::args().skip(1).collect();
    let words: Vec<&str> = words.iter().map(String::as_str).collect();
    match words.as_slice() {
        ["tiles", level, lo, hi] => tiles(level, lo, hi),
        ["check"] => Scene::open(Folder)?.check(),
        ["make", recipe @ ..] => make(&Recipe::read(recipe).expect("a recipe")),
        ["survey", recipe @ ..] => survey(&Recipe::read(recipe).expect("a recipe")),
        ["replay", frames, passes] => replay::replay(&Scene::open(Folder)?, number(frames), number(passes), &input()?, io::stdout().lock()),
        ["batch", workers, frames] => batch::batch(&Scene::open(Folder)?, number(workers), number(frames), &input()?, io::stdout().lock()),
        _ => panic!("no such command"),
    }
}
