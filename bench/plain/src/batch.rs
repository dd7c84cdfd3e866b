//! The command `batch`: the lines of an input answered by several threads, who share subtrees and whole answers.
use crate::request::{lines, region_of};
use crate::subtree::{Outcome, Subtree};
use crate::tree::Region;
use crate::walk::{End, Files, Node, Scene, Tile, MOST_TILES, PIECE};
use std::collections::{BTreeMap, HashMap};
use std::hash::Hash;
use std::io::{self, BufWriter, Write};
use std::mem::{replace, take};
use std::slice::from_ref;
use std::sync::mpsc::{sync_channel, SyncSender};
use std::sync::{Arc, Mutex};
use std::thread;

// How many answers are kept.
const PLANS: usize = 64;
// The most lines that a worker takes at once, and the most pieces of its text that wait to be written.
const MOST_LINES: usize = 64;
const MOST_PIECES: usize = 128;

type Slot<V> = Arc<Mutex<Option<Arc<V>>>>;

// The values that were asked for last. Who asks for one that isn't there makes it, and who asks for it meanwhile waits.
struct Cache<K, V> {
    most: usize,
    kept: Mutex<Kept<K, V>>,
}

// Each key has a number, which rises with each question; the key of least number is the one to leave.
struct Kept<K, V> {
    asked: u64,
    slots: HashMap<K, (u64, Slot<V>)>,
    keys: BTreeMap<u64, K>,
}

impl<K: Copy + Eq + Hash, V> Cache<K, V> {
    fn new(most: usize) -> Cache<K, V> {
        Cache { most, kept: Mutex::new(Kept { asked: 0, slots: HashMap::with_capacity(most), keys: BTreeMap::new() }) }
    }

    fn get(&self, key: K, make: impl FnOnce() -> io::Result<V>) -> io::Result<Arc<V>> {
        let slot = self.slot(key);
        let mut value = slot.lock().unwrap();
        if let Some(value) = &*value {
            return Ok(value.clone());
        }
        let made = Arc::new(make()?);
        *value = Some(made.clone());
        Ok(made)
    }

    fn slot(&self, key: K) -> Slot<V> {
        let Kept { asked, slots, keys } = &mut *self.kept.lock().unwrap();
        *asked += 1;
        keys.insert(*asked, key);
        if let Some((before, slot)) = slots.get_mut(&key) {
            keys.remove(before);
            *before = *asked;
            return slot.clone();
        }
        if slots.len() == self.most {
            if let Some((_, oldest)) = keys.pop_first() {
                slots.remove(&oldest);
            }
        }
        slots.entry(key).or_insert((*asked, Slot::default())).1.clone()
    }
}

struct Answer {
    tiles: Vec<Tile>,
    end: End,
}

impl<F: Files> Scene<F> {
    // The answer for a region. Each subtree is asked for once, and none is kept.
    fn answer(&self, region: &Region, read: impl Fn(u32, Node) -> io::Result<Arc<Outcome>>) -> io::Result<Answer> {
        let levels = self.layout.subtree_levels;
        let (mut tiles, mut level, mut roots) = (Vec::new(), 0, vec![Node::ROOT]);
        while !roots.is_empty() {
            // The tiles of each level of these roots' subtrees, as far down as they are needed.
            let mut rows = vec![Vec::new(); levels.min(region.level + 1 - level) as usize];
            let mut below = Vec::new();
            for root in take(&mut roots) {
                match &*read(level, root)? {
                    Ok(subtree) => self.collect(region, level, root, subtree, root.within(), 0, &mut rows, &mut below),
                    Err(number) => {
                        tiles.append(&mut rows[0]);
                        return Ok(Answer { tiles, end: End::Fault { number: *number, level, root } });
                    }
                }
                let mut found = tiles.len();
                let too_many = rows.iter().position(|row| {
                    found += row.len();
                    found > MOST_TILES
                });
                match too_many {
                    Some(0) => break,
                    Some(local) => rows.truncate(local + 1),
                    None => {}
                }
            }
            for mut row in rows {
                tiles.append(&mut row);
            }
            if tiles.len() > MOST_TILES {
                tiles.truncate(MOST_TILES);
                return Ok(Answer { tiles, end: End::TooMany });
            }
            level += levels;
            roots = below;
        }
        Ok(Answer { tiles, end: End::Complete })
    }

    // The tiles of a subtree in the region, from a node of it down, and the roots of its child subtrees there.
    #[allow(clippy::too_many_arguments)]
    fn collect(
        &self,
        region: &Region,
        level: u32,
        root: Node,
        subtree: &Subtree,
        node: Node,
        local: u32,
        rows: &mut [Vec<Tile>],
        below: &mut Vec<Node>,
    ) {
        let place = self.scheme().nodes_above(local) + node.index;
        if !subtree.tiles.get(place) || !region.meets(level + local, node.coordinates) {
            return;
        }
        rows[local as usize].push(Tile::new(level + local, &node, subtree, place));
        if local as usize + 1 < rows.len() {
            for child in node.children(self.scheme()) {
                self.collect(region, level, root, subtree, child, local + 1, rows, below);
            }
        } else if local + 1 == self.layout.subtree_levels && level + local < region.level {
            self.append_children(region, level + local + 1, root, subtree, from_ref(&node), below);
        }
    }
}

// Some of a worker's text. The last piece of some lines ends them.
struct Piece {
    text: String,
    is_last: bool,
}

struct Batch<'s, F> {
    scene: &'s Scene<F>,
    subtrees: Cache<(u32, u64), Outcome>,
    answers: Cache<Region, Answer>,
}

impl<F: Files> Batch<'_, F> {
    fn answer(&self, region: Region) -> io::Result<Arc<Answer>> {
        let read = |level, root: Node| self.subtrees.get((level, root.index), || self.scene.read(level, root));
        self.answers.get(region, || self.scene.answer(&region, read))
    }

    // Gives the blocks of these lines. None where nobody takes them any more.
    fn work(&self, lines: &[&[u8]], pieces: &SyncSender<Piece>) -> Option<()> {
        let mut text = String::new();
        for line in lines {
            match region_of(&self.scene.layout, line) {
                Ok(region) => match self.answer(region) {
                    Ok(answer) => {
                        for tile in &answer.tiles {
                            self.scene.append_line(tile, &mut text);
                            if text.len() >= PIECE {
                                let text = replace(&mut text, String::with_capacity(2 * PIECE));
                                pieces.send(Piece { text, is_last: false }).ok()?;
                            }
                        }
                        self.scene.append_end(answer.end, answer.tiles.len(), &mut text);
                    }
                    Err(_) => text.push_str("read-fault\n"),
                },
                Err(number) => {
                    text.push_str("refused\t");
                    text.push_str(itoa::Buffer::new().format(number));
                    text.push('\n');
                }
            }
        }
        pieces.send(Piece { text, is_last: true }).ok()
    }
}

/// Writes the block of each line of an input, answered by so many workers who share so many subtrees.
pub fn batch<F: Files + Sync>(scene: &Scene<F>, workers: usize, frames: usize, input: &[u8], out: impl Write) -> io::Result<()> {
    let lines: Vec<&[u8]> = lines(input).collect();
    // Each worker has several turns, which come round in the order of the lines.
    let size = (lines.len() / (8 * workers)).clamp(1, MOST_LINES);
    let batch = &Batch { scene, subtrees: Cache::new(frames), answers: Cache::new(PLANS) };
    let mut out = BufWriter::with_capacity(PIECE, out);
    thread::scope(|scope| {
        let start = |worker| {
            let (sender, receiver) = sync_channel(MOST_PIECES);
            let mut turns = lines.chunks(size).skip(worker).step_by(workers);
            scope.spawn(move || turns.try_for_each(|lines| batch.work(lines, &sender)));
            receiver
        };
        let receivers: Vec<_> = (0..workers).map(start).collect();
        for (_, pieces) in lines.chunks(size).zip(receivers.iter().cycle()) {
            loop {
                let piece = pieces.recv().expect("the blocks of some lines");
                out.write_all(piece.text.as_bytes())?;
                if piece.is_last {
                    break;
                }
            }
        }
        out.flush()
    })
}
