//! The walks over a tileset whose `tileset.json` has no fault: `tiles` and `check`. Each subtree file is read once, but by
//! `tiles` over a few frames.
use crate::steps::Steps;
use crate::subtree::{decode, Outcome, Subtree};
use crate::tileset::{path_of, Layout, Template};
use crate::tree::{Region, Scheme};
use std::collections::HashMap;
use std::fs::File;
use std::io::{self, ErrorKind, Read, Write};
use std::ops::Range;

pub const MOST_TILES: usize = 65536;
const MOST_ROOTS: usize = 65536;
const MOST_BYTES: u64 = 16_777_216;
/// Text is written once it has so many bytes.
pub const PIECE: usize = 32768;

/// Where files come from. The inner error is the fault of a file that is missing or too long.
pub trait Files {
    fn fetch(&self, name: &str, most: u64) -> io::Result<Result<Vec<u8>, u64>>;
}

/// The current folder.
pub struct Folder;

impl Files for Folder {
    fn fetch(&self, name: &str, most: u64) -> io::Result<Result<Vec<u8>, u64>> {
        let file = match File::open(&*path_of(name)) {
            Ok(file) => file,
            Err(error) if error.kind() == ErrorKind::NotFound => return Ok(Err(1)),
            Err(error) => return Err(error),
        };
        let length = file.metadata()?.len();
        if length > most {
            return Ok(Err(2));
        }
        let mut bytes = Vec::with_capacity(length as usize);
        // A file by itself would be asked for its length once more.
        file.take(most).read_to_end(&mut bytes)?;
        Ok(Ok(bytes))
    }
}

impl Files for HashMap<String, Vec<u8>> {
    fn fetch(&self, name: &str, _most: u64) -> io::Result<Result<Vec<u8>, u64>> {
        Ok(self.get(name).cloned().ok_or(1))
    }
}

/// A tile by the index within its level, or within its level of a subtree.
#[derive(Clone, Copy)]
pub struct Node {
    pub index: u64,
    pub coordinates: [u32; 3],
}

impl Node {
    pub const ROOT: Node = Node { index: 0, coordinates: [0; 3] };

    /// The root of a subtree as the first node of it.
    pub fn within(self) -> Node {
        Node { index: 0, ..self }
    }

    pub fn children(self, scheme: Scheme) -> impl Iterator<Item = Node> {
        (0..scheme.nodes_at(1)).map(move |child| Node {
            index: self.index << scheme.axes() | child,
            coordinates: [0, 1, 2].map(|axis| 2 * self.coordinates[axis] + (child >> axis & 1) as u32),
        })
    }
}

/// A tile of an answer, with a bit for each of its contents.
#[derive(Clone, Copy)]
pub struct Tile {
    pub level: u8,
    pub mask: u16,
    pub coordinates: [u32; 3],
}

impl Tile {
    /// The tile of a node of a subtree, at this place in its bitstreams.
    pub fn new(level: u32, node: &Node, subtree: &Subtree, place: u64) -> Tile {
        let mask = subtree.contents.iter().enumerate().map(|(content, bits)| u16::from(bits.get(place)) << content).sum();
        Tile { level: level as u8, mask, coordinates: node.coordinates }
    }
}

// A subtree on the walk, and its tiles of one local level.
struct Walked {
    root: Node,
    subtree: Subtree,
    nodes: Vec<Node>,
}

// A subtree by the level and the index of its root.
type Kept = (u32, u64, Subtree);

#[derive(Clone, Copy)]
pub enum End {
    Complete,
    TooMany,
    Fault { number: u64, level: u32, root: Node },
}

pub struct Scene<F> {
    files: F,
    pub layout: Layout,
    subtree: Template,
    contents: Vec<Template>,
}

// The name of a file that a URI names from the file of this name.
fn beside(name: &str, uri: &str) -> String {
    let folder = name.rfind('/').map_or(0, |slash| slash + 1);
    format!("{}{uri}", &name[..folder])
}

impl<F: Files> Scene<F> {
    pub fn open(files: F) -> io::Result<Scene<F>> {
        let bytes = files.fetch("tileset.json", MOST_BYTES)?.expect("a tileset.json");
        let layout = Layout::read(&bytes).expect("a layout");
        let axes = layout.scheme.axes();
        Ok(Scene {
            files,
            subtree: Template::new(axes, &layout.subtree),
            contents: layout.contents.iter().map(|content| Template::new(axes, content)).collect(),
            layout,
        })
    }

    pub fn scheme(&self) -> Scheme {
        self.layout.scheme
    }

    pub fn read(&self, level: u32, root: Node) -> io::Result<Outcome> {
        let mut name = String::new();
        self.subtree.fill(level, root.coordinates, &mut name);
        match self.files.fetch(&name, MOST_BYTES)? {
            Ok(bytes) => decode(&self.layout, level, &bytes, &|uri, most| self.files.fetch(&beside(&name, uri), most)),
            Err(fault) => Ok(Err(fault)),
        }
    }

    // The subtrees of these roots, up to the first faulty one, whose fault comes behind them.
    fn read_all(&self, level: u32, roots: &[Node]) -> io::Result<(Vec<Walked>, Option<End>)> {
        let mut all = Vec::with_capacity(roots.len());
        for &root in roots {
            match self.read(level, root)? {
                Ok(subtree) => {
                    let nodes = if subtree.tiles.get(0) { vec![root.within()] } else { Vec::new() };
                    all.push(Walked { root, subtree, nodes });
                }
                Err(number) => return Ok((all, Some(End::Fault { number, level, root }))),
            }
        }
        Ok((all, None))
    }

    /// Gives each tile of the region in key order, and answers how the walk ends.
    pub fn walk(&self, region: &Region, mut give: impl FnMut(Tile) -> io::Result<()>) -> io::Result<End> {
        let levels = self.layout.subtree_levels;
        let (mut level, mut found) = (0, 0);
        let mut roots = vec![Node::ROOT];
        while level <= region.level && level < self.layout.levels && !roots.is_empty() {
            let (mut all, fault) = self.read_all(level, &roots)?;
            for local in 0..levels.min(region.level + 1 - level) {
                for walked in &mut all {
                    if local > 0 {
                        self.go_down(region, level + local, local, walked);
                    }
                    let above = self.scheme().nodes_above(local);
                    for node in &walked.nodes {
                        if found == MOST_TILES {
                            return Ok(End::TooMany);
                        }
                        give(Tile::new(level + local, node, &walked.subtree, above + node.index))?;
                        found += 1;
                    }
                }
                if let Some(end) = fault {
                    return Ok(end);
                }
            }
            level += levels;
            roots = if level <= region.level { self.child_roots(region, level, &all) } else { Vec::new() };
        }
        Ok(End::Complete)
    }

    /// The same walk by a program that keeps no more than a few subtrees, those that were used last: a subtree is read again
    /// for each of its levels where it isn't kept any more.
    pub fn walk_over(&self, frames: usize, region: &Region, mut give: impl FnMut(Tile) -> io::Result<()>) -> io::Result<End> {
        let mut kept = Vec::with_capacity(frames);
        let (mut steps, mut tiles) = (Steps::new(*region), Vec::new());
        loop {
            if let Some(end) = steps.end() {
                return Ok(end);
            }
            let (level, root) = steps.root();
            match self.hold(&mut kept, frames, level, root)? {
                Ok(subtree) => steps.step(self, subtree, &mut tiles),
                Err(number) => return Ok(End::Fault { number, level, root }),
            }
            for tile in tiles.drain(..) {
                give(tile)?;
            }
        }
    }

    // The subtree of a root, which becomes the last one that is kept.
    fn hold<'k>(&self, kept: &'k mut Vec<Kept>, frames: usize, level: u32, root: Node) -> io::Result<Result<&'k Subtree, u64>> {
        match kept.iter().position(|(at, index, _)| *at == level && *index == root.index) {
            Some(place) => kept[place..].rotate_left(1),
            None => match self.read(level, root)? {
                Ok(subtree) => {
                    if kept.len() == frames {
                        kept.remove(0);
                    }
                    kept.push((level, root.index, subtree));
                }
                Err(number) => return Ok(Err(number)),
            },
        }
        Ok(Ok(&kept.last().unwrap().2))
    }

    /// The tiles of a local level that are in the region, from a node of a local level above it.
    pub fn descend(&self, region: &Region, level: u32, subtree: &Subtree, node: Node, locals: Range<u32>, nodes: &mut Vec<Node>) {
        let local = locals.start;
        if !subtree.tiles.get(self.scheme().nodes_above(local) + node.index) || !region.meets(level + local, node.coordinates) {
            return;
        }
        if local == locals.end {
            nodes.push(node);
            return;
        }
        for child in node.children(self.scheme()) {
            self.descend(region, level, subtree, child, local + 1..locals.end, nodes);
        }
    }

    // From the tiles of one local level to those of the next one.
    fn go_down(&self, region: &Region, level: u32, local: u32, walked: &mut Walked) {
        let above = self.scheme().nodes_above(local);
        let is_there = |node: &Node| walked.subtree.tiles.get(above + node.index) && region.meets(level, node.coordinates);
        walked.nodes = walked.nodes.iter().flat_map(|node| node.children(self.scheme())).filter(is_there).collect();
    }

    fn child_roots(&self, region: &Region, level: u32, all: &[Walked]) -> Vec<Node> {
        let mut roots = Vec::new();
        for Walked { root, subtree, nodes } in all {
            self.append_children(region, level, *root, subtree, nodes, &mut roots);
        }
        roots
    }

    /// The roots of the child subtrees that stand below some nodes of a subtree's last level, and are in the region.
    pub fn append_children(&self, region: &Region, level: u32, root: Node, subtree: &Subtree, nodes: &[Node], roots: &mut Vec<Node>) {
        let depth = self.scheme().axes() * self.layout.subtree_levels;
        let children = nodes.iter().flat_map(|node| node.children(self.scheme()));
        let found = children.filter(|child| subtree.child.get(child.index) && region.meets(level, child.coordinates));
        roots.extend(found.map(|child| Node { index: root.index << depth | child.index, ..child }));
    }

    /// The text of `view tiles`, by a program that keeps all subtrees, or no more than so many.
    pub fn tiles(&self, region: &Region, frames: Option<usize>) -> io::Result<()> {
        let mut stdout = io::stdout().lock();
        let mut text = String::with_capacity(2 * PIECE);
        let mut found = 0;
        let give = |tile| {
            self.append_line(&tile, &mut text);
            found += 1;
            if text.len() >= PIECE {
                stdout.write_all(text.as_bytes())?;
                text.clear();
            }
            Ok(())
        };
        let end = match frames {
            None => self.walk(region, give)?,
            Some(frames) => self.walk_over(frames, region, give)?,
        };
        self.append_end(end, found, &mut text);
        stdout.write_all(text.as_bytes())
    }

    pub fn append_line(&self, tile: &Tile, text: &mut String) {
        let mut buffer = itoa::Buffer::new();
        text.push_str(buffer.format(tile.level));
        for coordinate in &tile.coordinates[..self.scheme().axes() as usize] {
            text.push('\t');
            text.push_str(buffer.format(*coordinate));
        }
        for (place, template) in self.contents.iter().enumerate() {
            if tile.mask >> place & 1 == 1 {
                text.push('\t');
                template.fill(tile.level.into(), tile.coordinates, text);
            }
        }
        text.push('\n');
    }

    /// The last line of an answer of so many tiles.
    pub fn append_end(&self, end: End, found: usize, text: &mut String) {
        text.push_str(&match end {
            End::Complete => format!("end\tcomplete\t{found}\n"),
            End::TooMany => format!("end\ttoo-many\t{found}\n"),
            End::Fault { number, level, root } => format!("end\tfault\t{found}\t{number}\t{level}{}\n", self.listed(root)),
        });
    }

    fn listed(&self, root: Node) -> String {
        root.coordinates[..self.scheme().axes() as usize].iter().map(|coordinate| format!("\t{coordinate}")).collect()
    }

    /// The text of `view check`.
    pub fn check(&self) -> io::Result<()> {
        let levels = self.layout.subtree_levels;
        let mut text = String::new();
        let mut roots = vec![Node::ROOT];
        let (mut looked, mut faults, mut level, mut more) = (0, 0, 0, false);
        'check: while !roots.is_empty() {
            let mut next = Vec::new();
            for root in roots {
                if looked == MOST_ROOTS {
                    more = true;
                    break 'check;
                }
                looked += 1;
                match self.read(level, root)? {
                    Ok(subtree) if level + levels < self.layout.levels => self.append_roots(root, &subtree, &mut next),
                    Ok(_) => {}
                    Err(number) => {
                        faults += 1;
                        text.push_str(&format!("fault\t{number}\t{level}{}\n", self.listed(root)));
                    }
                }
            }
            roots = next;
            level += levels;
        }
        text.push_str(&format!("end\t{}\t{looked}\t{faults}\n", if more { "too-many" } else { "checked" }));
        io::stdout().lock().write_all(text.as_bytes())
    }

    fn append_roots(&self, root: Node, subtree: &Subtree, roots: &mut Vec<Node>) {
        let (scheme, levels) = (self.scheme(), self.layout.subtree_levels);
        let last = scheme.nodes_above(levels - 1);
        let mut from = 0;
        while let Some(child) = subtree.child.next_one(from, scheme.nodes_at(levels)) {
            if subtree.tiles.get(last + (child >> scheme.axes())) {
                let index = root.index << (scheme.axes() * levels) | child;
                roots.push(Node { index, coordinates: scheme.coordinates(index) });
            }
            from = child + 1;
        }
    }
}
