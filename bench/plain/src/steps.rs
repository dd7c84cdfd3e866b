//! A walk that stops before each of its steps. A step is one level of one subtree.
use crate::subtree::Subtree;
use crate::tree::Region;
use crate::walk::{End, Files, Node, Scene, Tile, MOST_TILES};
use std::mem::take;

pub struct Steps {
    region: Region,
    // The level of the roots, and the local level and the place of the next step's root.
    level: u32,
    local: u32,
    place: usize,
    roots: Vec<Node>,
    below: Vec<Node>,
    found: usize,
    end: Option<End>,
}

impl Steps {
    pub fn new(region: Region) -> Steps {
        Steps { region, level: 0, local: 0, place: 0, roots: vec![Node::ROOT], below: Vec::new(), found: 0, end: None }
    }

    pub fn end(&self) -> Option<End> {
        self.end
    }

    /// The root whose subtree the next step needs, and its level. The walk hasn't ended.
    pub fn root(&self) -> (u32, Node) {
        (self.level, self.roots[self.place])
    }

    /// The walk ends at its next root, whose file has this fault.
    pub fn stop(&mut self, number: u64) {
        let (level, root) = self.root();
        self.end = Some(End::Fault { number, level, root });
    }

    /// Makes the next step over the subtree of its root, and appends the tiles that it gives.
    pub fn step<F: Files>(&mut self, scene: &Scene<F>, subtree: &Subtree, tiles: &mut Vec<Tile>) {
        let (level, root) = self.root();
        let (local, levels) = (self.local, scene.layout.subtree_levels);
        let mut nodes = Vec::new();
        scene.descend(&self.region, level, subtree, root.within(), 0..local, &mut nodes);
        let above = scene.scheme().nodes_above(local);
        let left = MOST_TILES - self.found;
        tiles.extend(nodes.iter().take(left).map(|node| Tile::new(level + local, node, subtree, above + node.index)));
        if nodes.len() > left {
            self.end = Some(End::TooMany);
            return;
        }
        self.found += nodes.len();
        if local + 1 == levels && level + levels <= self.region.level {
            scene.append_children(&self.region, level + levels, root, subtree, &nodes, &mut self.below);
        }
        self.go_on(levels);
    }

    fn go_on(&mut self, levels: u32) {
        self.place += 1;
        if self.place < self.roots.len() {
            return;
        }
        self.place = 0;
        self.local += 1;
        if self.local == levels || self.level + self.local > self.region.level {
            self.level += levels;
            self.local = 0;
            self.roots = take(&mut self.below);
            if self.roots.is_empty() {
                self.end = Some(End::Complete);
            }
        }
    }
}
