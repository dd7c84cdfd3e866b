//! Tiles by level, coordinates and Morton index.
use crate::morton::{coords2, coords3, index2, index3};

#[derive(Clone, Copy, PartialEq, Eq)]
pub enum Scheme {
    Quad,
    Oct,
}

impl Scheme {
    pub fn axes(self) -> u32 {
        match self {
            Scheme::Quad => 2,
            Scheme::Oct => 3,
        }
    }

    pub fn nodes_at(self, level: u32) -> u64 {
        1 << (self.axes() * level)
    }

    pub fn nodes_above(self, level: u32) -> u64 {
        (self.nodes_at(level) - 1) / (self.nodes_at(1) - 1)
    }

    pub fn index(self, [x, y, z]: [u32; 3]) -> u64 {
        match self {
            Scheme::Quad => index2(x, y),
            Scheme::Oct => index3(x, y, z),
        }
    }

    pub fn coordinates(self, index: u64) -> [u32; 3] {
        match self {
            Scheme::Quad => {
                let (x, y) = coords2(index);
                [x, y, 0]
            }
            Scheme::Oct => {
                let (x, y, z) = coords3(index);
                [x, y, z]
            }
        }
    }
}

/// A box of tile coordinates at a level, both corners inside.
#[derive(Clone, Copy, PartialEq, Eq, Hash)]
pub struct Region {
    pub level: u32,
    pub lo: [u32; 3],
    pub hi: [u32; 3],
}

impl Region {
    pub fn meets(&self, level: u32, coordinates: [u32; 3]) -> bool {
        let shift = self.level - level;
        (0..3).all(|axis| self.lo[axis] >> shift <= coordinates[axis] && coordinates[axis] <= self.hi[axis] >> shift)
    }
}
