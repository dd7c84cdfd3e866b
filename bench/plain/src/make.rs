//! The files of a generated tileset: the same as those of `view make`, byte for byte.
use crate::tree::Scheme;
use std::collections::HashMap;
use std::fmt::Write;
use std::io;

pub struct Recipe {
    pub scheme: Scheme,
    pub levels: u32,
    pub subtree_levels: u32,
    pub contents: u32,
    pub points: u64,
    pub number: u64,
}

// The bits of a subtree that are 1, by place: of its tiles with their levels, and of its child subtrees.
#[derive(Default)]
struct Places {
    tiles: Vec<(u64, u32)>,
    children: Vec<u64>,
}

// The binary part of a file and its views.
#[derive(Default)]
struct Streams {
    views: Vec<String>,
    bytes: Vec<u8>,
}

impl Streams {
    fn availability(&mut self, places: &[u64], count: u64) -> String {
        if places.is_empty() || places.len() as u64 == count {
            return format!("{{\"constant\":{}}}", u32::from(!places.is_empty()));
        }
        let start = self.bytes.len();
        let size = count.div_ceil(8) as usize;
        self.bytes.resize(start + size.next_multiple_of(8), 0);
        for place in places {
            self.bytes[start + (place / 8) as usize] |= 1 << (place % 8);
        }
        self.views.push(format!("{{\"buffer\":0,\"byteLength\":{size},\"byteOffset\":{start}}}"));
        format!("{{\"availableCount\":{},\"bitstream\":{}}}", places.len(), self.views.len() - 1)
    }
}

impl Recipe {
    pub fn read(words: &[&str]) -> Option<Recipe> {
        let [scheme, levels, subtree_levels, contents, points, number] = words else {
            return None;
        };
        Some(Recipe {
            scheme: if *scheme == "quadtree" { Scheme::Quad } else { Scheme::Oct },
            levels: levels.parse().ok()?,
            subtree_levels: subtree_levels.parse().ok()?,
            contents: contents.parse().ok()?,
            points: points.parse().ok()?,
            number: number.parse().ok()?,
        })
    }

    /// Puts each file, `tileset.json` as the last, and answers how many files and tiles there are.
    pub fn make(&self, mut put: impl FnMut(String, Vec<u8>) -> io::Result<()>) -> io::Result<(usize, usize)> {
        let tiles = self.tiles();
        let subtrees = self.subtrees(&tiles);
        let mut files = 0;
        for &(level, index) in tiles.iter().filter(|(level, _)| level % self.subtree_levels == 0) {
            put(self.name(level, index), self.subtree_file(&subtrees[&(level, index)]))?;
            files += 1;
        }
        put(String::from("tileset.json"), self.tileset_json().into_bytes())?;
        Ok((files + 1, tiles.len()))
    }

    // The level and index of each tile, in key order.
    fn tiles(&self) -> Vec<(u32, u64)> {
        let last = self.levels - 1;
        let side = 1 << last;
        let mut tiles = Vec::new();
        for k in 0..self.points {
            let point = [self.number + 40503 * k, 3 * self.number + 30011 * k, 7 * self.number + 20011 * k];
            let index = self.scheme.index(point.map(|sum| (sum % side) as u32));
            for level in 0..self.levels {
                tiles.push((level, index >> (self.scheme.axes() * (last - level))));
            }
        }
        tiles.sort_unstable();
        tiles.dedup();
        tiles
    }

    fn subtrees(&self, tiles: &[(u32, u64)]) -> HashMap<(u32, u64), Places> {
        let axes = self.scheme.axes();
        let mut subtrees: HashMap<(u32, u64), Places> = HashMap::new();
        for &(level, index) in tiles {
            let local = level % self.subtree_levels;
            let within = index & (self.scheme.nodes_at(local) - 1);
            let root = (level - local, index >> (axes * local));
            subtrees.entry(root).or_default().tiles.push((self.scheme.nodes_above(local) + within, level));
            if local == 0 && level > 0 {
                let above = (level - self.subtree_levels, index >> (axes * self.subtree_levels));
                subtrees.entry(above).or_default().children.push(index & (self.scheme.nodes_at(self.subtree_levels) - 1));
            }
        }
        subtrees
    }

    fn name(&self, level: u32, index: u64) -> String {
        let mut name = format!("s.{level}");
        for coordinate in &self.scheme.coordinates(index)[..self.scheme.axes() as usize] {
            write!(name, ".{coordinate}").unwrap();
        }
        name + ".subtree"
    }

    fn tileset_json(&self) -> String {
        let (scheme, end) = match self.scheme {
            Scheme::Quad => ("QUADTREE", ".{level}.{x}.{y}"),
            Scheme::Oct => ("OCTREE", ".{level}.{x}.{y}.{z}"),
        };
        let uris: Vec<String> = (0..self.contents).map(|c| format!("{{\"uri\":\"c{c}{end}.glb\"}}")).collect();
        let content = match uris.len() {
            0 => String::new(),
            1 => format!("\"content\":{},", uris[0]),
            _ => format!("\"contents\":[{}],", uris.join(",")),
        };
        format!(
            "{{\"asset\":{{\"version\":\"1.1\"}},\"geometricError\":1,\"root\":{{\"boundingVolume\":{{\"box\":[0,0,0,1,0,0,0,1,0,0,0,1]}},{content}\"geometricError\":1,\"implicitTiling\":{{\"availableLevels\":{},\"subdivisionScheme\":\"{scheme}\",\"subtreeLevels\":{},\"subtrees\":{{\"uri\":\"s{end}.subtree\"}}}},\"refine\":\"ADD\"}}}}",
            self.levels, self.subtree_levels
        )
    }

    fn subtree_file(&self, subtree: &Places) -> Vec<u8> {
        let nodes = self.scheme.nodes_above(self.subtree_levels);
        let mut streams = Streams::default();
        let places: Vec<u64> = subtree.tiles.iter().map(|(place, _)| *place).collect();
        let tiles = streams.availability(&places, nodes);
        let contents: Vec<String> = (1..=self.contents)
            .map(|number| {
                let places: Vec<u64> = subtree.tiles.iter().filter(|(_, level)| level % number == 0).map(|(place, _)| *place).collect();
                streams.availability(&places, nodes)
            })
            .collect();
        let children = streams.availability(&subtree.children, self.scheme.nodes_at(self.subtree_levels));
        let mut json = String::from("{");
        if !streams.views.is_empty() {
            write!(json, "\"bufferViews\":[{}],\"buffers\":[{{\"byteLength\":{}}}],", streams.views.join(","), streams.bytes.len()).unwrap();
        }
        write!(json, "\"childSubtreeAvailability\":{children},").unwrap();
        if !contents.is_empty() {
            write!(json, "\"contentAvailability\":[{}],", contents.join(",")).unwrap();
        }
        write!(json, "\"tileAvailability\":{tiles}}}").unwrap();
        while json.len() % 8 != 0 {
            json.push(' ');
        }
        let mut bytes = b"subt\x01\0\0\0".to_vec();
        bytes.extend_from_slice(&(json.len() as u64).to_le_bytes());
        bytes.extend_from_slice(&(streams.bytes.len() as u64).to_le_bytes());
        bytes.extend_from_slice(json.as_bytes());
        bytes.extend_from_slice(&streams.bytes);
        bytes
    }
}
