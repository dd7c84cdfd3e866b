//! Subtree files: the bits that they name, or the number of their first fault.
use crate::bits::Bits;
use crate::tileset::Layout;
use crate::tree::Scheme;
use serde_json::{Map, Value};
use std::io;

const HEADER_BYTES: usize = 24;
const MOST_BYTES: u64 = 16_777_216;

struct Buffer {
    length: u64,
    uri: Option<String>,
}

#[derive(Clone, Copy)]
struct View {
    buffer: u64,
    offset: u64,
    length: u64,
}

#[derive(Clone, Copy)]
enum Availability {
    Constant(bool),
    Stream { view: u64, count: Option<u64> },
}

pub struct Subtree {
    pub tiles: Bits,
    pub contents: Vec<Bits>,
    pub child: Bits,
}

/// What the file of a subtree holds: the subtree, or the number of its first fault.
pub type Outcome = Result<Subtree, u64>;

fn u64_at(bytes: &[u8], at: usize) -> u64 {
    u64::from_le_bytes(*bytes[at..].first_chunk().unwrap())
}

// The JSON part, and the bytes of the inner buffer, of which a file that is JSON alone has none.
fn parts(file: &[u8]) -> Result<(&[u8], Option<&[u8]>), u64> {
    if file.iter().find(|byte| !b" \t\r\n".contains(byte)) == Some(&b'{') {
        return Ok((file, None));
    }
    if file.len() < HEADER_BYTES {
        return Err(3);
    }
    if &file[..4] != b"subt" {
        return Err(4);
    }
    if file[4..8] != [1, 0, 0, 0] {
        return Err(5);
    }
    let json_end = (HEADER_BYTES as u64).checked_add(u64_at(file, 8)).ok_or(6u64)?;
    let end = json_end.checked_add(u64_at(file, 16)).ok_or(6u64)?;
    if end > file.len() as u64 {
        return Err(6);
    }
    Ok((&file[HEADER_BYTES..json_end as usize], Some(&file[json_end as usize..end as usize])))
}

fn buffer_of(value: &Value) -> Option<Buffer> {
    let length = value.get("byteLength")?.as_u64()?;
    let uri = match value.get("uri") {
        Some(uri) => Some(uri.as_str()?.to_string()),
        None => None,
    };
    Some(Buffer { length, uri })
}

fn view_of(value: &Value) -> Option<View> {
    let buffer = value.get("buffer")?.as_u64()?;
    let offset = value.get("byteOffset")?.as_u64()?;
    let length = value.get("byteLength")?.as_u64()?;
    Some(View { buffer, offset, length })
}

fn availability_of(value: &Value) -> Option<Availability> {
    match (value.get("constant"), value.get("bitstream")) {
        (Some(constant), None) => match constant.as_u64()? {
            0 => Some(Availability::Constant(false)),
            1 => Some(Availability::Constant(true)),
            _ => None,
        },
        (None, Some(bitstream)) => {
            let count = match value.get("availableCount") {
                Some(count) => Some(count.as_u64()?),
                None => None,
            };
            Some(Availability::Stream { view: bitstream.as_u64()?, count })
        }
        _ => None,
    }
}

fn list_of<T>(record: &Map<String, Value>, name: &str, item: impl Fn(&Value) -> Option<T>) -> Option<Vec<T>> {
    match record.get(name) {
        Some(list) => list.as_array()?.iter().map(item).collect(),
        None => Some(Vec::new()),
    }
}

struct Held<'f> {
    buffers: Vec<Buffer>,
    views: Vec<View>,
    binary: Option<&'f [u8]>,
    // The bytes of each buffer that is a file of its own, once it was read.
    outer: Vec<Option<Vec<u8>>>,
}

impl Held<'_> {
    fn parts(&self, view: u64) -> Option<(View, &Buffer)> {
        let view = *self.views.get(usize::try_from(view).ok()?)?;
        Some((view, self.buffers.get(usize::try_from(view.buffer).ok()?)?))
    }

    fn bytes(&self, buffer: u64) -> Option<&[u8]> {
        match self.buffers[buffer as usize].uri {
            Some(_) => self.outer[buffer as usize].as_deref(),
            None => self.binary,
        }
    }

    // Reads the files of the buffers that are used, each once, with what is left of the most bytes of them together.
    fn read_outer(&mut self, used: &[(Availability, u64)], fetch: &Fetching) -> io::Result<Option<u64>> {
        let mut left = MOST_BYTES;
        for (availability, _) in used {
            let Availability::Stream { view, .. } = availability else { continue };
            let Some((view, buffer)) = self.parts(*view) else { continue };
            let (place, Some(uri)) = (view.buffer as usize, &buffer.uri) else { continue };
            if self.outer[place].is_some() {
                continue;
            }
            match fetch(uri, left)? {
                Ok(bytes) => {
                    left -= bytes.len() as u64;
                    self.outer[place] = Some(bytes);
                }
                Err(1) => return Ok(Some(19)),
                Err(_) => return Ok(Some(20)),
            }
        }
        Ok(None)
    }

    // The first of the faults 12 to 15, 19 and 20 of the used bitstreams, each fault over all of them before the next one.
    fn fault(&mut self, used: &[(Availability, u64)], fetch: &Fetching) -> io::Result<Option<u64>> {
        let is_known = |availability: &Availability| match availability {
            Availability::Stream { view, .. } => self.parts(*view).is_some(),
            Availability::Constant(_) => true,
        };
        if !used.iter().all(|(availability, _)| is_known(availability)) {
            return Ok(Some(12));
        }
        let lacks_inner = |availability: &Availability| match availability {
            Availability::Stream { view, .. } => self.binary.is_none() && self.parts(*view).unwrap().1.uri.is_none(),
            Availability::Constant(_) => false,
        };
        if used.iter().any(|(availability, _)| lacks_inner(availability)) {
            return Ok(Some(13));
        }
        if let Some(fault) = self.read_outer(used, fetch)? {
            return Ok(Some(fault));
        }
        Ok(self.fault_of_views(used))
    }

    fn fault_of_views(&self, used: &[(Availability, u64)]) -> Option<u64> {
        let streams: Vec<((View, &Buffer), u64)> = used
            .iter()
            .filter_map(|(availability, needed)| match availability {
                Availability::Stream { view, .. } => Some((self.parts(*view)?, *needed)),
                Availability::Constant(_) => None,
            })
            .collect();
        let is_out = |view: &View, buffer: &Buffer| {
            let held = self.bytes(view.buffer).map_or(0, |bytes| bytes.len() as u64);
            view.offset > buffer.length || view.length > buffer.length - view.offset || buffer.length > held
        };
        if streams.iter().any(|((view, buffer), _)| is_out(view, buffer)) {
            return Some(14);
        }
        streams.iter().any(|((view, _), needed)| view.length < needed.div_ceil(8)).then_some(15)
    }

    fn bits(&self, (availability, needed): (Availability, u64)) -> Bits {
        match availability {
            Availability::Constant(bit) => Bits::Constant { bit, count: needed },
            Availability::Stream { view, .. } => {
                let view = self.views[view as usize];
                let start = view.offset as usize;
                let bytes = self.bytes(view.buffer).unwrap_or(&[])[start..start + needed.div_ceil(8) as usize].to_vec();
                Bits::Bytes { bytes, count: needed }
            }
        }
    }
}

fn is_counted((availability, needed): (Availability, u64), bits: &Bits) -> bool {
    match availability {
        Availability::Stream { count: Some(count), .. } => count == bits.ones(needed),
        _ => true,
    }
}

fn has_orphan(scheme: Scheme, tiles: &Bits, nodes: u64) -> bool {
    match tiles {
        Bits::Constant { .. } => false,
        Bits::Bytes { .. } => {
            let mut from = 1;
            while let Some(node) = tiles.next_one(from, nodes) {
                if !tiles.get((node - 1) / scheme.nodes_at(1)) {
                    return true;
                }
                from = node + 1;
            }
            false
        }
    }
}

/// The bytes of a file beside the subtree file, of at most so many bytes. The inner error is the fault of one that is missing
/// or too long.
pub type Fetching<'f> = dyn Fn(&str, u64) -> io::Result<Result<Vec<u8>, u64>> + 'f;

/// The bits of the subtree whose root has this level.
pub fn decode(layout: &Layout, root_level: u32, file: &[u8], fetch: &Fetching) -> io::Result<Outcome> {
    let (mut held, used) = match record_of(layout, file) {
        Ok(record) => record,
        Err(fault) => return Ok(Err(fault)),
    };
    if let Some(fault) = held.fault(&used, fetch)? {
        return Ok(Err(fault));
    }
    Ok(bits_of(layout, root_level, &held, &used))
}

type Used = Vec<(Availability, u64)>;

fn record_of<'f>(layout: &Layout, file: &'f [u8]) -> Result<(Held<'f>, Used), u64> {
    let (json, binary) = parts(file)?;
    let value: Value = serde_json::from_slice(json).map_err(|_| 7u64)?;
    let record = value.as_object().ok_or(8u64)?;
    let buffers = list_of(record, "buffers", buffer_of).ok_or(9u64)?;
    let views = list_of(record, "bufferViews", view_of).ok_or(10u64)?;
    let nodes = layout.scheme.nodes_above(layout.subtree_levels);
    let children = layout.scheme.nodes_at(layout.subtree_levels);
    let used = (|| {
        let tiles = availability_of(record.get("tileAvailability")?)?;
        let contents = list_of(record, "contentAvailability", |value| Some(availability_of(value)))?;
        let child = availability_of(record.get("childSubtreeAvailability")?)?;
        let mut used = vec![(tiles, nodes)];
        for content in contents.into_iter().take(layout.contents.len()) {
            used.push((content?, nodes));
        }
        used.push((child, children));
        Some(used)
    })()
    .ok_or(11u64)?;
    let outer = buffers.iter().map(|_| None).collect();
    Ok((Held { buffers, views, binary, outer }, used))
}

fn bits_of(layout: &Layout, root_level: u32, held: &Held, used: &Used) -> Outcome {
    let mut bits: Vec<Bits> = used.iter().map(|used| held.bits(*used)).collect();
    if !used.iter().zip(&bits).all(|(used, bits)| is_counted(*used, bits)) {
        return Err(16);
    }
    let child = bits.pop().unwrap();
    let contents = bits.split_off(1);
    let tiles = bits.pop().unwrap();
    let seen = layout.scheme.nodes_above(layout.subtree_levels.min(layout.levels - root_level));
    if has_orphan(layout.scheme, &tiles, seen) {
        return Err(17);
    }
    if contents.iter().any(|content| !content.is_within(&tiles, seen)) {
        return Err(18);
    }
    Ok(Subtree { tiles, contents, child })
}
