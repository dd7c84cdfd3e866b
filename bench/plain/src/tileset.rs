//! tileset.json of a tileset without faults.
use crate::tree::Scheme;
use serde_json::Value;
use std::borrow::Cow;

pub struct Layout {
    pub scheme: Scheme,
    pub subtree_levels: u32,
    pub levels: u32,
    pub subtree: String,
    pub contents: Vec<String>,
}

impl Layout {
    pub fn read(bytes: &[u8]) -> Option<Layout> {
        let value: Value = serde_json::from_slice(bytes).ok()?;
        let root = value.get("root")?;
        let implicit = root.get("implicitTiling")?;
        let uri = |value: &Value| Some(value.get("uri")?.as_str()?.to_owned());
        Some(Layout {
            scheme: match implicit.get("subdivisionScheme")?.as_str()? {
                "QUADTREE" => Scheme::Quad,
                "OCTREE" => Scheme::Oct,
                _ => return None,
            },
            subtree_levels: implicit.get("subtreeLevels")?.as_u64()?.try_into().ok()?,
            levels: implicit.get("availableLevels")?.as_u64()?.try_into().ok()?,
            subtree: uri(implicit.get("subtrees")?)?,
            contents: match (root.get("content"), root.get("contents")) {
                (Some(content), None) => vec![uri(content)?],
                (None, Some(contents)) => contents.as_array()?.iter().map(uri).collect::<Option<_>>()?,
                (None, None) => Vec::new(),
                _ => return None,
            },
        })
    }
}

/// A template cut once into its texts and variables.
pub struct Template {
    parts: Vec<(String, Option<usize>)>,
}

impl Template {
    pub fn new(axes: u32, text: &str) -> Template {
        let names = ["{level}", "{x}", "{y}", "{z}"];
        let mut parts = Vec::new();
        let mut rest = text;
        let mut plain = String::new();
        while let Some(c) = rest.chars().next() {
            match (0..=axes as usize).find(|variable| rest.starts_with(names[*variable])) {
                Some(variable) => {
                    parts.push((std::mem::take(&mut plain), Some(variable)));
                    rest = &rest[names[variable].len()..];
                }
                None => {
                    plain.push(c);
                    rest = &rest[c.len_utf8()..];
                }
            }
        }
        parts.push((plain, None));
        Template { parts }
    }

    pub fn fill(&self, level: u32, coordinates: [u32; 3], text: &mut String) {
        let numbers = [level, coordinates[0], coordinates[1], coordinates[2]];
        let mut buffer = itoa::Buffer::new();
        for (before, variable) in &self.parts {
            text.push_str(before);
            if let Some(variable) = variable {
                text.push_str(buffer.format(numbers[*variable]));
            }
        }
    }
}

/// The path of a file that a URI names: each `%` and two hexadecimal digits stand for a byte.
pub fn path_of(uri: &str) -> Cow<'_, str> {
    if !uri.contains('%') {
        return uri.into();
    }
    let mut bytes = Vec::with_capacity(uri.len());
    let mut rest = uri.as_bytes();
    while let Some((&first, behind)) = rest.split_first() {
        let digits = behind.get(..2).and_then(|digits| std::str::from_utf8(digits).ok());
        let escaped = digits.filter(|_| first == b'%').and_then(|digits| u8::from_str_radix(digits, 16).ok());
        bytes.push(escaped.unwrap_or(first));
        rest = if escaped.is_some() { &behind[2..] } else { behind };
    }
    String::from_utf8_lossy(&bytes).into_owned().into()
}
