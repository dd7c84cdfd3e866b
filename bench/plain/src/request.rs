//! Request lines: LEVEL LO HI.
use crate::tileset::Layout;
use crate::tree::Region;

/// The lines of an input, each without its LF and one CR before it.
pub fn lines(input: &[u8]) -> impl Iterator<Item = &[u8]> {
    input.split_inclusive(|byte| *byte == b'\n').map(|line| {
        let line = line.strip_suffix(b"\n").unwrap_or(line);
        line.strip_suffix(b"\r").unwrap_or(line)
    })
}

/// What stands before and behind the first blank.
pub fn cut(text: &[u8]) -> Option<(&[u8], &[u8])> {
    let at = text.iter().position(|byte| *byte == b' ')?;
    Some((&text[..at], &text[at + 1..]))
}

/// A number in decimal, without a sign or a leading zero.
pub fn number(text: &[u8]) -> Option<u32> {
    if !text.iter().all(u8::is_ascii_digit) || (text.len() > 1 && text[0] == b'0') {
        return None;
    }
    std::str::from_utf8(text).ok()?.parse().ok()
}

// Two or three numbers, and how many they are.
fn corner(text: &[u8]) -> Option<([u32; 3], u32)> {
    let (mut corner, mut count) = ([0; 3], 0);
    for part in text.split(|byte| *byte == b',') {
        *corner.get_mut(count)? = number(part)?;
        count += 1;
    }
    (count > 1).then_some((corner, count as u32))
}

/// The region of a request line, or the number of the first rule that refuses it.
pub fn region_of(layout: &Layout, line: &[u8]) -> Result<Region, u64> {
    let numbers = || {
        let (level, corners) = cut(line)?;
        let (lo, hi) = cut(corners)?;
        Some((number(level)?, corner(lo)?, corner(hi)?))
    };
    let (level, (lo, lo_axes), (hi, hi_axes)) = numbers().ok_or(1u64)?;
    if [lo_axes, hi_axes] != [layout.scheme.axes(); 2] {
        return Err(2);
    }
    if level >= layout.levels {
        return Err(3);
    }
    if lo.iter().zip(&hi).any(|(lo, hi)| lo > hi) {
        return Err(4);
    }
    if hi.iter().any(|hi| hi >> level != 0) {
        return Err(5);
    }
    Ok(Region { level, lo, hi })
}
