//! Bitstreams, read by words.

/// A number of bits that are all the same, or that stand in bytes, lowest bit first.
pub enum Bits {
    Constant { bit: bool, count: u64 },
    Bytes { bytes: Vec<u8>, count: u64 },
}

fn first_word(bytes: &[u8]) -> u64 {
    match bytes.first_chunk::<8>() {
        Some(chunk) => u64::from_le_bytes(*chunk),
        None => {
            let mut word = [0; 8];
            word[..bytes.len()].copy_from_slice(bytes);
            u64::from_le_bytes(word)
        }
    }
}

impl Bits {
    pub fn count(&self) -> u64 {
        match self {
            Bits::Constant { count, .. } | Bits::Bytes { count, .. } => *count,
        }
    }

    pub fn get(&self, i: u64) -> bool {
        match self {
            Bits::Constant { bit, .. } => *bit,
            Bits::Bytes { bytes, .. } => bytes[(i / 8) as usize] >> (i % 8) & 1 == 1,
        }
    }

    /// How many of the first `n` bits are 1.
    pub fn ones(&self, n: u64) -> u64 {
        match self {
            Bits::Constant { bit, .. } => if *bit { n } else { 0 },
            Bits::Bytes { bytes, .. } => {
                let whole = (n / 64) as usize;
                let (words, _) = bytes.as_chunks::<8>();
                let ones: u64 = words[..whole].iter().map(|word| u64::from(u64::from_le_bytes(*word).count_ones())).sum();
                let last = first_word(&bytes[8 * whole..]) & ((1 << (n % 64)) - 1);
                ones + u64::from(last.count_ones())
            }
        }
    }

    /// The first 1 from `from` on and below `to`.
    pub fn next_one(&self, from: u64, to: u64) -> Option<u64> {
        match self {
            Bits::Constant { bit, .. } => (*bit && from < to).then_some(from),
            Bits::Bytes { bytes, .. } => next_one_in(&bytes[..to.div_ceil(8) as usize], from).filter(|place| *place < to),
        }
    }

    /// Each of the first `n` bits that is 1 is 1 in the others too.
    pub fn is_within(&self, others: &Bits, n: u64) -> bool {
        match (self, others) {
            (Bits::Constant { bit: false, .. }, _) | (_, Bits::Constant { bit: true, .. }) => true,
            (Bits::Constant { bit: true, .. }, _) => others.ones(n) == n,
            (Bits::Bytes { .. }, Bits::Constant { bit: false, .. }) => self.ones(n) == 0,
            (Bits::Bytes { bytes: ours, .. }, Bits::Bytes { bytes: theirs, .. }) => {
                let whole = (n / 64) as usize;
                let (our_words, _) = ours.as_chunks::<8>();
                let (their_words, _) = theirs.as_chunks::<8>();
                let alone = |ours: u64, theirs: u64| ours & !theirs;
                our_words[..whole].iter().zip(&their_words[..whole]).all(|(a, b)| alone(u64::from_le_bytes(*a), u64::from_le_bytes(*b)) == 0)
                    && alone(first_word(&ours[8 * whole..]), first_word(&theirs[8 * whole..])) & ((1 << (n % 64)) - 1) == 0
            }
        }
    }
}

fn next_one_in(bytes: &[u8], from: u64) -> Option<u64> {
    let start = (from / 8) as usize;
    let word = first_word(&bytes[start..]) >> (from % 8);
    if word != 0 {
        return Some(from + u64::from(word.trailing_zeros()));
    }
    let start = start + 8;
    let rest = bytes.get(start..)?;
    let (words, last) = rest.as_chunks::<8>();
    if let Some(at) = words.iter().position(|word| *word != [0; 8]) {
        return Some(8 * (start + 8 * at) as u64 + u64::from(u64::from_le_bytes(words[at]).trailing_zeros()));
    }
    let word = first_word(last);
    (word != 0).then(|| 8 * (start + 8 * words.len()) as u64 + u64::from(word.trailing_zeros()))
}
