//! Morton indices of two and of three coordinates, by masks.

fn spread2(x: u32) -> u64 {
    let word = u64::from(x);
    let word = (word | word << 16) & 0x0000_FFFF_0000_FFFF;
    let word = (word | word << 8) & 0x00FF_00FF_00FF_00FF;
    let word = (word | word << 4) & 0x0F0F_0F0F_0F0F_0F0F;
    let word = (word | word << 2) & 0x3333_3333_3333_3333;
    (word | word << 1) & 0x5555_5555_5555_5555
}

fn gather2(index: u64) -> u32 {
    let word = index & 0x5555_5555_5555_5555;
    let word = (word | word >> 1) & 0x3333_3333_3333_3333;
    let word = (word | word >> 2) & 0x0F0F_0F0F_0F0F_0F0F;
    let word = (word | word >> 4) & 0x00FF_00FF_00FF_00FF;
    let word = (word | word >> 8) & 0x0000_FFFF_0000_FFFF;
    (word | word >> 16) as u32
}

fn spread3(x: u32) -> u64 {
    let word = u64::from(x);
    let word = (word | word << 32) & 0x001F_0000_0000_FFFF;
    let word = (word | word << 16) & 0x001F_0000_FF00_00FF;
    let word = (word | word << 8) & 0x100F_00F0_0F00_F00F;
    let word = (word | word << 4) & 0x10C3_0C30_C30C_30C3;
    (word | word << 2) & 0x1249_2492_4924_9249
}

fn gather3(index: u64) -> u32 {
    let word = index & 0x1249_2492_4924_9249;
    let word = (word | word >> 2) & 0x10C3_0C30_C30C_30C3;
    let word = (word | word >> 4) & 0x100F_00F0_0F00_F00F;
    let word = (word | word >> 8) & 0x001F_0000_FF00_00FF;
    let word = (word | word >> 16) & 0x001F_0000_0000_FFFF;
    ((word | word >> 32) & 0x001F_FFFF) as u32
}

pub fn index2(x: u32, y: u32) -> u64 {
    spread2(x) | spread2(y) << 1
}

pub fn coords2(index: u64) -> (u32, u32) {
    (gather2(index), gather2(index >> 1))
}

pub fn index3(x: u32, y: u32, z: u32) -> u64 {
    spread3(x) | spread3(y) << 1 | spread3(z) << 2
}

pub fn coords3(index: u64) -> (u32, u32, u32) {
    (gather3(index), gather3(index >> 1), gather3(index >> 2))
}
