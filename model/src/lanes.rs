//! Byte lanes: bit k of a mask is byte k of a word.

/// Every lane of a word of this width in bytes.
pub fn all_lanes(width: u8) -> u8 {
    ((1u16 << width) - 1) as u8
}

/// The lanes that a mask has in one of the words of this width, which it covers from word 0 on.
pub fn word_lanes(lanes: u8, word: u8, width: u8) -> u8 {
    (lanes >> (word * width)) & all_lanes(width)
}

/// Legal are 1, 2, 4 or 8 lanes side by side that start at a multiple of their count and lie within the width.
pub fn lanes_legal(lanes: u8, width: u8) -> bool {
    let count = lanes.count_ones();
    if ![1, 2, 4, 8].contains(&count) {
        return false;
    }
    let lowest = lanes.trailing_zeros();
    let adjacent = (lowest..lowest + count).all(|lane| lane < 8 && lanes & (1 << lane) != 0);
    adjacent && lowest.is_multiple_of(count) && lanes & !all_lanes(width) == 0
}
