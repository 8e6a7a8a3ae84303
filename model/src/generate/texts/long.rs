//! Texts about as long as a text may be.

use super::meaning::slave_fault;
use crate::generate::boards::{board, joined, lines, Size};
use crate::generate::random::Random;

/// The line whose repetition is the numbered fault, where there is one.
fn fault_line(fault: usize) -> &'static str {
    match fault {
        1 => "share,0,0\n",
        2 => "master,4,8\n",
        3 => "share,0,0,0\n",
        7 => "share,8,0,1\n",
        10 => "default\n",
        _ => "",
    }
}

/// A good board, then lines of one fault, then one long line up to the length.
pub fn long_text(random: &mut Random, length: usize, fault: usize) -> Vec<u8> {
    let mut board = board(random, Size::Small);
    // behind the line `default` all lines would be refused for their place
    board.default &= ![1, 3, 7].contains(&fault);
    let mut text = joined(&lines(&board));
    if (4..=6).contains(&fault) {
        text = joined(&slave_fault(random, fault));
    }
    if fault == 8 {
        text.clear();
    }
    let line = fault_line(fault);
    while !line.is_empty() && text.len() + line.len() < length {
        text.extend(line.as_bytes());
    }
    let filler = random.pick(b"0x,");
    text.resize(text.len().max(length - 1), filler);
    text.push(if fault == 9 { filler } else { b'\n' });
    text
}
