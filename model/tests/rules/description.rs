//! What the reader takes and refuses, and what the writer puts.

use crate::BOARD;
use model::description::{read, write};

fn number_of(text: &str) -> u8 {
    read(text.as_bytes()).err().unwrap_or(0)
}

fn slave_number(base: u32, span: u32) -> u8 {
    number_of(&format!(
        "master,4,8\nslave,{base},{span},2,8,1,0,0,0\nshare,0,0,1\n"
    ))
}

#[test]
fn a_span_is_8_bytes_or_more() {
    assert_eq!(slave_number(4096, 8), 0);
    assert_eq!(slave_number(4096, 4), 3);
}

#[test]
fn a_base_is_a_multiple_of_the_span() {
    assert_eq!(slave_number(4096, 4096), 0);
    assert_eq!(slave_number(4100, 4096), 4);
    assert_eq!(slave_number(4096 + 2048, 4096), 4);
}

#[test]
fn a_text_is_whole_lines_and_not_empty() {
    assert_eq!(number_of(""), 2);
    assert_eq!(number_of("\n"), 1);
    assert_eq!(number_of("master,4,8"), 1);
}

#[test]
fn the_writer_puts_what_was_read() {
    let board = read(BOARD.as_bytes()).expect("the board is refused");
    assert_eq!(write(&board), BOARD);
}
