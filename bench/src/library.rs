//! The library's calls for C, as include/fabric.h has them. They are linked and not compiled with the benchmark: none of their
//! code is put into the caller's, and nothing that they write is left out because nobody looks at it.

/// Board, state and lines: the numbers of the header's structs, in their order; and the numbers of a clock's responses.
pub const BOARD: usize = 275;
pub const STATE: usize = 154;
pub const LINES: usize = 96;
pub const RESPONSES: usize = 8;
/// Bytes that every table has room in.
pub const TABLE: usize = 2504;

mod linked {
    use super::{BOARD, LINES, RESPONSES, STATE};

    extern "C" {
        pub fn fabric_read(text: *const u8, text_length: usize, board: *mut [u32; BOARD]) -> u32;
        pub fn fabric_wait(
            text: *const u8,
            text_length: usize,
            master: u32,
            slave: u32,
            out: *mut u8,
            out_length: usize,
        ) -> u32;
        pub fn fabric_reset(board: *const [u32; BOARD], state: *mut [u32; STATE]) -> u32;
        pub fn fabric_post(
            board: *const [u32; BOARD],
            state: *mut [u32; STATE],
            buffer: *mut u8,
            buffer_length: usize,
            master: u32,
            write: u32,
            address: u32,
            lanes: u32,
            beats: u32,
            words: *const u8,
            words_length: usize,
        ) -> u32;
        pub fn fabric_clock(
            board: *const [u32; BOARD],
            state: *mut [u32; STATE],
            memory: *mut u8,
            memory_length: usize,
            buffer: *mut u8,
            buffer_length: usize,
            lines: *mut [u32; LINES],
            responses: *mut [u32; RESPONSES],
            mask: *mut u32,
        ) -> u32;
        pub fn fabric_run(
            board: *const [u32; BOARD],
            state: *mut [u32; STATE],
            memory: *mut u8,
            memory_length: usize,
            buffer: *mut u8,
            buffer_length: usize,
            lines: *mut [u32; LINES],
            responses: *mut [u32; RESPONSES],
            most: u32,
            clocks: *mut u32,
            mask: *mut u32,
        ) -> u32;
        pub fn bench_table(
            text: *const u8,
            text_length: usize,
            out: *mut u8,
            out_length: usize,
        ) -> usize;
        pub fn bench_clocks(
            text: *const u8,
            text_length: usize,
            memory: *mut u8,
            memory_length: usize,
            buffer: *mut u8,
            buffer_length: usize,
            clocks: u32,
        ) -> u32;
    }
}

/// The traffic of singles made in Rattle, from the board's text on: the sum of the masks.
pub fn clocks(text: &[u8], memory: &mut [u8], buffer: &mut [u8], clocks: u32) -> u32 {
    // SAFETY: each pointer and length are those of one slice; memory and buffer are lent for writing.
    unsafe {
        linked::bench_clocks(
            text.as_ptr(),
            text.len(),
            memory.as_mut_ptr(),
            memory.len(),
            buffer.as_mut_ptr(),
            buffer.len(),
            clocks,
        )
    }
}

pub fn read(text: &[u8], board: &mut [u32; BOARD]) -> u32 {
    // SAFETY: the pointer and the length are those of one slice; the board has its numbers.
    unsafe { linked::fabric_read(text.as_ptr(), text.len(), board) }
}

/// The length of the table that stands at the front of `out`.
pub fn table(text: &[u8], out: &mut [u8]) -> usize {
    // SAFETY: each pointer and length are those of one slice; `out` is lent for writing.
    unsafe { linked::bench_table(text.as_ptr(), text.len(), out.as_mut_ptr(), out.len()) }
}

pub fn wait(text: &[u8], master: u32, slave: u32, out: &mut [u8]) -> u32 {
    let (place, length) = (out.as_mut_ptr(), out.len());
    // SAFETY: each pointer and length are those of one slice; `out` is lent for writing.
    unsafe { linked::fabric_wait(text.as_ptr(), text.len(), master, slave, place, length) }
}

/// What is lent to a clock.
pub struct Lent<'a> {
    pub board: &'a [u32; BOARD],
    pub state: [u32; STATE],
    pub memory: &'a mut [u8],
    pub buffer: &'a mut [u8],
    pub lines: [u32; LINES],
    pub responses: [u32; RESPONSES],
}

impl Lent<'_> {
    pub fn reset(&mut self) -> u32 {
        // SAFETY: board and state have their numbers.
        unsafe { linked::fabric_reset(self.board, &mut self.state) }
    }

    pub fn post(
        &mut self,
        master: u32,
        write: bool,
        address: u32,
        lanes: u32,
        beats: u32,
        words: &[u8],
    ) -> u32 {
        // SAFETY: board and state have their numbers; each pointer and length are those of one slice.
        unsafe {
            linked::fabric_post(
                self.board,
                &mut self.state,
                self.buffer.as_mut_ptr(),
                self.buffer.len(),
                master,
                write as u32,
                address,
                lanes,
                beats,
                words.as_ptr(),
                words.len(),
            )
        }
    }

    /// The number and the mask.
    pub fn clock(&mut self) -> (u32, u32) {
        let mut mask = 0;
        // SAFETY: the arrays have their numbers; each pointer and length are those of one slice.
        let number = unsafe {
            linked::fabric_clock(
                self.board,
                &mut self.state,
                self.memory.as_mut_ptr(),
                self.memory.len(),
                self.buffer.as_mut_ptr(),
                self.buffer.len(),
                &mut self.lines,
                &mut self.responses,
                &mut mask,
            )
        };
        (number, mask)
    }

    /// The number, the clocks passed and the last one's mask.
    pub fn run(&mut self, most: u32) -> (u32, u32, u32) {
        let (mut clocks, mut mask) = (0, 0);
        // SAFETY: the arrays have their numbers; each pointer and length are those of one slice.
        let number = unsafe {
            linked::fabric_run(
                self.board,
                &mut self.state,
                self.memory.as_mut_ptr(),
                self.memory.len(),
                self.buffer.as_mut_ptr(),
                self.buffer.len(),
                &mut self.lines,
                &mut self.responses,
                most,
                &mut clocks,
                &mut mask,
            )
        };
        (number, clocks, mask)
    }
}
