//! The two fabrics that the traffic is made on.

use std::hint::black_box;

use crate::library::{Lent, BOARD, LINES, RESPONSES, STATE};
use model::board::Board;
use model::fabric::{clock, post, reset, Answer, State, Transfer};

/// A transfer to post; its words are zeros.
pub struct Request {
    pub write: bool,
    pub address: u32,
    pub lanes: u8,
    pub beats: u8,
    /// Of the words, in bytes.
    pub length: usize,
}

/// A fabric that has been reset. A call answers its refusal first.
pub trait Side {
    fn post(&mut self, master: u32, request: &Request, words: &[u8]) -> u32;
    /// One clock: its mask.
    fn clock(&mut self) -> (u32, u32);
    /// Clocks until a master finishes, or the most there may be: how many, and the last one's mask.
    fn run(&mut self, most: u32) -> (u32, u32, u32);
    /// A sum of what the last clock showed of the slaves, each number with a weight of its own.
    fn shown(&self) -> u64;
}

pub struct Library<'a>(Lent<'a>);

impl<'a> Library<'a> {
    pub fn start(board: &'a [u32; BOARD], memory: &'a mut [u8], buffer: &'a mut [u8]) -> Self {
        let mut lent = Lent {
            board,
            state: [0; STATE],
            memory,
            buffer,
            lines: [0; LINES],
            responses: [0; RESPONSES],
        };
        assert_eq!(lent.reset(), 0);
        Library(lent)
    }
}

impl Side for Library<'_> {
    fn post(&mut self, master: u32, request: &Request, words: &[u8]) -> u32 {
        let (lanes, beats) = (request.lanes as u32, request.beats as u32);
        self.0
            .post(master, request.write, request.address, lanes, beats, words)
    }

    fn clock(&mut self) -> (u32, u32) {
        self.0.clock()
    }

    fn run(&mut self, most: u32) -> (u32, u32, u32) {
        self.0.run(most)
    }

    fn shown(&self) -> u64 {
        weighed(self.0.lines.iter().copied())
    }
}

/// The model. Its calls are kept out of the loop, and what they answer is taken for used: the compiler cannot leave out what
/// the library's calls cannot either.
pub struct Model<'a> {
    board: &'a Board,
    state: State,
    memory: &'a mut [u8],
    buffer: &'a mut [u8],
    /// The last clock's answer, kept only where its lines are to be summed.
    answer: Answer,
    keep: bool,
}

impl<'a> Model<'a> {
    pub fn start(board: &'a Board, memory: &'a mut [u8], buffer: &'a mut [u8], keep: bool) -> Self {
        let (number, state) = reset(board);
        assert_eq!(number, 0);
        Model {
            board,
            state,
            memory,
            buffer,
            answer: Answer::default(),
            keep,
        }
    }
}

impl Side for Model<'_> {
    #[inline(never)]
    fn post(&mut self, master: u32, request: &Request, words: &[u8]) -> u32 {
        let transfer = Transfer {
            held: true,
            write: request.write,
            address: request.address,
            lanes: request.lanes,
            beats: request.beats,
            late: 0,
        };
        let state = &mut self.state;
        post(self.board, state, self.buffer, master, transfer, words) as u32
    }

    #[inline(never)]
    fn clock(&mut self) -> (u32, u32) {
        let answer = clock(self.board, &mut self.state, self.memory, self.buffer);
        black_box(&answer);
        if self.keep {
            self.answer = answer;
        }
        (answer.number as u32, answer.mask as u32)
    }

    /// A run is its clocks, one by one.
    #[inline(never)]
    fn run(&mut self, most: u32) -> (u32, u32, u32) {
        let mut clocks = 0;
        let mut last = (0, 0);
        while clocks < most && last == (0, 0) {
            last = self.clock();
            clocks += 1;
        }
        (last.0, clocks, last.1)
    }

    fn shown(&self) -> u64 {
        weighed(self.answer.lines.iter().flat_map(|line| {
            [
                line.phase as u32,
                line.owner as u32,
                line.offset,
                line.lanes as u32,
                line.run as u32,
                line.place as u32,
            ]
        }))
    }
}

/// A sum in which each number of the lines has a weight of its own.
fn weighed(numbers: impl Iterator<Item = u32>) -> u64 {
    numbers
        .zip(1..)
        .fold(0, |sum, (number, weight)| sum + number as u64 * weight)
}
