//! A fabric to try calls on: a board with all that its calls are lent.

use model::board::Board;
use model::description::read;
use model::fabric::{self, Answer, Entry, SlaveLine, State, Transfer, BUFFER_LENGTH};

pub struct Fabric {
    pub board: Board,
    pub state: State,
    pub memory: Vec<u8>,
    pub buffer: [u8; BUFFER_LENGTH],
}

impl Fabric {
    /// After a reset; neighbouring bytes of the memory differ.
    pub fn of_board(board: Board) -> Fabric {
        let (number, state) = fabric::reset(&board);
        assert_eq!(number, 0);
        let memory = (0..board.total_span()).map(|place| (place * 7 + 3) as u8);
        Fabric {
            board,
            state,
            memory: memory.collect(),
            buffer: [0; BUFFER_LENGTH],
        }
    }

    pub fn new(text: &str) -> Fabric {
        Fabric::of_board(read(text.as_bytes()).expect("a board of the tests is refused"))
    }

    pub fn post(&mut self, master: u32, transfer: Transfer, data: &[u8]) -> u8 {
        let (board, state, buffer) = (&self.board, &mut self.state, &mut self.buffer);
        fabric::post(board, state, buffer, master, transfer, data)
    }

    pub fn clock(&mut self) -> Answer {
        let (memory, buffer) = (&mut self.memory, &mut self.buffer);
        fabric::clock(&self.board, &mut self.state, memory, buffer)
    }

    pub fn take(&mut self) -> (u8, Entry) {
        fabric::take(&self.board, &mut self.state)
    }

    /// Clocks until a master finishes: the lines of slave 0.
    pub fn clock_until_finished(&mut self) -> Vec<SlaveLine> {
        let mut lines = Vec::new();
        loop {
            let answer = self.clock();
            assert_eq!(answer.number, 0);
            lines.push(answer.lines[0]);
            if answer.mask != 0 {
                return lines;
            }
        }
    }
}

pub fn read_of(address: u32, lanes: u8, beats: u8) -> Transfer {
    Transfer {
        held: true,
        write: false,
        address,
        lanes,
        beats,
        late: 0,
    }
}

pub fn write_of(address: u32, lanes: u8, beats: u8) -> Transfer {
    Transfer {
        write: true,
        ..read_of(address, lanes, beats)
    }
}
