//! The traffic of the clock benchmark: every master posts again as soon as it is idle. One loop makes it for both sides.

use crate::sides::{Request, Side};
use model::board::{Board, MASTER_LIMIT};
use model::lanes::all_lanes;

/// The span of every slave, in bytes.
pub const SPAN: usize = 4096;
/// The longest data of a transfer: eight beats of eight bytes.
const WORDS: usize = 64;

fn master_line(master: usize) -> String {
    let width = [4, 2, 8, 1][master % 4];
    format!("master,{width},8\n")
}

fn slave_line(slave: usize) -> String {
    let (base, width, wait) = (SPAN * slave, [2, 4][slave % 2], slave % 3);
    format!("slave,{base},{SPAN},{width},8,{wait},0,0,0\n")
}

/// Widths and waits are mixed, and every pair is connected.
pub fn board_text(masters: usize, slaves: usize) -> String {
    let share_line = |pair| format!("share,{},{},2\n", pair / slaves, pair % slaves);
    let mut lines = Vec::new();
    lines.extend((0..masters).map(master_line));
    lines.extend((0..slaves).map(slave_line));
    lines.extend((0..masters * slaves).map(share_line));
    lines.concat()
}

/// How a traffic goes on from one post to the next.
#[derive(Clone, Copy)]
pub enum Pace {
    /// Clock by clock.
    Clock,
    /// By runs, each until a master finishes.
    Run,
}

/// What a traffic is made of.
#[derive(Clone, Copy)]
pub struct Plan {
    pub pace: Pace,
    /// Of every transfer.
    pub beats: u8,
}

impl Plan {
    /// The call that is timed, with its posts.
    pub fn call(&self) -> &'static str {
        match self.pace {
            Pace::Clock => "clock",
            Pace::Run => "run",
        }
    }

    /// What is said of the transfers where they are no singles.
    pub fn kind(&self) -> String {
        match self.beats {
            1 => String::new(),
            beats => format!(", bursts of {beats}"),
        }
    }
}

/// What both sides have to agree on.
#[derive(Default, PartialEq, Eq, Debug)]
pub struct Sums {
    /// Of the masks.
    pub masks: u32,
    /// Of the numbers that calls were refused with.
    pub refused: u32,
    /// Clocks by the sides' own count, and how often it was asked for posts.
    pub clocks: u32,
    pub steps: u32,
    /// Of what was shown where the traffic stops for posts; 0 where that is not looked at.
    pub shown: u64,
}

/// A master's transfer number `index`: all lanes at the front of the slaves in turn, reads and writes by turns.
fn request(board: &Board, master: usize, index: u32, beats: u8) -> Request {
    let slave = (master + index as usize) % board.slave_count as usize;
    let width = board.masters[master].width;
    let write = index % 2 == 1;
    Request {
        write,
        address: board.slaves[slave].base,
        lanes: all_lanes(width),
        beats,
        length: if write {
            width as usize * beats as usize
        } else {
            0
        },
    }
}

/// Runs so many clocks from a reset on. Only where `look` says so the lines are summed: it would be timed too.
pub fn run(side: &mut impl Side, board: &Board, plan: Plan, clocks: u32, look: bool) -> Sums {
    let words = [0; WORDS];
    let mut posted = [0u32; MASTER_LIMIT];
    let mut idle = u8::MAX as u32;
    let mut sums = Sums::default();
    while sums.clocks < clocks {
        for (master, index) in posted[..board.master_count as usize].iter_mut().enumerate() {
            if idle & (1 << master) != 0 {
                let request = request(board, master, *index, plan.beats);
                sums.refused += side.post(master as u32, &request, &words[..request.length]);
                *index += 1;
            }
        }
        let (number, passed, mask) = step(side, plan.pace, clocks - sums.clocks);
        idle = mask;
        sums.refused += number;
        sums.masks = sums.masks.wrapping_add(mask);
        sums.clocks += passed;
        sums.steps += 1;
        if look {
            sums.shown += side.shown();
        }
    }
    sums
}

/// What the side answers until the next posts: its refusal, the clocks passed and the last one's mask.
fn step(side: &mut impl Side, pace: Pace, most: u32) -> (u32, u32, u32) {
    match pace {
        Pace::Clock => {
            let (number, mask) = side.clock();
            (number, 1, mask)
        }
        Pace::Run => side.run(most),
    }
}
