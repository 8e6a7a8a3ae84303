//! What a script does about unmapped transfers, and about the log.

use std::collections::BTreeMap;

use crate::late_tally::single_clocks;
use model::board::{Board, MASTER_LIMIT};
use model::description::check_board;
use model::fabric::{self, Entry, State, BUFFER_LENGTH, LOG_LENGTH, PART_LENGTH};
use model::script::Simulator;

/// The cases that scripts are to have.
pub const CASES: [&str; 50] = [
    // posts that are taken
    "taken where no card is",
    "taken at a card that is not connected",
    "taken and reaches into a card",
    "taken at the highest addresses",
    "taken past the highest address",
    "taken in a burst",
    "taken with some lanes",
    // posts that are refused
    "post 13 where it would be unmapped",
    "post 14 where it would be unmapped",
    "post 15 where it would be unmapped",
    "post 18 where it would be unmapped",
    "post 12 of a master that holds an unmapped transfer",
    "post 17 with the mark",
    "post 16 without the mark",
    // clocks
    "response to a read",
    "response to a read over bytes that are not 0",
    "response to a write",
    "responses to several masters",
    "response beside a card that serves",
    "response beside another finish",
    "response beside a latency",
    "response to a last owner that loses grants",
    // what they enter
    "entered",
    "entered over an entry behind the count",
    "entered in the last place",
    "entered behind a drop",
    "dropped",
    "dropped again",
    "some entered and some dropped",
    // takes
    "take 0",
    "take 22",
    "take 9",
    "take refused for the board",
    "take from a full log",
    "take 0 with a lost mark",
    "take 22 with a lost mark",
    "take that moves entries behind the count",
    "take 0 without the mark",
    "take 0 while an unmapped transfer is held",
    "take 22 with an entry that is not 0",
    // states that are refused
    "clock 9 for the count of the log",
    "post 9 for the count of the log",
    "take 9 for the count of the log",
    "clock 9 without the mark",
    "post 9 without the mark",
    "take 9 without the mark",
    "9 for latency clocks of an unmapped transfer",
    "9 for a card that serves an unmapped transfer",
    // resets
    "reset of a log with entries",
    "reset of a lost mark",
];

/// How often each of the cases happens in a script.
pub type UnmappedTally = BTreeMap<&'static str, usize>;

/// Board and state between two lines of a script, and before a clock the places of the buffer whose byte is not 0.
struct Moment {
    board: Board,
    state: State,
    filled: Vec<bool>,
}

/// A post's numbers.
struct Post {
    master: usize,
    address: u32,
    lanes: u8,
    beats: u64,
}

fn post_of(line: &[u8]) -> Option<Post> {
    let line = String::from_utf8_lossy(line).into_owned();
    let fields: Vec<&str> = line.split(',').collect();
    let &["post", master, _, address, lanes, beats, _] = &fields[..] else {
        return None;
    };
    Some(Post {
        master: master.parse().ok()?,
        address: address.parse().ok()?,
        lanes: lanes.parse().ok()?,
        beats: beats.parse().ok()?,
    })
}

impl Moment {
    fn of(simulator: &Simulator) -> Moment {
        Moment {
            board: simulator.board,
            state: simulator.state,
            filled: Vec::new(),
        }
    }

    fn before(simulator: &mut Simulator, line: &[u8]) -> Moment {
        let mut moment = Moment::of(simulator);
        if line.starts_with(b"clock") {
            let mut printed = Vec::new();
            let show = format!("show,buffer,0,{}", simulator.buffer.length);
            let result = simulator.run_line(show.as_bytes(), &mut printed);
            assert!(matches!(result, Ok(Some(()))));
            moment.filled = printed.chunks(2).map(|byte| byte != b"00").collect();
        }
        moment
    }

    /// The card that the address lies in, connected or not, on a board that is a good one.
    fn card_at(&self, address: u64) -> Option<usize> {
        (0..self.board.slave_count as usize).find(|&slave| {
            let card = &self.board.slaves[slave];
            address / card.span as u64 == card.base as u64 / card.span as u64
        })
    }

    fn is_mapped(&self, master: usize, address: u64) -> bool {
        self.card_at(address)
            .is_some_and(|slave| self.board.connected(master, slave))
    }

    /// The masters that hold an unmapped transfer.
    fn unmapped(&self) -> Vec<usize> {
        (0..self.board.master_count as usize)
            .filter(|&master| {
                let transfer = &self.state.transfers[master];
                transfer.held && !self.is_mapped(master, transfer.address as u64)
            })
            .collect()
    }

    /// Whether a clock would be taken with board and state changed so.
    fn is_taken_with(&self, change: impl Fn(&mut Board, &mut State)) -> bool {
        let (mut board, mut state) = (self.board, self.state);
        change(&mut board, &mut state);
        let mut memory = vec![0; board.total_span() as usize];
        let mut buffer = [0; BUFFER_LENGTH];
        fabric::clock(&board, &mut state, &mut memory, &mut buffer).number == 0
    }

    fn is_served(&self, master: usize) -> bool {
        let slots = &self.state.slots[..self.board.slave_count as usize];
        slots
            .iter()
            .any(|slot| slot.serving && slot.owner as usize == master)
    }
}

/// The cases of one script.
#[derive(Default)]
struct Author {
    tally: UnmappedTally,
}

impl Author {
    fn enter(&mut self, case: &'static str, happens: bool) {
        assert!(CASES.contains(&case), "{case}");
        *self.tally.entry(case).or_default() += usize::from(happens);
    }

    fn enter_taken(&mut self, before: &Moment, post: &Post) {
        let width = before.board.masters[post.master].width as u64;
        let first = post.address as u64;
        let end = first + post.beats * width;
        let card = before.card_at(first);
        let reaches =
            (1..post.beats).any(|beat| before.is_mapped(post.master, first + beat * width));
        self.enter("taken where no card is", card.is_none());
        self.enter("taken at a card that is not connected", card.is_some());
        self.enter("taken and reaches into a card", reaches);
        self.enter("taken at the highest addresses", end == 1 << 32);
        self.enter("taken past the highest address", end > 1 << 32);
        self.enter("taken in a burst", post.beats > 1);
        let all = ((1u16 << width) - 1) as u8;
        self.enter("taken with some lanes", post.lanes != all);
    }

    fn enter_post(&mut self, before: &Moment, post: &Post, number: &str) {
        if check_board(&before.board).is_err() || post.master >= before.board.master_count as usize
        {
            return;
        }
        let is_unmapped =
            before.board.default && !before.is_mapped(post.master, post.address as u64);
        if number == "0" && is_unmapped {
            self.enter_taken(before, post);
        }
        self.enter(
            "post 13 where it would be unmapped",
            number == "13" && is_unmapped,
        );
        self.enter(
            "post 14 where it would be unmapped",
            number == "14" && is_unmapped,
        );
        self.enter(
            "post 15 where it would be unmapped",
            number == "15" && is_unmapped,
        );
        self.enter(
            "post 18 where it would be unmapped",
            number == "18" && is_unmapped,
        );
        let holds = before.unmapped().contains(&post.master);
        self.enter(
            "post 12 of a master that holds an unmapped transfer",
            number == "12" && holds,
        );
        self.enter(
            "post 17 with the mark",
            number == "17" && before.board.default,
        );
        self.enter("post 16 without the mark", number == "16");
    }

    fn enter_response(&mut self, before: &Moment, after: &Moment, master: usize) {
        let transfer = &before.state.transfers[master];
        let length = transfer.beats as usize * before.board.masters[master].width as usize;
        let part = &before.filled[PART_LENGTH * master..][..length];
        let bytes = !transfer.write && part.iter().all(|&filled| filled);
        self.enter("response to a read", !transfer.write);
        self.enter("response to a read over bytes that are not 0", bytes);
        self.enter("response to a write", transfer.write);
        let cards = before.board.slave_count as usize;
        let loses = (0..cards).any(|slave| {
            let (slot, behind) = (before.state.slots[slave], after.state.slots[slave]);
            !slot.serving && slot.owner as usize == master && slot.remaining > behind.remaining
        });
        self.enter("response to a last owner that loses grants", loses);
    }

    fn enter_clock(&mut self, before: &Moment, after: &Moment) {
        let unmapped = before.unmapped();
        for &master in &unmapped {
            self.enter_response(before, after, master);
        }
        if unmapped.is_empty() {
            return;
        }
        let others: Vec<usize> = (0..MASTER_LIMIT)
            .filter(|master| !unmapped.contains(master))
            .collect();
        let held = |moment: &Moment, master: usize| moment.state.transfers[master].held;
        let finishes = |&master: &usize| held(before, master) && !held(after, master);
        let is_late = |&master: &usize| before.state.transfers[master].late > 0;
        let is_served = |&master: &usize| before.is_served(master);
        self.enter("responses to several masters", unmapped.len() > 1);
        self.enter(
            "response beside a card that serves",
            others.iter().any(is_served),
        );
        self.enter(
            "response beside another finish",
            others.iter().any(finishes),
        );
        self.enter("response beside a latency", others.iter().any(is_late));
        self.enter_log(before, after, unmapped.len());
    }

    /// What a clock that finishes so many does to the log.
    fn enter_log(&mut self, before: &Moment, after: &Moment, finished: usize) {
        let (log, behind) = (before.state.log, after.state.log);
        let entered = (behind.count - log.count) as usize;
        let places = log.count as usize..behind.count as usize;
        let over = log.entries[places]
            .iter()
            .any(|&entry| entry != Entry::default());
        let dropped = finished > entered;
        self.enter("entered", entered > 0);
        self.enter("entered over an entry behind the count", over);
        self.enter(
            "entered in the last place",
            entered > 0 && behind.count == LOG_LENGTH as u32,
        );
        self.enter("entered behind a drop", entered > 0 && log.lost);
        self.enter("dropped", dropped && !log.lost);
        self.enter("dropped again", dropped && log.lost);
        self.enter("some entered and some dropped", dropped && entered > 0);
    }

    fn enter_take(&mut self, before: &Moment, number: &str) {
        let log = before.state.log;
        let (is_taken, is_empty) = (number == "0", number == "22");
        let refused = !["0", "9", "22"].contains(&number);
        let behind = log.entries[(log.count as usize).min(LOG_LENGTH)..].iter();
        let moves = behind.skip(1).any(|&entry| entry != Entry::default());
        self.enter("take 0", is_taken);
        self.enter("take 22", is_empty);
        self.enter("take 9", number == "9");
        self.enter("take refused for the board", refused);
        self.enter(
            "take from a full log",
            is_taken && log.count == LOG_LENGTH as u32,
        );
        self.enter("take 0 with a lost mark", is_taken && log.lost);
        self.enter("take 22 with a lost mark", is_empty && log.lost);
        self.enter(
            "take that moves entries behind the count",
            is_taken && moves,
        );
        self.enter("take 0 without the mark", is_taken && !before.board.default);
        let held = is_taken && !before.unmapped().is_empty();
        self.enter("take 0 while an unmapped transfer is held", held);
        let first = log.entries[0] != Entry::default();
        self.enter("take 22 with an entry that is not 0", is_empty && first);
    }

    /// A call answers 9 for one of the faults alone.
    fn enter_refused(&mut self, before: &Moment, call: &str) {
        if check_board(&before.board).is_err() {
            return;
        }
        let count = before.state.log.count > LOG_LENGTH as u32
            && before.is_taken_with(|_, state| state.log.count = 0);
        let mark = !before.board.default && before.is_taken_with(|board, _| board.default = true);
        let unmapped = before.unmapped();
        let late = unmapped.iter().any(|&master| {
            before.state.transfers[master].late > 0
                && before.is_taken_with(|_, state| state.transfers[master].late = 0)
        });
        let served = unmapped.iter().any(|&master| {
            before.is_served(master)
                && before.is_taken_with(|_, state| {
                    let serves =
                        |slot: &&mut fabric::Slot| slot.serving && slot.owner as usize == master;
                    for slot in state.slots.iter_mut().filter(serves) {
                        (slot.serving, slot.done, slot.waited) = (false, 0, 0);
                    }
                })
        });
        self.enter("clock 9 for the count of the log", call == "clock" && count);
        self.enter("post 9 for the count of the log", call == "post" && count);
        self.enter("take 9 for the count of the log", call == "take" && count);
        self.enter("clock 9 without the mark", call == "clock" && mark);
        self.enter("post 9 without the mark", call == "post" && mark);
        self.enter("take 9 without the mark", call == "take" && mark);
        self.enter("9 for latency clocks of an unmapped transfer", late);
        self.enter("9 for a card that serves an unmapped transfer", served);
    }

    fn enter_line(&mut self, line: &[u8], printed: &[u8], before: &Moment, after: &Moment) {
        let printed = String::from_utf8_lossy(printed).into_owned();
        let first = printed.lines().next().unwrap_or_default();
        let fields: Vec<&str> = first.split(',').collect();
        match fields[..] {
            ["post", number] => {
                if let Some(post) = post_of(line) {
                    self.enter_post(before, &post, number);
                }
            }
            ["clock", "0", _] => self.enter_clock(before, after),
            ["take", number, ..] => self.enter_take(before, number),
            ["reset", "0"] => {
                self.enter("reset of a log with entries", before.state.log.count > 0);
                self.enter("reset of a lost mark", before.state.log.lost);
            }
            _ => {}
        }
        if fields.get(1) == Some(&"9") {
            self.enter_refused(before, fields[0]);
        }
    }
}

/// Runs a script on the board of a text, up to a malformed line; one on a refused board does nothing.
pub fn unmapped_tally(text: &[u8], script: &[u8]) -> UnmappedTally {
    let mut author = Author::default();
    let Ok(mut simulator) = Simulator::new(text) else {
        return author.tally;
    };
    for line in single_clocks(script) {
        let before = Moment::before(&mut simulator, line);
        let mut printed = Vec::new();
        let Ok(Some(())) = simulator.run_line(line, &mut printed) else {
            return author.tally;
        };
        let after = Moment::of(&simulator);
        author.enter_line(line, &printed, &before, &after);
    }
    author.tally
}
