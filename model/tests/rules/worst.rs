//! The worst histories: the quoted wait is reached to the clock, and no masters can make it longer.

use crate::fabric::{read_of, write_of, Fabric};
use crate::BOARD;
use model::board::Board;
use model::description::write;
use model::fabric::Transfer;
use model::generate::boards::{any_size, board};
use model::generate::random::Random;
use model::lanes::all_lanes;
use model::table::table;
use model::wait::wait;

/// A master that is measured at a card, and the others that are connected there.
struct Contest {
    fabric: Fabric,
    master: usize,
    slave: usize,
    /// The transfers that each of the others has still to post.
    turns: Vec<Vec<Transfer>>,
}

/// A transfer of all lanes from the card's start on.
fn whole(board: &Board, master: usize, slave: usize, write: bool, beats: u64) -> Transfer {
    let lanes = all_lanes(board.masters[master].width);
    Transfer {
        write,
        ..read_of(board.slaves[slave].base, lanes, beats as u8)
    }
}

/// The beats of the longest transfer.
fn most_beats(board: &Board, master: usize, slave: usize) -> u64 {
    let words = board.slaves[slave].span as u64 / board.masters[master].width as u64;
    words.min(board.masters[master].burst as u64)
}

/// The direction whose accesses last longer.
fn longer_is_write(board: &Board, slave: usize) -> bool {
    board.slaves[slave].write_wait > board.slaves[slave].read_wait
}

/// The longest turn, last transfer first: behind a read there is none where the card has a latency, so that the singles are writes
/// there, and the longest transfer comes last.
fn longest_turn(board: &Board, master: usize, slave: usize) -> Vec<Transfer> {
    let longer = longer_is_write(board, slave);
    let last = whole(
        board,
        master,
        slave,
        longer,
        most_beats(board, master, slave),
    );
    let writes = longer || board.slaves[slave].latency > 0;
    let single = whole(board, master, slave, writes, 1);
    let mut turn = vec![last];
    turn.resize(board.shares[master][slave] as usize, single);
    turn
}

/// Singles of the longer wait throughout, as far as the shares go, and the longest transfer.
fn reading_turn(board: &Board, master: usize, slave: usize) -> Vec<Transfer> {
    let longer = longer_is_write(board, slave);
    let mut turn = longest_turn(board, master, slave);
    for single in &mut turn[1..] {
        single.write = longer;
    }
    turn
}

/// Posts a transfer, a write with zeros.
fn post(fabric: &mut Fabric, master: usize, transfer: Transfer) {
    let width = fabric.board.masters[master].width as usize;
    let length = match transfer.write {
        true => transfer.beats as usize * width,
        false => 0,
    };
    assert_eq!(fabric.post(master as u32, transfer, &vec![0; length]), 0);
}

impl Contest {
    fn new(
        board: Board,
        pair: (usize, usize),
        turn: fn(&Board, usize, usize) -> Vec<Transfer>,
    ) -> Contest {
        let (master, slave) = pair;
        let turn_of = |other: usize| match other != master && board.connected(other, slave) {
            true => turn(&board, other, slave),
            false => Vec::new(),
        };
        Contest {
            turns: (0..board.master_count as usize).map(turn_of).collect(),
            fabric: Fabric::of_board(board),
            master,
            slave,
        }
    }

    fn post_next(&mut self, master: usize) {
        if let Some(transfer) = self.turns[master].pop() {
            post(&mut self.fabric, master, transfer);
        }
    }

    /// The master is served once and then silent, so that all others are tried before it.
    fn make_last_owner(&mut self) {
        let write = whole(&self.fabric.board, self.master, self.slave, true, 1);
        post(&mut self.fabric, self.master, write);
        while self.fabric.clock().mask == 0 {}
        self.fabric.clock();
        let slot = self.fabric.state.slots[self.slave];
        assert_eq!((slot.owner as usize, slot.remaining), (self.master, 0));
    }

    /// The clocks that the master waits when all post at once, and the others again as soon as they may.
    fn waited(&mut self) -> u64 {
        self.make_last_owner();
        let read = whole(&self.fabric.board, self.master, self.slave, false, 1);
        post(&mut self.fabric, self.master, read);
        (0..self.turns.len()).for_each(|other| self.post_next(other));
        for clock in 0.. {
            let answer = self.fabric.clock();
            assert_eq!(answer.number, 0);
            let line = &answer.lines[self.slave];
            if line.phase > 0 && line.owner as usize == self.master {
                return clock;
            }
            for other in 0..self.turns.len() {
                if answer.mask & (1 << other) != 0 {
                    self.post_next(other);
                }
            }
        }
        unreachable!()
    }
}

fn generated_board(seed: u64) -> Board {
    let mut random = Random::new(seed);
    let size = any_size(&mut random);
    board(&mut random, size)
}

/// The connected pairs of a board at which somebody waits, for at most so many clocks.
fn contested_pairs(board: &Board, most: u64) -> Vec<(usize, usize)> {
    board
        .pairs()
        .filter(|&(master, slave)| board.connected(master, slave))
        .filter(|&(master, slave)| (1..=most).contains(&wait(board, master, slave)))
        .collect()
}

#[test]
fn the_quoted_wait_is_reached_at_every_pair() {
    let (mut pairs, mut late, mut shorter) = (0, 0, 0);
    for seed in 0..200 {
        let board = generated_board(seed);
        for (master, slave) in contested_pairs(&board, 3000) {
            let wait = wait(&board, master, slave);
            let waited = Contest::new(board, (master, slave), longest_turn).waited();
            assert_eq!(waited, wait, "seed {seed}, {master} at {slave}");
            let card = board.slaves[slave];
            pairs += 1;
            late += usize::from(card.latency > 0);
            // the write wait of the singles is not the longer one
            shorter += usize::from(card.latency > 0 && card.read_wait > card.write_wait);
        }
    }
    assert!(pairs > 1000, "only {pairs}");
    assert!(late > 400, "only {late} with a latency");
    assert!(shorter > 100, "only {shorter} with shorter singles");
}

#[test]
fn readers_do_not_reach_it() {
    let mut shorter = 0;
    for seed in 0..100 {
        let board = generated_board(seed);
        for (master, slave) in contested_pairs(&board, 3000) {
            let card = board.slaves[slave];
            let others = (0..board.master_count as usize).filter(|&other| other != master);
            let has_singles = others
                .into_iter()
                .any(|other| board.shares[other][slave] > 1);
            if card.latency > 0 && card.read_wait > card.write_wait && has_singles {
                let waited = Contest::new(board, (master, slave), reading_turn).waited();
                assert!(waited < wait(&board, master, slave), "seed {seed}");
                shorter += 1;
            }
        }
    }
    assert!(shorter > 30, "only {shorter}");
}

/// Masters that post at one card nearly always: singles, mostly writes, and the longest bursts, mostly reads.
struct Crowd {
    fabric: Fabric,
    random: Random,
    slave: usize,
    /// Clocks since the post, for those that had no cycle yet.
    waiting: Vec<Option<u64>>,
}

impl Crowd {
    fn transfer(&mut self, master: usize) -> Transfer {
        let board = &self.fabric.board;
        let most = most_beats(board, master, self.slave);
        let beats = match self.random.chance(1, 6) {
            true => most,
            false => 1,
        };
        let write = self.random.chance(5, 6) != (beats > 1);
        whole(&self.fabric.board, master, self.slave, write, beats)
    }

    fn posts(&mut self) {
        for master in 0..self.waiting.len() {
            let connected = self.fabric.board.connected(master, self.slave);
            let holds = self.fabric.state.transfers[master].held;
            if connected && !holds && self.random.chance(15, 16) {
                let transfer = self.transfer(master);
                post(&mut self.fabric, master, transfer);
                self.waiting[master] = Some(0);
            }
        }
    }

    /// How many first cycles there are in so many clocks, none of them later than quoted.
    fn run(&mut self, clocks: usize) -> usize {
        let mut first_cycles = 0;
        for _ in 0..clocks {
            self.posts();
            let line = self.fabric.clock().lines[self.slave];
            if line.phase > 0 {
                first_cycles += usize::from(self.waiting[line.owner as usize].take().is_some());
            }
            for (master, waited) in self.waiting.iter_mut().enumerate() {
                if let Some(clocks) = waited {
                    *clocks += 1;
                    assert!(*clocks <= wait(&self.fabric.board, master, self.slave));
                }
            }
        }
        first_cycles
    }
}

#[test]
fn nobody_waits_longer_where_all_crowd_at_one_card() {
    let mut first_cycles = 0;
    for seed in 0..150 {
        let board = generated_board(seed);
        let late = (0..board.slave_count as usize).find(|&slave| board.slaves[slave].latency > 0);
        let mut crowd = Crowd {
            fabric: Fabric::of_board(board),
            random: Random::new(seed),
            slave: late.unwrap_or(0),
            waiting: vec![None; board.master_count as usize],
        };
        first_cycles += crowd.run(1500);
    }
    assert!(first_cycles > 20_000, "only {first_cycles}");
}

/// The board of document 01 with other waits and a latency.
fn late_board(read_wait: u8, write_wait: u8, latency: u32) -> String {
    BOARD.replace(
        ",1,0,0,0\n",
        &format!(",{read_wait},{write_wait},0,{latency}\n"),
    )
}

#[test]
fn the_rows_of_the_table_with_a_latency() {
    let rows = |read_wait, write_wait, latency| {
        let lines = table(late_board(read_wait, write_wait, latency).as_bytes());
        lines.replace("master,slave,wait,serve\n", "")
    };
    assert_eq!(rows(1, 0, 0), "0,0,6,32\n1,0,36,2\n");
    // singles of 2 × 1 and 1 × 1: turns of 1 × 2 + 32 and 2 × 1 + 2
    for latency in [1, 2, 63] {
        assert_eq!(rows(1, 0, latency), "0,0,4,32\n1,0,34,2\n");
    }
    // the write wait is the longer one, and counts for all
    for latency in [0, 1, 63] {
        assert_eq!(rows(0, 1, latency), "0,0,6,32\n1,0,36,2\n");
        assert_eq!(rows(1, 1, latency), "0,0,6,32\n1,0,36,2\n");
    }
    // an access of 6 clocks, a single's of 3: turns of 1 × 2 × 3 + 8 × 2 × 6 and 2 × 3 + 6
    assert_eq!(rows(5, 2, 9), "0,0,12,96\n1,0,102,6\n");
    assert_eq!(rows(5, 2, 0), "0,0,18,96\n1,0,108,6\n");
}

#[test]
fn a_native_card_has_singles_of_one_access() {
    let text = "master,4,8\nmaster,2,1\nslave,4096,4096,2,8,3,1,1,7\nshare,0,0,2\nshare,1,0,3\n";
    // turns of 1 × 2 + 8 × 4 and 2 × 2 + 4
    assert_eq!(
        table(text.as_bytes()),
        "master,slave,wait,serve\n0,0,8,32\n1,0,34,4\n"
    );
}

#[test]
fn only_the_cards_with_a_latency_have_shorter_turns() {
    let text = "master,1,1\nmaster,1,1\nslave,0,8,1,1,4,0,0,0\nslave,8,8,1,1,4,0,0,1\n\
                share,0,0,3\nshare,0,1,3\nshare,1,0,5\nshare,1,1,5\n";
    let expected = "master,slave,wait,serve\n0,0,25,5\n0,1,9,5\n1,0,15,5\n1,1,7,5\n";
    assert_eq!(table(text.as_bytes()), expected);
}

#[test]
fn how_long_the_latency_is_changes_no_figure() {
    let mut changed = 0;
    for seed in 0..200 {
        let board = generated_board(seed);
        let with = |latency: u32| {
            let mut board = board;
            for slave in &mut board.slaves {
                slave.latency = latency;
            }
            table(write(&board).as_bytes())
        };
        assert_eq!(with(1), with(63));
        changed += usize::from(with(0) != with(1));
    }
    assert!(
        changed > 60,
        "only {changed} boards have other figures without a latency"
    );
}

#[test]
fn the_worst_history_of_the_rows() {
    // waits of 5 and 2: master 0 writes a single and reads a burst, master 1 writes two singles and reads one
    let mut fabric = Fabric::new(&late_board(5, 2, 9));
    assert_eq!(fabric.post(1, read_of(4096, 3, 1), &[]), 0);
    assert_eq!(fabric.post(0, write_of(4096, 15, 1), &[1, 2, 3, 4]), 0);
    let mut first_cycle = 0;
    for clock in 1..=103 {
        let answer = fabric.clock();
        if clock == 6 {
            assert_eq!(answer.mask, 1);
            assert_eq!(fabric.post(0, read_of(4096, 15, 8), &[]), 0);
        }
        if first_cycle == 0 && answer.lines[0].owner == 1 {
            first_cycle = clock;
        }
    }
    assert_eq!(first_cycle, 102 + 1);
    // the finish is no later than wait, own length and latency: 102 + 6 + 9
    let finished = (104..=117).find(|_| fabric.clock().mask & 2 != 0);
    assert_eq!(finished, Some(117));
}
