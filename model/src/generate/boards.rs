//! Boards that the reader takes, of all sizes.

use std::fs;
use std::io;
use std::path::Path;

use super::random::Random;
use super::texts;
use crate::board::{
    Board, Master, Slave, BURSTS, LATENCY_LIMIT, MASTER_LIMIT, MEMORY_LIMIT, SLAVE_LIMIT, WIDTHS,
};
use crate::description::{check_board, write_lines};

/// How large a board is to be.
#[derive(Clone, Copy, PartialEq, Eq)]
pub enum Size {
    Tiny,
    Small,
    /// Many masters, few slaves.
    Crowded,
    Any,
    Largest,
}

fn masters_of(random: &mut Random, size: Size) -> usize {
    match size {
        Size::Tiny => 1,
        Size::Small => random.between(1, 4),
        Size::Crowded => random.between(3, MASTER_LIMIT),
        Size::Any => random.between(1, MASTER_LIMIT),
        Size::Largest => MASTER_LIMIT,
    }
}

fn slaves_of(random: &mut Random, size: Size) -> usize {
    match size {
        Size::Tiny => 1,
        Size::Small => random.between(1, 3),
        Size::Crowded => random.between(1, 2),
        Size::Any => random.between(1, SLAVE_LIMIT),
        Size::Largest => SLAVE_LIMIT,
    }
}

/// Spans that fill the whole memory, by halving.
pub fn spans_to_the_limit(random: &mut Random, count: usize) -> Vec<u64> {
    let mut spans = vec![MEMORY_LIMIT];
    while spans.len() < count {
        let index = random.below(spans.len());
        if spans[index] >= 16 {
            spans[index] /= 2;
            spans.push(spans[index]);
        }
    }
    random.shuffle(&mut spans);
    spans
}

fn spans_below_the_limit(random: &mut Random, count: usize) -> Vec<u64> {
    let mut room = MEMORY_LIMIT;
    let mut spans = Vec::new();
    for index in 0..count {
        let most = room - 8 * (count - index - 1) as u64;
        let highest = most.ilog2() as usize;
        let usual = if random.chance(3, 4) { 8 } else { 16 };
        let span = 1u64 << random.between(3, highest.min(usual).max(3));
        spans.push(span);
        room -= span;
    }
    spans
}

fn spans(random: &mut Random, count: usize) -> Vec<u64> {
    if random.chance(1, 6) {
        spans_to_the_limit(random, count)
    } else {
        spans_below_the_limit(random, count)
    }
}

fn is_free(slaves: &[Slave], base: u64, span: u64) -> bool {
    base + span <= 1 << 32
        && slaves.iter().all(|slave| {
            let other = slave.base as u64;
            base + span <= other || other + slave.span as u64 <= base
        })
}

/// A base that is a multiple of the span, not yet known to be free.
fn base_candidate(random: &mut Random, slaves: &[Slave], span: u64) -> u64 {
    let neighbour = match slaves.is_empty() {
        true => Slave::default(),
        false => random.pick(slaves),
    };
    let low = neighbour.base as u64;
    let high = low + neighbour.span as u64;
    let base = match random.below(12) {
        0 => 0,
        1 => (1 << 32) - span,
        2..=5 => high.div_ceil(span) * span,
        6 | 7 => low.saturating_sub(span),
        8 => random.draw() % (1 << 32),
        9 => random.draw() % (1 << 31),
        _ => random.draw() % (1 << 18),
    };
    base / span * span
}

/// A base at which a slave of this span overlaps no other.
pub fn free_base(random: &mut Random, slaves: &[Slave], span: u64) -> u64 {
    loop {
        let base = base_candidate(random, slaves, span);
        if is_free(slaves, base, span) {
            return base;
        }
    }
}

/// The longest wait of a board's slaves.
fn wait_limit(random: &mut Random) -> usize {
    match random.below(20) {
        0..=4 => 0,
        5..=11 => 2,
        12..=16 => 6,
        17 | 18 => 30,
        _ => 255,
    }
}

fn wait(random: &mut Random, limit: usize) -> u8 {
    if random.chance(1, 6) {
        limit as u8
    } else {
        random.between(0, limit) as u8
    }
}

/// Read wait and write wait of a slave. In one of four slaves a direction has no wait, and the other the longest: then only the
/// longer of the two gives the table's figures.
fn waits(random: &mut Random, limit: usize) -> (u8, u8) {
    match random.below(8) {
        0 => (limit as u8, 0),
        1 => (0, limit as u8),
        _ => (wait(random, limit), wait(random, limit)),
    }
}

/// The longest latency of a board's slaves; one board of four has none. Mostly it is short, so that masters post often.
fn latency_limit(random: &mut Random) -> usize {
    match random.below(16) {
        0..=3 => 0,
        4..=9 => 3,
        10..=12 => 12,
        _ => LATENCY_LIMIT as usize,
    }
}

/// A slave's latency; some have none on any board.
fn latency(random: &mut Random, limit: usize) -> u32 {
    let latency = match random.below(8) {
        0 | 1 => 0,
        2 => limit,
        3 => random.between(0, limit.min(3)),
        _ => random.between(0, limit),
    };
    latency as u32
}

fn shares(random: &mut Random, limit: usize) -> u8 {
    if random.chance(1, 8) {
        limit as u8
    } else {
        random.between(1, limit) as u8
    }
}

/// Gives the pairs their shares, or leaves them unconnected; every master gets a share line.
fn connect(random: &mut Random, board: &mut Board, size: Size) {
    let limit = random.pick(&[1, 2, 3, 4, 5, 8, 100]);
    // of eight pairs, how many are connected
    let density = match random.below(20) {
        _ if size == Size::Largest => 8,
        // then each master has exactly one
        0 => 0,
        1 | 2 => 1,
        3 | 4 => 3,
        5..=8 => 6,
        _ => 8,
    };
    for (master, slave) in board.pairs() {
        if random.chance(density, 8) {
            board.shares[master][slave] = shares(random, limit);
        }
    }
    disconnect_narrow(board);
    connect_rest(random, board, limit);
}

/// Gives each master that has no share line one, of at most so many shares.
pub fn connect_rest(random: &mut Random, board: &mut Board, limit: usize) {
    for master in 0..board.master_count as usize {
        if !board.has_share(master) {
            let slave = slave_for(random, board, master);
            board.shares[master][slave] = shares(random, limit);
        }
    }
}

/// A slave that the master can be connected with. Where all of them are native and wider than the master, it becomes as wide as
/// the one picked.
fn slave_for(random: &mut Random, board: &mut Board, master: usize) -> usize {
    let slaves = board.slave_count as usize;
    let fitting: Vec<usize> = (0..slaves)
        .filter(|&slave| !board.too_narrow(master, slave))
        .collect();
    if !fitting.is_empty() {
        return random.pick(&fitting);
    }
    let slave = random.below(slaves);
    board.masters[master].width = board.slaves[slave].width;
    slave
}

/// Takes away the shares at native slaves that are wider than the master.
pub fn disconnect_narrow(board: &mut Board) {
    for (master, slave) in board.pairs() {
        if board.too_narrow(master, slave) {
            board.shares[master][slave] = 0;
        }
    }
}

/// Two widths, the second one larger.
pub fn uneven_widths(random: &mut Random) -> (u8, u8) {
    let narrow = random.between(0, WIDTHS.len() - 2);
    let wide = random.between(narrow + 1, WIDTHS.len() - 1);
    (WIDTHS[narrow] as u8, WIDTHS[wide] as u8)
}

/// A width, at most the limit.
fn width_up_to(random: &mut Random, limit: u8) -> u8 {
    let widths: Vec<u64> = WIDTHS
        .into_iter()
        .filter(|&width| width <= limit as u64)
        .collect();
    random.pick(&widths) as u8
}

/// The width and the native field of a slave: one of three is native, and then mostly such that some master can be connected
/// with it.
pub fn alignment(random: &mut Random, masters: &[Master]) -> (u8, u32) {
    if !random.chance(1, 3) {
        return (random.pick(&WIDTHS) as u8, 0);
    }
    let limit = match random.chance(1, 8) {
        true => 8,
        false => random.pick(masters).width,
    };
    (width_up_to(random, limit), 1)
}

/// Puts each slave where no earlier one lies.
fn place_slaves(random: &mut Random, board: &mut Board) {
    let limit = wait_limit(random);
    let spans = spans(random, board.slave_count as usize);
    for (index, &span) in spans.iter().enumerate() {
        let (width, native) = alignment(random, &board.masters[..board.master_count as usize]);
        let (read_wait, write_wait) = waits(random, limit);
        board.slaves[index] = Slave {
            base: free_base(random, &board.slaves[..index], span) as u32,
            span: span as u32,
            width,
            burst: random.pick(&BURSTS) as u8,
            read_wait,
            write_wait,
            native,
            latency: 0,
        };
    }
}

/// Latencies are drawn behind all else: they change nothing of what a seed gives beside.
fn set_latencies(random: &mut Random, board: &mut Board) {
    let limit = latency_limit(random);
    for slave in &mut board.slaves[..board.slave_count as usize] {
        slave.latency = latency(random, limit);
    }
}

/// A board that the reader takes.
pub fn board(random: &mut Random, size: Size) -> Board {
    let mut board = Board {
        master_count: masters_of(random, size) as u8,
        slave_count: slaves_of(random, size) as u8,
        ..Board::default()
    };
    for master in &mut board.masters[..board.master_count as usize] {
        *master = Master {
            width: random.pick(&WIDTHS) as u8,
            burst: random.pick(&BURSTS) as u8,
        };
    }
    place_slaves(random, &mut board);
    connect(random, &mut board, size);
    set_latencies(random, &mut board);
    // behind all else too
    board.default = random.chance(1, 2);
    debug_assert!(check_board(&board).is_ok());
    board
}

/// A slave whose line is as long as one can be beside the others: the memory has room for three spans of five digits and thirteen
/// of four. They lie below the highest address, downward. Every other one is native, and so narrow that all masters can be
/// connected with it.
fn longest_slave(index: usize) -> Slave {
    let native = index % 2 == 1;
    let spans = |index: usize| if index < 3 { 16_384 } else { 1_024 };
    let below: u32 = (0..=index).map(spans).sum();
    Slave {
        base: u32::MAX - below + 1,
        span: spans(index),
        width: if native { 1 } else { 8 },
        burst: 64,
        read_wait: 255,
        write_wait: 255,
        native: native as u32,
        latency: LATENCY_LIMIT as u32,
    }
}

/// A board with the longest lines there can be.
pub fn longest_board(random: &mut Random) -> Board {
    let mut board = board(random, Size::Largest);
    for master in &mut board.masters {
        master.burst = 64;
    }
    board.slaves = std::array::from_fn(longest_slave);
    board.shares = [[100; SLAVE_LIMIT]; MASTER_LIMIT];
    board.default = true;
    debug_assert!(check_board(&board).is_ok());
    board
}

pub fn any_size(random: &mut Random) -> Size {
    match random.below(20) {
        0 => Size::Tiny,
        1..=5 => Size::Small,
        6..=12 => Size::Crowded,
        13..=18 => Size::Any,
        _ => Size::Largest,
    }
}

/// The lines of a board, as a text of it has them.
pub fn lines(board: &Board) -> Vec<Vec<u8>> {
    write_lines(board)
        .into_iter()
        .map(String::into_bytes)
        .collect()
}

/// The lines, each with its line feed.
pub fn joined(lines: &[Vec<u8>]) -> Vec<u8> {
    let mut text = Vec::new();
    for line in lines {
        text.extend_from_slice(line);
        text.push(b'\n');
    }
    text
}

fn taken_text(random: &mut Random) -> Vec<u8> {
    let size = any_size(random);
    let board = match random.chance(1, 40) {
        true => longest_board(random),
        false => board(random, size),
    };
    joined(&lines(&board))
}

/// Boards for the simulator and the table, a file each: about four in five are taken by the reader, one in a hundred is about
/// as long as a text may be or longer.
pub fn write_boards(seed: u64, count: usize, directory: &Path) -> io::Result<()> {
    fs::create_dir_all(directory)?;
    let mut random = Random::new(seed);
    let plans = texts::damaging_plans();
    for index in 0..count {
        let text = match random.below(100) {
            0..=9 => {
                let plan = random.pick(&plans);
                texts::text(&mut random, plan)
            }
            10..=13 => {
                let plan = texts::unconnected_plan(&mut random);
                texts::text(&mut random, plan)
            }
            14 => {
                let plan = texts::long_plan(&mut random);
                texts::text(&mut random, plan)
            }
            15..=17 => {
                let plan = texts::unordered_plan(&mut random);
                texts::text(&mut random, plan)
            }
            18 | 19 => {
                let plan = texts::latency_plan(&mut random);
                texts::text(&mut random, plan)
            }
            20 => {
                let plan = texts::default_plan(&mut random);
                texts::text(&mut random, plan)
            }
            _ => taken_text(&mut random),
        };
        fs::write(directory.join(format!("{index}.txt")), text)?;
    }
    Ok(())
}
