//! Times the library's calls against the model, in one run. Before a call is timed both sides have to answer the same.

mod library;
mod measure;
mod sides;
mod traffic;

use std::env;
use std::fs;
use std::hint::black_box;
use std::io;
use std::path::PathBuf;
use std::process::ExitCode;

use measure::{clocks_to_a_second, measure, microseconds, report};
use model::board::{Board, MASTER_LIMIT, SLAVE_LIMIT};
use model::description;
use model::fabric::BUFFER_LENGTH;
use model::table;
use model::wait::{wait_call, ANSWER_LENGTH};
use sides::{Library, Model};
use traffic::{Pace, Plan};

/// Calls of a round, and clocks of a round. A round is far shorter than a turn of the scheduler, so that on a busy machine too
/// some rounds of each side are not interrupted.
const CALLS: u32 = 16;
const CLOCKS: u32 = 128;

/// Masters and slaves of the boards that the traffic is made on.
const SIZES: [(usize, usize); 3] = [(2, 1), (8, 4), (8, 16)];

/// A board's numbers in the order of the library's array.
fn numbers(board: &Board) -> [u32; library::BOARD] {
    let counts = [board.master_count, board.slave_count].map(u32::from);
    let masters = board
        .masters
        .iter()
        .flat_map(|master| [master.width, master.burst]);
    let slaves = board.slaves.iter().flat_map(|slave| {
        let bytes = [slave.width, slave.burst, slave.read_wait, slave.write_wait];
        [slave.base, slave.span]
            .into_iter()
            .chain(bytes.map(u32::from))
            .chain([slave.native, slave.latency])
    });
    let shares = board.shares.into_iter().flatten();
    let mut numbers = counts.to_vec();
    numbers.extend(masters.map(u32::from));
    numbers.extend(slaves);
    numbers.extend(shares.map(u32::from));
    numbers.push(board.default.into());
    numbers.try_into().expect("a board has as many numbers")
}

fn bench_read(text: &[u8]) {
    let of_model = description::read(text).expect("the largest board is refused");
    let mut board = [0; library::BOARD];
    assert_eq!(library::read(text, &mut board), 0);
    assert_eq!(board, numbers(&of_model));
    let mut model = |count| {
        for _ in 0..count {
            let _ = black_box(description::read(black_box(text)));
        }
    };
    let mut library = |count| {
        for _ in 0..count {
            let mut board = [0; library::BOARD];
            black_box(library::read(black_box(text), &mut board));
            black_box(&mut board);
        }
    };
    let measured = measure(CALLS, &mut library, &mut model);
    report("read largest board", measured, microseconds);
}

/// A master and a slave for each call: all pairs, one after another.
fn pair(call: u32) -> (u32, u32) {
    let (masters, slaves) = (MASTER_LIMIT as u32, SLAVE_LIMIT as u32);
    (call / slaves % masters, call % slaves)
}

fn compare_waits(text: &[u8]) {
    let pairs = (MASTER_LIMIT * SLAVE_LIMIT) as u32;
    for (master, slave) in (0..pairs).map(pair) {
        let mut of_model = [0; ANSWER_LENGTH];
        let mut of_library = [0; ANSWER_LENGTH];
        let number = wait_call(text, master, slave, &mut of_model) as u32;
        assert_eq!(library::wait(text, master, slave, &mut of_library), number);
        assert_eq!(of_library, of_model);
    }
}

fn bench_wait(text: &[u8]) {
    compare_waits(text);
    let mut answer = [0; ANSWER_LENGTH];
    let mut model = |count| {
        for call in 0..count {
            let (master, slave) = black_box(pair(call));
            black_box(wait_call(black_box(text), master, slave, &mut answer));
            black_box(&mut answer);
        }
    };
    let mut answer = [0; ANSWER_LENGTH];
    let mut library = |count| {
        for call in 0..count {
            let (master, slave) = black_box(pair(call));
            black_box(library::wait(black_box(text), master, slave, &mut answer));
            black_box(&mut answer);
        }
    };
    let measured = measure(CALLS, &mut library, &mut model);
    report("fabric_wait largest board", measured, microseconds);
}

/// The table of a text, printed into what is lent for it.
fn bench_table(name: &str, text: &[u8]) {
    let mut page = [0; library::TABLE];
    let length = library::table(text, &mut page);
    assert_eq!(&page[..length], table::table(text).as_bytes());
    let mut model = |count| {
        for _ in 0..count {
            black_box(table::table(black_box(text)));
        }
    };
    let mut library = |count| {
        for _ in 0..count {
            black_box(library::table(black_box(text), &mut page));
            black_box(&mut page);
        }
    };
    let measured = measure(CALLS, &mut library, &mut model);
    report(&format!("print_table {name}"), measured, microseconds);
}

/// Memory and buffer of a side.
fn stores(slaves: usize) -> (Vec<u8>, Vec<u8>) {
    let memory = (0..slaves * traffic::SPAN).map(|i| i as u8).collect();
    (memory, vec![0; BUFFER_LENGTH])
}

/// A traffic on a board, in clocks with their posts. The board is read once, before; each round starts with a reset, so that
/// all rounds are alike.
fn bench_traffic(masters: usize, slaves: usize, plan: Plan) {
    let text = traffic::board_text(masters, slaves);
    let board = &description::read(text.as_bytes()).expect("the traffic's board is refused");
    let mut numbers = [0; library::BOARD];
    assert_eq!(library::read(text.as_bytes(), &mut numbers), 0);
    let (mut memory, mut buffer) = stores(slaves);
    let mut of_library = |clocks, look| {
        let mut side = Library::start(&numbers, &mut memory, &mut buffer);
        traffic::run(black_box(&mut side), board, plan, clocks, look)
    };
    let (mut memory, mut buffer) = stores(slaves);
    let mut of_model = |clocks, look| {
        let mut side = Model::start(board, &mut memory, &mut buffer, look);
        traffic::run(black_box(&mut side), board, plan, clocks, look)
    };
    let sums = of_library(1000, true);
    assert_eq!(sums, of_model(1000, true));
    assert_eq!((sums.refused, sums.clocks), (0, 1000));
    let mut library = |count| {
        black_box(of_library(count, false));
    };
    let mut model = |count| {
        black_box(of_model(count, false));
    };
    let measured = measure(CLOCKS, &mut library, &mut model);
    let name = format!("{} {masters} x {slaves}{}", plan.call(), plan.kind());
    report(&name, measured, clocks_to_a_second);
}

/// Singles whose traffic is made in Rattle, so that the calls can be inlined in it. Both sides read the board in each round.
fn bench_rattle(masters: usize, slaves: usize) {
    let text = traffic::board_text(masters, slaves);
    let text = text.as_bytes();
    let plan = Plan {
        pace: Pace::Clock,
        beats: 1,
    };
    let (mut memory, mut buffer) = stores(slaves);
    let mut of_library = |clocks| library::clocks(text, &mut memory, &mut buffer, clocks);
    let (mut memory, mut buffer) = stores(slaves);
    let mut of_model = |clocks| {
        let board = &description::read(text).expect("the traffic's board is refused");
        let mut side = Model::start(board, &mut memory, &mut buffer, false);
        traffic::run(black_box(&mut side), board, plan, clocks, false).masks
    };
    assert_eq!(of_library(1000), of_model(1000));
    let mut library = |count| {
        black_box(of_library(count));
    };
    let mut model = |count| {
        black_box(of_model(count));
    };
    let measured = measure(CLOCKS, &mut library, &mut model);
    let name = format!("clock {masters} x {slaves} from Rattle, with the reading");
    report(&name, measured, clocks_to_a_second);
}

/// The plans of the traffic: singles and bursts, clock by clock and by runs.
fn plans() -> impl Iterator<Item = Plan> {
    let paces = [Pace::Clock, Pace::Run];
    paces
        .into_iter()
        .flat_map(|pace| [1, 8].map(|beats| Plan { pace, beats }))
}

fn bench_plan(plan: Plan) {
    for (masters, slaves) in SIZES {
        bench_traffic(masters, slaves, plan);
    }
}

fn run() -> io::Result<()> {
    let folder = PathBuf::from(env::args().nth(1).unwrap_or_else(|| "boards".to_string()));
    let text = fs::read(folder.join("largest.txt"))?;
    bench_read(&text);
    bench_wait(&text);
    bench_table("largest board", &text);
    bench_table("crane", &fs::read(folder.join("crane.txt"))?);
    plans().for_each(bench_plan);
    for (masters, slaves) in SIZES {
        bench_rattle(masters, slaves);
    }
    Ok(())
}

fn main() -> ExitCode {
    match run() {
        Ok(()) => ExitCode::SUCCESS,
        Err(error) => {
            eprintln!("{error}");
            ExitCode::FAILURE
        }
    }
}
