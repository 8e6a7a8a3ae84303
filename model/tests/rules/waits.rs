//! The quoted wait and its table.

use crate::BOARD;
use model::board::Board;
use model::description::write;
use model::generate::boards::{any_size, board};
use model::generate::random::Random;
use model::table::table;
use model::wait::{serve, wait, wait_call};

/// The boards of 300 seeds, of all sizes.
fn generated_boards() -> impl Iterator<Item = Board> {
    (0..300).map(|seed| {
        let mut random = Random::new(seed);
        let size = any_size(&mut random);
        board(&mut random, size)
    })
}

/// Three masters that differ in width, burst and shares, at one card of 4 bytes with these waits.
fn three_at_a_card(read_wait: u8, write_wait: u8) -> String {
    format!(
        "master,4,8\nmaster,2,1\nmaster,8,4\n\
         slave,0,4096,4,2,{read_wait},{write_wait},0,0\n\
         share,0,0,2\nshare,1,0,3\nshare,2,0,1\n"
    )
}

/// By hand, where an access lasts 6 clocks: singles of 6, 6 and 12, turns of 6 + 48, 12 + 6 and 48.
const THREE_AT_6_CLOCKS: &str = "master,slave,wait,serve\n0,0,66,48\n1,0,102,6\n2,0,72,48\n";

#[test]
fn the_table_has_wait_and_serve_of_each_pair() {
    let expected = "master,slave,wait,serve\n0,0,6,32\n1,0,36,2\n";
    assert_eq!(table(BOARD.as_bytes()), expected);
}

#[test]
fn no_transfer_is_longer_than_the_span() {
    let small_span = b"master,4,64\nslave,0,8,4,8,0,0,0,0\nshare,0,0,1\n";
    assert_eq!(table(small_span), "master,slave,wait,serve\n0,0,0,2\n");
}

#[test]
fn an_unconnected_pair_has_no_line() {
    let text = b"master,4,8\nslave,0,8,2,8,1,0,0,0\nslave,8,8,4,8,0,0,0,0\nshare,0,1,1\n";
    assert_eq!(table(text), "master,slave,wait,serve\n0,1,0,2\n");
}

#[test]
fn the_table_of_a_refused_text_is_its_number() {
    assert_eq!(table(b""), "refused,2\n");
}

#[test]
fn the_wait_call_writes_16_bytes() {
    let mut output = [9; 17];
    assert_eq!(wait_call(BOARD.as_bytes(), 1, 0, &mut output), 0);
    let expected = [36, 0, 0, 0, 0, 0, 0, 0, 2, 0, 0, 0, 0, 0, 0, 0, 9];
    assert_eq!(output, expected);
}

#[test]
fn a_refused_wait_call_writes_nothing() {
    let mut short = [9; 15];
    assert_eq!(wait_call(BOARD.as_bytes(), 9, 9, &mut short), 10);
    assert_eq!(short, [9; 15]);
    let mut output = [9; 16];
    assert_eq!(wait_call(BOARD.as_bytes(), 2, 0, &mut output), 11);
    assert_eq!(wait_call(BOARD.as_bytes(), 1, 1, &mut output), 16);
    assert_eq!(output, [9; 16]);
}

#[test]
fn the_longer_wait_counts_whichever_direction_it_is_of() {
    for (read_wait, write_wait) in [(5, 2), (2, 5), (5, 0), (0, 5), (5, 5), (5, 4), (4, 5)] {
        let text = three_at_a_card(read_wait, write_wait);
        assert_eq!(table(text.as_bytes()), THREE_AT_6_CLOCKS, "{text}");
    }
    // an access of 1 clock: a sixth of the figures above; one of 256: these 256 times
    let without_waits = "master,slave,wait,serve\n0,0,11,8\n1,0,17,1\n2,0,12,8\n";
    assert_eq!(table(three_at_a_card(0, 0).as_bytes()), without_waits);
    let longest = "master,slave,wait,serve\n0,0,2816,2048\n1,0,4352,256\n2,0,3072,2048\n";
    for (read_wait, write_wait) in [(255, 0), (0, 255), (255, 254), (254, 255), (255, 255)] {
        let text = three_at_a_card(read_wait, write_wait);
        assert_eq!(table(text.as_bytes()), longest, "{text}");
    }
}

#[test]
fn each_slave_has_waits_of_its_own() {
    // 2, 8 and 4 clocks for an access, the longer wait the read's, the write's and the read's
    let text = b"master,2,4\nmaster,1,2\n\
                 slave,0,8,1,1,1,0,0,0\nslave,8,8,1,1,2,7,0,0\nslave,16,8,1,1,3,1,0,0\n\
                 share,0,0,1\nshare,0,1,2\nshare,0,2,3\n\
                 share,1,0,4\nshare,1,1,5\nshare,1,2,6\n";
    // master 0: singles 4, 16, 8; serves 16, 64, 32; turns 16, 80, 48
    // master 1: singles 2, 8, 4; serves 4, 16, 8; turns 10, 48, 28
    let expected = "master,slave,wait,serve\n\
                    0,0,10,16\n0,1,48,64\n0,2,28,32\n\
                    1,0,16,4\n1,1,80,16\n1,2,48,8\n";
    assert_eq!(table(text), expected);
}

#[test]
fn masters_that_are_not_connected_count_nothing() {
    // an access of 4 clocks: the turns are 4, 3 × 4 + 8 and 9 × 4 + 4
    let text = |middle: &str| {
        format!(
            "master,1,1\nmaster,1,2\nmaster,1,1\n\
             slave,0,8,1,1,3,1,0,0\nslave,8,8,1,1,0,0,0,0\n\
             share,0,0,1\n{middle}share,2,0,10\n"
        )
    };
    let all = "master,slave,wait,serve\n0,0,60,4\n1,0,44,8\n2,0,24,4\n";
    assert_eq!(table(text("share,1,0,4\n").as_bytes()), all);
    let without_1 = "master,slave,wait,serve\n0,0,40,4\n1,1,0,2\n2,0,4,4\n";
    assert_eq!(table(text("share,1,1,4\n").as_bytes()), without_1);
}

#[test]
fn a_master_does_not_wait_for_its_own_turn() {
    // burst and shares of master 0 change what it is served and what the others wait
    let text = |burst: u8, shares: u8| {
        format!(
            "master,1,{burst}\nmaster,1,1\nmaster,1,1\nslave,0,64,1,1,0,2,0,0\n\
             share,0,0,{shares}\nshare,1,0,1\nshare,2,0,2\n"
        )
    };
    let header = "master,slave,wait,serve\n";
    let lines = |burst, shares| table(text(burst, shares).as_bytes()).replace(header, "");
    assert_eq!(lines(1, 1), "0,0,9,3\n1,0,9,3\n2,0,6,3\n");
    assert_eq!(lines(1, 100), "0,0,9,3\n1,0,306,3\n2,0,303,3\n");
    assert_eq!(lines(64, 1), "0,0,9,192\n1,0,198,3\n2,0,195,3\n");
    assert_eq!(lines(64, 100), "0,0,9,192\n1,0,495,3\n2,0,492,3\n");
}

#[test]
fn a_master_alone_at_a_slave_waits_for_nobody() {
    let text = b"master,8,64\nslave,0,4096,1,1,255,7,0,0\nshare,0,0,100\n";
    assert_eq!(table(text), "master,slave,wait,serve\n0,0,0,131072\n");
    let mut alone = 0;
    for board in generated_boards() {
        for (master, slave) in board.pairs() {
            let masters = 0..board.master_count as usize;
            if masters
                .filter(|&other| board.connected(other, slave))
                .count()
                == 1
                && board.connected(master, slave)
            {
                assert_eq!(wait(&board, master, slave), 0);
                alone += 1;
            }
        }
    }
    assert!(alone > 100, "only {alone}");
}

fn without_latencies(mut board: Board) -> Board {
    for slave in &mut board.slaves {
        slave.latency = 0;
    }
    board
}

#[test]
fn read_and_write_wait_exchanged_leave_every_figure() {
    let mut uneven = 0;
    for board in generated_boards() {
        let board = without_latencies(board);
        let mut exchanged = board;
        for slave in &mut exchanged.slaves {
            (slave.read_wait, slave.write_wait) = (slave.write_wait, slave.read_wait);
        }
        let tables = [board, exchanged].map(|board| table(write(&board).as_bytes()));
        assert_eq!(tables[0], tables[1]);
        uneven += usize::from(board != exchanged);
    }
    assert!(uneven > 100, "only {uneven}");
}

/// A master's turn as document 01 and document 02, S-6, have it, from the board's numbers alone.
fn turn_by_the_paper(board: &Board, master: usize, slave: usize) -> u64 {
    let shares = board.shares[master][slave] as u64;
    let (master, slave) = (&board.masters[master], &board.slaves[slave]);
    let v = 1 + u64::from(std::cmp::max(slave.read_wait, slave.write_wait));
    let wider = master.width > slave.width && slave.native == 0;
    let r = if wider { master.width / slave.width } else { 1 } as u64;
    let words = slave.span as u64 / master.width as u64;
    let n = std::cmp::min(master.burst as u64, words);
    match slave.latency {
        0 => (shares - 1) * r * v + n * r * v,
        _ => (shares - 1) * r * (1 + slave.write_wait as u64) + n * r * v,
    }
}

#[test]
fn wait_and_own_turn_are_together_the_same_for_all_at_a_slave() {
    let mut contested = 0;
    for board in generated_boards() {
        for slave in 0..board.slave_count as usize {
            let rotations: Vec<u64> = (0..board.master_count as usize)
                .filter(|&master| board.connected(master, slave))
                .map(|master| {
                    wait(&board, master, slave) + turn_by_the_paper(&board, master, slave)
                })
                .collect();
            assert!(rotations.windows(2).all(|pair| pair[0] == pair[1]));
            contested += usize::from(rotations.len() > 1);
        }
    }
    assert!(contested > 500, "only {contested}");
}

#[test]
fn table_and_wait_call_have_the_same_figures() {
    for board in generated_boards() {
        let text = write(&board);
        let mut lines = String::from("master,slave,wait,serve\n");
        for (master, slave) in board.pairs() {
            let mut output = [0; 16];
            if wait_call(text.as_bytes(), master as u32, slave as u32, &mut output) == 0 {
                let wait = wait(&board, master, slave);
                let serve = serve(&board, master, slave);
                assert_eq!(output[..8], wait.to_le_bytes());
                assert_eq!(output[8..], serve.to_le_bytes());
                lines += &format!("{master},{slave},{wait},{serve}\n");
            }
        }
        assert_eq!(table(text.as_bytes()), lines);
    }
}
