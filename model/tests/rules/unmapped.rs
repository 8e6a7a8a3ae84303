//! Transfers to addresses that no connected slave has: on a board with the mark they are taken, and finished by the next clock.

use crate::fabric::{read_of, write_of, Fabric};
use crate::{BOARD, MARKED};
use model::board::Board;
use model::fabric::{Answer, Entry, SlaveLine, Slot, State, Transfer, BUFFER_LENGTH};

const WORD: [u8; 4] = [1, 2, 3, 4];

/// Master 0 is connected with the first slave only, from 64 to 127, master 1 with both; the second one is from 128 to 191, and
/// the first one has a latency.
const TWO_SLAVES: &str = "master,4,8\n\
                          master,4,8\n\
                          slave,64,64,4,8,0,0,0,2\n\
                          slave,128,64,4,8,0,0,0,0\n\
                          share,0,0,3\n\
                          share,1,0,4\n\
                          share,1,1,1\n\
                          default\n";

/// What a post answers, by the same master with the mark and without it; a refused one leaves everything.
fn numbers(master: u32, transfer: Transfer, data: &[u8]) -> [u8; 2] {
    [MARKED, BOARD].map(|text| {
        let mut fabric = Fabric::new(text);
        let before = (fabric.state, fabric.buffer);
        let number = fabric.post(master, transfer, data);
        let is_held = fabric.state.transfers.get(master as usize) == Some(&transfer);
        assert_eq!(is_held, number == 0);
        if number != 0 {
            assert_eq!((fabric.state, fabric.buffer), before);
        }
        number
    })
}

#[test]
fn what_would_answer_16_is_taken() {
    for address in [
        0,
        4,
        4092,
        8192,
        8196,
        1 << 31,
        4096 + (1 << 16),
        0xffff_fffc,
    ] {
        assert_eq!(numbers(0, read_of(address, 15, 1), &[]), [0, 16]);
        assert_eq!(numbers(0, write_of(address, 15, 1), &WORD), [0, 16]);
        assert_eq!(numbers(1, write_of(address, 2, 1), &[1, 2]), [0, 16]);
    }
    for address in [4096, 8188] {
        assert_eq!(numbers(0, read_of(address, 15, 1), &[]), [0, 0]);
    }
}

#[test]
fn numbers_13_to_15_come_before() {
    for address in [0, 4092, 8192, 0xffff_fff8] {
        assert_eq!(numbers(0, read_of(address, 15, 0), &[]), [13, 13]);
        assert_eq!(numbers(0, read_of(address, 15, 9), &[]), [13, 13]);
        assert_eq!(numbers(1, read_of(address, 3, 2), &[]), [13, 13]);
        assert_eq!(numbers(0, read_of(address + 1, 15, 1), &[]), [14, 14]);
        assert_eq!(numbers(0, read_of(address + 2, 15, 1), &[]), [14, 14]);
        assert_eq!(numbers(0, read_of(address, 6, 1), &[]), [15, 15]);
        assert_eq!(numbers(0, read_of(address, 0, 1), &[]), [15, 15]);
        assert_eq!(numbers(0, read_of(address, 16, 1), &[]), [15, 15]);
        assert_eq!(numbers(0, read_of(address, 3, 2), &[]), [15, 15]);
        // the lowest of several
        assert_eq!(numbers(0, read_of(address + 1, 6, 0), &[5]), [13, 13]);
        assert_eq!(numbers(0, read_of(address + 1, 6, 1), &[5]), [14, 14]);
        assert_eq!(numbers(0, read_of(address, 6, 1), &[5]), [15, 15]);
    }
}

#[test]
fn number_18_comes_where_16_would_have() {
    assert_eq!(numbers(0, read_of(0, 15, 1), &[5]), [18, 16]);
    assert_eq!(numbers(0, write_of(0, 15, 1), &[]), [18, 16]);
    assert_eq!(numbers(0, write_of(0, 15, 1), &WORD[..3]), [18, 16]);
    assert_eq!(numbers(0, write_of(0, 15, 2), &WORD), [18, 16]);
    assert_eq!(numbers(0, write_of(0, 15, 1), &[0; 5]), [18, 16]);
    assert_eq!(numbers(0, write_of(0, 15, 2), &[0; 8]), [0, 16]);
    // all words are handed in, whatever the lanes
    assert_eq!(numbers(0, write_of(0, 1, 1), &[7]), [18, 16]);
    assert_eq!(numbers(0, write_of(0, 1, 1), &WORD), [0, 16]);
}

#[test]
fn number_17_is_asked_of_mapped_transfers_alone() {
    // from the last word of the slave on
    assert_eq!(numbers(0, read_of(8188, 15, 2), &[]), [17, 17]);
    assert_eq!(numbers(0, read_of(8164, 15, 8), &[]), [17, 17]);
    assert_eq!(numbers(0, write_of(8188, 15, 2), &[]), [17, 17]);
    // from the word before the slave on, into it
    assert_eq!(numbers(0, read_of(4092, 15, 2), &[]), [0, 16]);
    assert_eq!(numbers(0, read_of(4068, 15, 8), &[]), [0, 16]);
    // past the highest address
    assert_eq!(numbers(0, read_of(0xffff_fffc, 15, 8), &[]), [0, 16]);
    assert_eq!(numbers(0, write_of(0xffff_fffc, 15, 2), &[0; 8]), [0, 16]);
}

#[test]
fn numbers_11_and_12_come_before() {
    assert_eq!(numbers(2, read_of(0, 15, 1), &[]), [11, 11]);
    let mut fabric = Fabric::new(MARKED);
    assert_eq!(fabric.post(0, read_of(0, 15, 1), &[]), 0);
    let before = (fabric.state, fabric.buffer);
    assert_eq!(fabric.post(0, write_of(0, 15, 1), &WORD), 12);
    assert_eq!(fabric.post(0, read_of(4096, 15, 1), &[]), 12);
    assert_eq!(fabric.post(0, read_of(1, 0, 0), &[5]), 12);
    assert_eq!((fabric.state, fabric.buffer), before);
}

#[test]
fn a_slave_that_is_not_connected_is_no_target() {
    let mut fabric = Fabric::new(TWO_SLAVES);
    let before = fabric.memory.clone();
    assert_eq!(fabric.post(0, write_of(128, 15, 8), &[9; 32]), 0);
    let answer = fabric.clock();
    assert_eq!(answer.lines, [SlaveLine::default(); 16]);
    assert_eq!(
        (answer.mask, answer.responses),
        (1, [3, 0, 0, 0, 0, 0, 0, 0])
    );
    assert_eq!(fabric.memory, before);
    // the other master has that slave
    assert_eq!(fabric.post(1, write_of(128, 15, 1), &WORD), 0);
    let answer = fabric.clock();
    assert_eq!((answer.mask, answer.responses), (2, [0; 8]));
    assert_eq!(fabric.memory[64..68], WORD);
}

#[test]
fn the_next_clock_finishes_it_with_response_3() {
    for (transfer, data) in [(read_of(0, 15, 8), &[][..]), (write_of(8192, 3, 1), &WORD)] {
        let mut fabric = Fabric::new(MARKED);
        assert_eq!(fabric.post(0, transfer, data), 0);
        assert_eq!(fabric.state.transfers[0], transfer);
        let mut expected = Answer {
            mask: 1,
            ..Answer::default()
        };
        expected.responses[0] = 3;
        assert_eq!(fabric.clock(), expected);
        assert_eq!(fabric.state.transfers[0], Transfer::default());
        assert_eq!(fabric.clock(), Answer::default());
        assert_eq!(fabric.post(0, transfer, data), 0);
        assert_eq!(fabric.clock(), expected);
    }
}

#[test]
fn clocks_until_a_finish_end_with_it() {
    let mut fabric = Fabric::new(MARKED);
    // the slave serves for 8 × 2 × 2 clocks, and is not done in the one that finishes the other
    assert_eq!(fabric.post(0, read_of(4096, 15, 8), &[]), 0);
    fabric.clock();
    assert_eq!(fabric.post(1, read_of(0, 3, 1), &[]), 0);
    assert_eq!(fabric.clock_until_finished().len(), 1);
    assert_eq!(fabric.clock_until_finished().len(), 30);
}

#[test]
fn a_read_brings_zeros() {
    let all = [0xff; BUFFER_LENGTH];
    for (master, transfer, length) in [
        (0, read_of(0, 15, 1), 4),
        (0, read_of(0, 15, 3), 12),
        (0, read_of(0, 15, 8), 32),
        (0, read_of(4092, 15, 2), 8),
        // a read fetches every lane
        (0, read_of(0, 4, 1), 4),
        (1, read_of(0, 3, 1), 2),
        (1, read_of(0, 2, 1), 2),
    ] {
        let mut fabric = Fabric::new(MARKED);
        fabric.buffer = all;
        assert_eq!(fabric.post(master, transfer, &[]), 0);
        assert_eq!(fabric.buffer, all);
        assert_eq!(fabric.clock().mask, 1 << master);
        let mut expected = all;
        let start = 512 * master as usize;
        expected[start..start + length].fill(0);
        assert_eq!(fabric.buffer, expected);
    }
}

#[test]
fn the_longest_read_fills_its_part_and_no_other() {
    let masters = "master,8,64\n".repeat(8);
    let shares: String = (0..8)
        .map(|master| format!("share,{master},0,1\n"))
        .collect();
    let text = format!("{masters}slave,0,8,8,1,0,0,0,0\n{shares}default\n");
    for master in 0..8 {
        let mut fabric = Fabric::new(&text);
        fabric.buffer = [0xff; BUFFER_LENGTH];
        assert_eq!(fabric.post(master, read_of(0xffff_fff8, 255, 64), &[]), 0);
        assert_eq!(fabric.clock().responses[master as usize], 3);
        let mut expected = [0xff; BUFFER_LENGTH];
        expected[512 * master as usize..][..512].fill(0);
        assert_eq!(fabric.buffer, expected);
    }
}

#[test]
fn a_write_leaves_its_words_and_the_memory() {
    let mut fabric = Fabric::new(MARKED);
    fabric.buffer = [0xff; BUFFER_LENGTH];
    let memory = fabric.memory.clone();
    let data: Vec<u8> = (1..=32).collect();
    // the last of its words would lie in the slave
    assert_eq!(fabric.post(0, write_of(4096 - 12, 15, 8), &data), 0);
    assert_eq!(fabric.clock().mask, 1);
    assert_eq!(fabric.buffer[..32], data);
    assert!(fabric.buffer[32..].iter().all(|&byte| byte == 0xff));
    assert_eq!(fabric.memory, memory);
    fabric.clock();
    assert_eq!(fabric.memory, memory);
}

#[test]
fn each_of_eight_masters_has_its_response() {
    let masters = "master,4,8\n".repeat(8);
    let shares: String = (0..8)
        .map(|master| format!("share,{master},0,1\n"))
        .collect();
    let text = format!("{masters}slave,0,64,4,8,0,0,0,0\n{shares}default\n");
    for unmapped in 0..=255u8 {
        let mut fabric = Fabric::new(&text);
        let mut responses = [0; 8];
        for master in (0..8).filter(|master| unmapped >> master & 1 == 1) {
            assert_eq!(fabric.post(master, read_of(64, 15, 1), &[]), 0);
            responses[master as usize] = 3;
        }
        let answer = fabric.clock();
        assert_eq!((answer.mask, answer.responses), (unmapped, responses));
        assert_eq!(fabric.state.log.count, unmapped.count_ones());
    }
}

#[test]
fn a_transfer_that_a_slave_finishes_has_response_0() {
    let mut fabric = Fabric::new(TWO_SLAVES);
    assert_eq!(fabric.post(0, read_of(0, 15, 1), &[]), 0);
    assert_eq!(fabric.post(1, read_of(128, 15, 1), &[]), 0);
    let answer = fabric.clock();
    assert_eq!(
        (answer.mask, answer.responses),
        (3, [3, 0, 0, 0, 0, 0, 0, 0])
    );
    assert_eq!((answer.lines[0].phase, answer.lines[1].phase), (0, 2));
    assert_eq!(fabric.buffer[512..516], fabric.memory[64..68]);
}

#[test]
fn a_latency_goes_on_beside() {
    let mut fabric = Fabric::new(TWO_SLAVES);
    assert_eq!(fabric.post(0, read_of(64, 15, 1), &[]), 0);
    let mut masks = Vec::new();
    for _ in 0..4 {
        assert_eq!(fabric.post(1, read_of(0, 15, 1), &[]), 0);
        let answer = fabric.clock();
        assert_eq!(answer.responses, [0, 3, 0, 0, 0, 0, 0, 0]);
        masks.push(answer.mask);
    }
    assert_eq!(masks, [2, 2, 3, 2]);
    assert_eq!(fabric.buffer[..4], fabric.memory[..4]);
}

#[test]
fn the_turns_of_others_go_on_beside() {
    let text = "master,4,8\nmaster,4,8\nmaster,4,8\nslave,0,64,4,1,0,0,0,0\n\
                share,0,0,3\nshare,1,0,4\nshare,2,0,9\ndefault\n";
    let mut fabric = Fabric::new(text);
    let mut owners = Vec::new();
    for _ in 0..8 {
        fabric.post(0, read_of(0, 15, 1), &[]);
        fabric.post(1, read_of(4, 15, 1), &[]);
        assert_eq!(fabric.post(2, read_of(64, 15, 8), &[]), 0);
        let answer = fabric.clock();
        assert_eq!(answer.responses, [0, 0, 3, 0, 0, 0, 0, 0]);
        assert_eq!(answer.mask, 4 | 1 << answer.lines[0].owner);
        owners.push(answer.lines[0].owner);
    }
    assert_eq!(owners, [0, 0, 0, 1, 1, 1, 1, 0]);
}

#[test]
fn a_master_that_is_unmapped_requests_no_slave_and_loses_its_turn() {
    let mut fabric = Fabric::new(TWO_SLAVES);
    assert_eq!(fabric.post(1, write_of(64, 15, 1), &WORD), 0);
    fabric.clock();
    assert_eq!(
        (fabric.state.slots[0].owner, fabric.state.slots[0].remaining),
        (1, 3)
    );
    assert_eq!(fabric.post(1, write_of(0, 15, 1), &WORD), 0);
    let answer = fabric.clock();
    assert_eq!(answer.lines[0], SlaveLine::default());
    let lost = Slot {
        owner: 1,
        ..Slot::default()
    };
    assert_eq!(fabric.state.slots[0], lost);
}

#[test]
fn a_slave_goes_on_serving_beside() {
    let mut alone = Fabric::new(MARKED);
    let mut beside = Fabric::new(MARKED);
    for fabric in [&mut alone, &mut beside] {
        assert_eq!(fabric.post(0, read_of(4096, 15, 3), &[]), 0);
    }
    for clock in 1..=12 {
        assert_eq!(beside.post(1, write_of(0, 1, 1), &[clock, clock]), 0);
        let (answer, expected) = (beside.clock(), alone.clock());
        assert_eq!(answer.lines, expected.lines);
        assert_eq!(answer.mask, 2 | expected.mask);
        assert_eq!(beside.state.slots, alone.state.slots);
        assert_eq!(beside.state.transfers, alone.state.transfers);
        assert_eq!(beside.buffer[..512], alone.buffer[..512]);
        assert_eq!(beside.memory, alone.memory);
    }
    assert_eq!(alone.state.transfers, [Transfer::default(); 8]);
}

#[test]
fn a_refused_clock_has_no_response() {
    let mut fabric = Fabric::new(MARKED);
    assert_eq!(fabric.post(0, read_of(0, 15, 1), &[]), 0);
    let before = (fabric.state, fabric.buffer);
    let byte = fabric.memory.pop().expect("the memory is empty");
    let refused = |number| Answer {
        number,
        ..Answer::default()
    };
    assert_eq!(fabric.clock(), refused(8));
    fabric.memory.push(byte);
    fabric.board.default = false;
    assert_eq!(fabric.clock(), refused(9));
    fabric.board.shares[1][0] = 0;
    assert_eq!(fabric.clock(), refused(20));
    assert_eq!((fabric.state, fabric.buffer), before);
    fabric.board.shares[1][0] = 3;
    fabric.board.default = true;
    assert_eq!(fabric.clock().responses, [3, 0, 0, 0, 0, 0, 0, 0]);
}

/// What a clock answers in this state on a board with the mark; post and take answer 9 where it does, and refused calls leave
/// everything.
fn number_in(text: &str, change: impl Fn(&mut State, &mut Board)) -> u8 {
    let mut fabric = Fabric::new(text);
    change(&mut fabric.state, &mut fabric.board);
    let before = (fabric.state, fabric.memory.clone(), fabric.buffer);
    let post = fabric.post(99, read_of(1, 0, 0), &[5]);
    let take = fabric.take().0;
    let mut clocked = Fabric {
        memory: fabric.memory.clone(),
        ..fabric
    };
    let number = clocked.clock().number;
    let refused = number == 9;
    assert_eq!((post, take), if refused { (9, 9) } else { (11, 22) });
    assert_eq!((fabric.state, fabric.memory, fabric.buffer), before);
    if refused {
        assert_eq!((clocked.state, clocked.memory, clocked.buffer), before);
    }
    number
}

/// What a clock answers where master 0 holds this transfer.
fn held_number(text: &str, transfer: Transfer) -> u8 {
    number_in(text, |state, _| state.transfers[0] = transfer)
}

#[test]
fn a_state_may_hold_unmapped_transfers_with_the_mark_alone() {
    for address in [0, 4092, 8192, 0xffff_fffc] {
        for transfer in [
            read_of(address, 15, 1),
            write_of(address, 15, 8),
            read_of(address, 2, 1),
        ] {
            assert_eq!(held_number(MARKED, transfer), 0);
            assert_eq!(held_number(BOARD, transfer), 9);
        }
    }
    assert_eq!(held_number(TWO_SLAVES, read_of(128, 15, 1)), 0);
    let unmarked = TWO_SLAVES.replace("default\n", "");
    assert_eq!(held_number(&unmarked, read_of(128, 15, 1)), 9);
}

#[test]
fn the_mark_may_come_and_go_between_the_calls() {
    let mut fabric = Fabric::new(BOARD);
    assert_eq!(fabric.post(0, read_of(0, 15, 1), &[]), 16);
    fabric.board.default = true;
    assert_eq!(fabric.post(0, read_of(0, 15, 1), &[]), 0);
    fabric.board.default = false;
    assert_eq!(fabric.clock().number, 9);
    assert_eq!(fabric.post(1, read_of(4096, 3, 1), &[]), 9);
    assert_eq!(fabric.take().0, 9);
    fabric.board.default = true;
    assert_eq!(fabric.clock().mask, 1);
    fabric.board.default = false;
    assert_eq!(fabric.clock().number, 0);
    assert_eq!(fabric.take().0, 0);
}

#[test]
fn an_unmapped_transfer_has_no_latency_clocks() {
    let latest = TWO_SLAVES.replace(",0,0,0,2\n", ",0,0,0,63\n");
    for text in [MARKED, TWO_SLAVES, &latest] {
        for late in [1, 2, 63, 64, 256, 65_536, u32::MAX] {
            for transfer in [read_of(0, 15, 1), write_of(0, 15, 1), read_of(0, 15, 8)] {
                assert_eq!(held_number(text, transfer), 0);
                assert_eq!(held_number(text, Transfer { late, ..transfer }), 9);
            }
        }
    }
    // of the slave that it is not connected with
    let late = |late| Transfer {
        late,
        ..read_of(128, 15, 1)
    };
    let text = TWO_SLAVES.replace("slave,128,64,4,8,0,0,0,0", "slave,128,64,4,8,0,0,0,9");
    assert_eq!(
        [0, 1, 9].map(|count| held_number(&text, late(count))),
        [0, 9, 9]
    );
}

#[test]
fn a_post_leaves_no_latency_clocks() {
    let mut fabric = Fabric::new(MARKED);
    let counted = Transfer {
        late: 5,
        ..read_of(0, 15, 1)
    };
    assert_eq!(fabric.post(0, counted, &[]), 0);
    assert_eq!(fabric.state.transfers[0], read_of(0, 15, 1));
    assert_eq!(fabric.clock().mask, 1);
}

#[test]
fn a_state_may_hold_no_transfer_that_13_to_15_or_17_refuse() {
    for address in [0, 8192] {
        for beats in [0, 9, 255] {
            assert_eq!(held_number(MARKED, read_of(address, 15, beats)), 9);
        }
        assert_eq!(held_number(MARKED, read_of(address + 2, 15, 1)), 9);
        for lanes in [0, 5, 6, 7, 16, 255] {
            assert_eq!(held_number(MARKED, read_of(address, lanes, 1)), 9);
        }
        assert_eq!(held_number(MARKED, read_of(address, 3, 2)), 9);
    }
    assert_eq!(held_number(MARKED, read_of(8188, 15, 2)), 9);
    assert_eq!(held_number(MARKED, read_of(4092, 15, 2)), 0);
}

#[test]
fn behind_the_masters_of_the_board_no_transfer_is_held() {
    for master in 0..8 {
        let number = number_in(MARKED, |state, _| {
            state.transfers[master] = read_of(0, 1, 1)
        });
        assert_eq!(number, if master < 2 { 0 } else { 9 });
    }
}

#[test]
fn no_slave_serves_an_unmapped_transfer() {
    let number = |serving, address| {
        number_in(MARKED, |state, _| {
            state.transfers[0] = read_of(address, 15, 1);
            state.slots[0] = Slot {
                serving,
                ..Slot::default()
            };
        })
    };
    assert_eq!([number(true, 4096), number(false, 4096)], [0, 0]);
    assert_eq!([number(true, 0), number(false, 0)], [9, 0]);
}

#[test]
fn a_state_set_by_hand_is_finished_as_a_posted_one() {
    let mut fabric = Fabric::new(MARKED);
    fabric.buffer = [0xff; BUFFER_LENGTH];
    fabric.state.transfers[1] = read_of(8192, 1, 1);
    let answer = fabric.clock();
    assert_eq!(
        (answer.mask, answer.responses),
        (2, [0, 3, 0, 0, 0, 0, 0, 0])
    );
    assert_eq!(fabric.buffer[511..515], [0xff, 0, 0, 0xff]);
    let log = fabric.state.log;
    assert_eq!(
        (log.count, log.entries[0].master, log.entries[0].address),
        (1, 1, 8192)
    );
}

#[test]
fn a_transfer_that_becomes_unmapped_is_answered_so() {
    // the share line of a master that is not served yet is taken away
    let mut fabric = Fabric::new(TWO_SLAVES);
    assert_eq!(fabric.post(1, write_of(128, 15, 1), &WORD), 0);
    let before = fabric.memory.clone();
    fabric.board.shares[1][1] = 0;
    let answer = fabric.clock();
    assert_eq!((answer.number, answer.mask, answer.responses[1]), (0, 2, 3));
    assert_eq!(fabric.memory, before);
    let entry = Entry {
        master: 1,
        address: 128,
        write: true,
    };
    assert_eq!(
        (fabric.state.log.count, fabric.state.log.entries[0]),
        (1, entry)
    );
}
