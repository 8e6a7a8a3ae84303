//! Cards with a fixed read latency: the card is free behind a read's last access, and its master is not.

use crate::fabric::{read_of, write_of, Fabric};
use crate::BOARD;
use model::description::{check_board, read, read_with_place, write, Place};
use model::fabric::{self, Answer, SlaveLine, Slot, State, Transfer};
use model::records::print_boards;
use model::script::simulate;
use model::table::table;

/// Two masters of these shares at a card without waits, as wide as they are.
fn two_at_a_card(latency: u32, shares: [u8; 2]) -> String {
    let [first, second] = shares;
    format!(
        "master,4,8\nmaster,4,8\nslave,0,64,4,8,0,0,0,{latency}\n\
         share,0,0,{first}\nshare,1,0,{second}\n"
    )
}

/// Phase and owner of card 0, and the mask.
fn row(answer: &Answer) -> (u8, u8, u8) {
    assert_eq!(answer.number, 0);
    let line = &answer.lines[0];
    (line.phase, line.owner, answer.mask)
}

fn rows(fabric: &mut Fabric, clocks: usize) -> Vec<(u8, u8, u8)> {
    (0..clocks).map(|_| row(&fabric.clock())).collect()
}

fn late_of(fabric: &Fabric, master: usize) -> u32 {
    fabric.state.transfers[master].late
}

const WORD: [u8; 4] = [1, 2, 3, 4];

#[test]
fn a_read_finishes_its_latency_behind_its_access() {
    let mut fabric = Fabric::new(&two_at_a_card(2, [3, 3]));
    assert_eq!(fabric.post(0, read_of(4, 15, 1), &[]), 0);
    assert_eq!(
        rows(&mut fabric, 4),
        [(2, 0, 0), (0, 0, 0), (0, 0, 1), (0, 0, 0)]
    );
}

#[test]
fn the_count_falls_from_the_latency_to_0() {
    let mut fabric = Fabric::new(&two_at_a_card(3, [1, 1]));
    assert_eq!(fabric.post(0, read_of(4, 15, 1), &[]), 0);
    assert_eq!(late_of(&fabric, 0), 0);
    for late in [3, 2, 1] {
        fabric.clock();
        let held = Transfer {
            late,
            ..read_of(4, 15, 1)
        };
        assert_eq!(fabric.state.transfers[0], held);
        assert_eq!(fabric.state.slots[0], Slot::default());
    }
    assert_eq!(fabric.clock().mask, 1);
    assert_eq!(fabric.state.transfers[0], Transfer::default());
}

#[test]
fn without_a_latency_a_read_finishes_with_its_access() {
    let mut fabric = Fabric::new(&two_at_a_card(0, [3, 3]));
    assert_eq!(fabric.post(0, read_of(4, 15, 1), &[]), 0);
    assert_eq!(rows(&mut fabric, 2), [(2, 0, 1), (0, 0, 0)]);
}

#[test]
fn a_write_has_no_latency() {
    let mut fabric = Fabric::new(&two_at_a_card(63, [3, 3]));
    assert_eq!(fabric.post(0, write_of(4, 15, 1), &WORD), 0);
    assert_eq!(rows(&mut fabric, 1), [(2, 0, 1)]);
    assert_eq!(fabric.state.transfers[0], Transfer::default());
}

#[test]
fn the_card_serves_another_in_the_clock_after_the_access() {
    let mut fabric = Fabric::new(&two_at_a_card(2, [3, 3]));
    assert_eq!(fabric.post(0, read_of(4, 15, 1), &[]), 0);
    assert_eq!(fabric.post(1, write_of(8, 15, 1), &WORD), 0);
    assert_eq!(rows(&mut fabric, 3), [(2, 0, 0), (2, 1, 2), (0, 0, 1)]);
    // and two reads, the second one clock behind the first
    assert_eq!(fabric.post(0, read_of(4, 15, 1), &[]), 0);
    assert_eq!(fabric.post(1, read_of(8, 15, 1), &[]), 0);
    let expected = [(2, 0, 0), (2, 1, 0), (0, 0, 1), (0, 0, 2)];
    assert_eq!(rows(&mut fabric, 4), expected);
}

#[test]
fn latency_and_access_may_end_in_one_clock() {
    let mut fabric = Fabric::new(&two_at_a_card(1, [1, 1]));
    assert_eq!(fabric.post(0, read_of(4, 15, 1), &[]), 0);
    assert_eq!(fabric.post(1, write_of(8, 15, 1), &WORD), 0);
    assert_eq!(rows(&mut fabric, 2), [(2, 0, 0), (2, 1, 3)]);
}

#[test]
fn each_card_has_a_latency_of_its_own() {
    let text = "master,4,8\nmaster,4,8\nmaster,4,8\n\
                slave,0,64,4,8,0,0,0,3\nslave,64,64,4,8,2,0,0,1\nslave,128,64,4,8,0,0,0,0\n\
                share,0,0,1\nshare,1,1,1\nshare,2,2,1\n";
    let mut fabric = Fabric::new(text);
    for (master, address) in [(0, 0), (1, 64), (2, 128)] {
        assert_eq!(fabric.post(master, read_of(address, 15, 1), &[]), 0);
    }
    let masks: Vec<u8> = (0..5).map(|_| fabric.clock().mask).collect();
    assert_eq!(masks, [4, 0, 0, 3, 0]);
}

/// The clock that finishes a transfer of a master twice as wide as the card, alone there, and the clocks of its accesses.
fn finish(waits: (u8, u8), native: u8, latency: u32, transfer: Transfer) -> (u64, u64) {
    let (read_wait, write_wait) = waits;
    let mut fabric = Fabric::new(&format!(
        "master,4,8\nslave,0,64,2,2,{read_wait},{write_wait},{native},{latency}\nshare,0,0,1\n"
    ));
    let data = vec![
        7;
        if transfer.write {
            4 * transfer.beats as usize
        } else {
            0
        }
    ];
    assert_eq!(fabric.post(0, transfer, &data), 0);
    let mut served = 0;
    for clock in 1.. {
        let answer = fabric.clock();
        served += u64::from(answer.lines[0].phase > 0);
        assert_eq!(
            answer.lines[0].phase > 0,
            clock == served,
            "served in one piece"
        );
        if answer.mask == 1 {
            return (clock, served);
        }
    }
    unreachable!()
}

#[test]
fn the_finish_is_exactly_the_latency_behind_the_last_access() {
    for latency in [0, 1, 2, 3, 5, 31, 62, 63] {
        for waits in [(0, 0), (1, 0), (0, 3), (2, 5)] {
            for (native, words) in [(0, 2), (1, 1)] {
                for beats in [1, 2, 3, 8] {
                    let accesses = words * beats as u64;
                    let length = accesses * (1 + waits.0 as u64);
                    let read = finish(waits, native, latency, read_of(0, 15, beats));
                    assert_eq!(read, (length + latency as u64, length));
                    let length = accesses * (1 + waits.1 as u64);
                    let write = finish(waits, native, latency, write_of(0, 15, beats));
                    assert_eq!(write, (length, length));
                }
            }
        }
    }
}

#[test]
fn a_write_of_some_words_has_no_latency_either() {
    assert_eq!(finish((0, 1), 0, 9, write_of(0, 12, 1)), (2, 2));
    // a read of some lanes accesses both words
    assert_eq!(finish((0, 1), 0, 9, read_of(0, 12, 1)), (2 + 9, 2));
}

#[test]
fn the_bytes_of_a_read_are_those_at_its_access() {
    let mut fabric = Fabric::new(&two_at_a_card(2, [1, 1]));
    let before: Vec<u8> = fabric.memory[4..8].to_vec();
    assert_eq!(fabric.post(0, read_of(4, 15, 1), &[]), 0);
    assert_eq!(fabric.post(1, write_of(4, 15, 1), &WORD), 0);
    fabric.clock();
    assert_eq!(fabric.buffer[..4], before);
    fabric.clock();
    assert_eq!(fabric.memory[4..8], WORD);
    assert_eq!(fabric.clock().mask, 1);
    assert_eq!(fabric.buffer[..4], before);
}

#[test]
fn a_master_in_its_latency_holds_its_transfer() {
    let mut fabric = Fabric::new(&two_at_a_card(2, [3, 3]));
    assert_eq!(fabric.post(0, read_of(4, 15, 1), &[]), 0);
    for _ in 0..2 {
        assert_eq!(fabric.clock().mask, 0);
        let before = (fabric.state, fabric.buffer);
        assert_eq!(fabric.post(0, read_of(8, 15, 1), &[]), 12);
        assert_eq!(fabric.post(0, write_of(8, 15, 1), &WORD), 12);
        // 12 comes before what else is wrong with the post
        assert_eq!(fabric.post(0, read_of(9, 0, 0), &[]), 12);
        assert_eq!((fabric.state, fabric.buffer), before);
    }
    assert_eq!(fabric.clock().mask, 1);
    assert_eq!(fabric.post(0, read_of(8, 15, 1), &[]), 0);
    assert_eq!(row(&fabric.clock()), (2, 0, 0));
}

/// Who is granted, clock by clock, while both masters post singles of these directions whenever they may.
fn owners(fabric: &mut Fabric, writes: [bool; 2], clocks: usize) -> Vec<Option<u8>> {
    let mut owners = Vec::new();
    for _ in 0..clocks {
        for (master, write) in writes.into_iter().enumerate() {
            let (transfer, data) = match write {
                true => (write_of(0, 15, 1), &WORD[..]),
                false => (read_of(0, 15, 1), &[][..]),
            };
            fabric.post(master as u32, transfer, data);
        }
        let line = fabric.clock().lines[0];
        owners.push((line.phase > 0).then_some(line.owner));
    }
    owners
}

fn owners_of(latency: u32, shares: [u8; 2], writes: [bool; 2]) -> Vec<Option<u8>> {
    let mut fabric = Fabric::new(&two_at_a_card(latency, shares));
    owners(&mut fabric, writes, 9)
}

fn granted(owners: [u8; 9]) -> Vec<Option<u8>> {
    owners.map(Some).to_vec()
}

#[test]
fn a_reader_loses_its_turn() {
    let turns = granted([0, 0, 0, 1, 1, 1, 0, 0, 0]);
    assert_eq!(owners_of(0, [3, 3], [false, false]), turns);
    assert_eq!(owners_of(0, [3, 3], [false, true]), turns);
    assert_eq!(owners_of(1, [3, 3], [true, true]), turns);
    assert_eq!(owners_of(63, [3, 3], [true, true]), turns);
    let lost = granted([0, 1, 1, 1, 0, 1, 1, 1, 0]);
    assert_eq!(owners_of(1, [3, 3], [false, true]), lost);
    assert_eq!(owners_of(3, [3, 3], [false, true]), lost);
    // the reader's read of clock 1 ends too late for its next turn
    let missed = granted([0, 1, 1, 1, 1, 1, 1, 0, 1]);
    assert_eq!(owners_of(5, [3, 3], [false, true]), missed);
    let both = granted([0, 1, 0, 1, 0, 1, 0, 1, 0]);
    assert_eq!(owners_of(1, [3, 4], [false, false]), both);
}

#[test]
fn with_two_readers_a_card_may_stand_idle() {
    let pauses = [
        Some(0),
        Some(1),
        None,
        Some(0),
        Some(1),
        None,
        Some(0),
        Some(1),
        None,
    ];
    assert_eq!(owners_of(2, [3, 4], [false, false]), pauses);
}

/// The last owner and the grants that remain to it.
fn turn_of(fabric: &Fabric) -> (u8, u8) {
    (fabric.state.slots[0].owner, fabric.state.slots[0].remaining)
}

#[test]
fn a_turn_is_lost_between_writes_and_a_read() {
    let mut fabric = Fabric::new(&two_at_a_card(4, [5, 2]));
    assert_eq!(owners(&mut fabric, [true, true], 2), [Some(0), Some(0)]);
    assert_eq!(turn_of(&fabric), (0, 3));
    assert_eq!(owners(&mut fabric, [false, true], 1), [Some(0)]);
    assert_eq!(turn_of(&fabric), (0, 2));
    assert_eq!(owners(&mut fabric, [false, true], 1), [Some(1)]);
    assert_eq!(turn_of(&fabric), (1, 1));
}

#[test]
fn a_reader_alone_loses_what_remains_to_it() {
    let mut fabric = Fabric::new(&two_at_a_card(1, [5, 2]));
    assert_eq!(fabric.post(0, read_of(4, 15, 1), &[]), 0);
    fabric.clock();
    assert_eq!(turn_of(&fabric), (0, 4));
    assert_eq!(row(&fabric.clock()), (0, 0, 1));
    assert_eq!(turn_of(&fabric), (0, 0));
    // so that the other one comes first when both request
    assert_eq!(owners(&mut fabric, [true, true], 2), [Some(1), Some(1)]);
}

/// A state in which master 0 holds this transfer, and the slot of card 0.
fn state_of(fabric: &Fabric, transfer: Transfer, slot: Slot) -> State {
    let mut state = fabric.state;
    state.transfers[0] = transfer;
    state.slots[0] = slot;
    state
}

/// What a clock answers in this state; a post answers 9 where it does, before all else that is wrong with it. Refused calls
/// leave everything.
fn number_in(text: &str, change: impl Fn(&mut State)) -> u8 {
    let mut fabric = Fabric::new(text);
    change(&mut fabric.state);
    let before = (fabric.state, fabric.memory.clone(), fabric.buffer);
    let post = fabric.post(99, read_of(1, 0, 0), &[5]);
    let answer = fabric.clock();
    assert_eq!(post, if answer.number == 9 { 9 } else { 11 });
    if answer.number != 0 {
        assert_eq!((fabric.state, fabric.memory, fabric.buffer), before);
        let refused = Answer {
            number: answer.number,
            ..Answer::default()
        };
        assert_eq!(answer, refused);
    }
    answer.number
}

/// What a clock answers where master 0 holds a transfer with this count.
fn held_number(latency: u32, transfer: Transfer, late: u32) -> u8 {
    number_in(&two_at_a_card(latency, [3, 3]), |state| {
        state.transfers[0] = Transfer { late, ..transfer };
    })
}

#[test]
fn a_count_is_at_most_the_latency() {
    for latency in [0, 1, 2, 62, 63] {
        for late in 0..=latency {
            assert_eq!(held_number(latency, read_of(4, 15, 1), late), 0);
        }
        for late in [latency + 1, 64, 256, 256 + latency, 65_536, u32::MAX] {
            let number = held_number(latency, read_of(4, 15, 1), late);
            assert_eq!(number, 9, "{latency} {late}");
        }
    }
    // a burst is no other
    assert_eq!(held_number(2, read_of(0, 15, 8), 2), 0);
    assert_eq!(held_number(2, read_of(0, 15, 8), 3), 9);
}

#[test]
fn the_latency_is_that_of_the_card_that_the_transfer_is_for() {
    let text =
        "master,4,8\nslave,0,64,4,8,0,0,0,2\nslave,64,64,4,8,0,0,0,5\nslave,128,64,4,8,0,0,0,0\n\
                share,0,0,1\nshare,0,1,1\nshare,0,2,1\n";
    let number = |address, late| {
        number_in(text, |state| {
            state.transfers[0] = Transfer {
                late,
                ..read_of(address, 15, 1)
            };
        })
    };
    assert_eq!([2, 3].map(|late| number(60, late)), [0, 9]);
    assert_eq!([2, 3, 5, 6].map(|late| number(64, late)), [0, 0, 0, 9]);
    assert_eq!([0, 1, 2].map(|late| number(128, late)), [0, 9, 9]);
}

#[test]
fn a_write_has_no_count() {
    for latency in [0, 1, 63] {
        assert_eq!(held_number(latency, write_of(4, 15, 1), 0), 0);
        for late in [1, latency.max(1), latency + 1, u32::MAX] {
            assert_eq!(held_number(latency, write_of(4, 15, 1), late), 9);
        }
    }
}

#[test]
fn a_master_that_is_served_has_no_count() {
    let serving = Slot {
        serving: true,
        ..Slot::default()
    };
    for (late, expected) in [(0, 0), (1, 9), (4, 9), (5, 9)] {
        let number = |slot: Slot| {
            number_in(&two_at_a_card(4, [3, 3]), |state| {
                state.transfers[0] = Transfer {
                    late,
                    ..read_of(0, 15, 8)
                };
                state.slots[0] = slot;
            })
        };
        assert_eq!(number(serving), expected);
        assert_eq!(number(Slot { done: 7, ..serving }), expected);
    }
}

#[test]
fn the_last_owner_of_a_card_that_does_not_serve_may_have_a_count() {
    let number = |owner, remaining, late| {
        number_in(&two_at_a_card(4, [3, 3]), |state| {
            let read = read_of(4, 15, 1);
            state.transfers[0] = Transfer { late, ..read };
            state.slots[0] = Slot {
                owner,
                remaining,
                ..Slot::default()
            };
        })
    };
    assert_eq!(number(0, 0, 4), 0);
    assert_eq!(number(0, 2, 4), 0);
    assert_eq!(number(1, 2, 1), 0);
    assert_eq!(number(0, 3, 4), 9);
}

#[test]
fn another_master_may_be_served_while_one_has_a_count() {
    let number = |late| {
        number_in(&two_at_a_card(4, [3, 3]), |state| {
            state.transfers[0] = Transfer {
                late,
                ..read_of(4, 15, 1)
            };
            state.transfers[1] = read_of(8, 15, 1);
            state.slots[0] = Slot {
                owner: 1,
                serving: true,
                ..Slot::default()
            };
        })
    };
    assert_eq!([1, 4, 5].map(number), [0, 0, 9]);
}

/// What a clock answers where this is what a master of eight has, on a board of two masters.
fn number_with(master: usize, transfer: Transfer) -> u8 {
    number_in(&two_at_a_card(63, [3, 3]), |state| {
        state.transfers[master] = transfer;
    })
}

#[test]
fn a_master_without_a_transfer_has_no_count() {
    let empty = Transfer::default();
    let left = Transfer {
        held: false,
        lanes: 6,
        ..read_of(4, 15, 1)
    };
    for master in 0..8 {
        for late in [1, 63, 64, 256, u32::MAX] {
            assert_eq!(number_with(master, Transfer { late, ..empty }), 9);
            assert_eq!(number_with(master, Transfer { late, ..left }), 9);
        }
        // what else is left of a transfer does not count
        assert_eq!(number_with(master, left), 0);
    }
}

#[test]
fn behind_the_masters_of_the_board_no_transfer_is_held() {
    for late in [0, 1] {
        let read = read_of(4, 15, 1);
        assert_eq!(number_with(2, Transfer { late, ..read }), 9);
        assert_eq!(number_with(7, Transfer { late, ..read }), 9);
    }
}

#[test]
fn a_legal_count_finishes_after_as_many_clocks() {
    for late in [1, 2, 5, 62, 63] {
        let mut fabric = Fabric::new(&two_at_a_card(63, [3, 3]));
        let held = Transfer {
            late,
            ..read_of(4, 15, 1)
        };
        fabric.state = state_of(&fabric, held, fabric.state.slots[0]);
        for clock in 1..=late {
            let answer = fabric.clock();
            assert_eq!(answer.lines[0], SlaveLine::default());
            assert_eq!(answer.mask, u8::from(clock == late));
        }
        // the read's access was before, so that nothing was moved
        assert_eq!(fabric.buffer[..4], [0; 4]);
    }
}

#[test]
fn a_lent_board_is_judged_before_the_counts() {
    let mut fabric = Fabric::new(&two_at_a_card(63, [3, 3]));
    fabric.state.transfers[0] = Transfer {
        late: 64,
        ..read_of(4, 15, 1)
    };
    assert_eq!(fabric.clock().number, 9);
    for latency in [64, 65, 255, 256, 256 + 63, 1 << 31, u32::MAX] {
        fabric.board.slaves[0].latency = latency;
        assert_eq!(check_board(&fabric.board), Err(3), "{latency}");
        assert_eq!(fabric::reset(&fabric.board).0, 3);
        assert_eq!(fabric.post(1, read_of(4, 15, 1), &[]), 3);
        assert_eq!(fabric.clock().number, 3);
    }
}

#[test]
fn a_board_with_less_latency_than_a_count_is_refused() {
    let mut fabric = Fabric::new(&two_at_a_card(5, [3, 3]));
    assert_eq!(fabric.post(0, read_of(4, 15, 1), &[]), 0);
    fabric.clock();
    fabric.board.slaves[0].latency = 4;
    assert_eq!(fabric.clock().number, 9);
    fabric.board.slaves[0].latency = 63;
    // a latency that was begun goes on as it was
    let masks: Vec<u8> = (0..5).map(|_| fabric.clock().mask).collect();
    assert_eq!(masks, [0, 0, 0, 0, 1]);
}

#[test]
fn posts_and_resets_leave_no_count() {
    let mut fabric = Fabric::new(&two_at_a_card(5, [3, 3]));
    let counted = Transfer {
        late: 5,
        ..read_of(4, 15, 1)
    };
    assert_eq!(fabric.post(0, counted, &[]), 0);
    assert_eq!(fabric.state.transfers[0], read_of(4, 15, 1));
    fabric.clock();
    assert_eq!(late_of(&fabric, 0), 5);
    let (number, state) = fabric::reset(&fabric.board);
    assert_eq!((number, state.transfers), (0, State::default().transfers));
}

fn number_of(text: &str) -> u8 {
    read(text.as_bytes()).err().unwrap_or(0)
}

/// A board whose slave line ends so behind its native field.
fn ending(end: &str) -> String {
    format!("master,4,8\nslave,4096,64,2,8,1,0,0{end}\nshare,0,0,1\n")
}

#[test]
fn a_latency_is_at_most_63() {
    for latency in 0..=63 {
        let text = ending(&format!(",{latency}"));
        let board = read(text.as_bytes()).expect("the board is refused");
        assert_eq!(board.slaves[0].latency, latency);
        assert_eq!(write(&board), text);
    }
    for latency in [
        "64",
        "65",
        "100",
        "255",
        "256",
        "319",
        "4294967296",
        "4294967359",
    ] {
        let refused = read_with_place(ending(&format!(",{latency}")).as_bytes());
        assert_eq!(refused, Err((3, Place::Line(1))), "{latency}");
    }
}

#[test]
fn a_slave_line_needs_its_latency() {
    for end in [
        "",
        ",",
        ",0,0",
        ",063",
        ",00",
        ",-1",
        ",63 ",
        ",0x1",
        ",10000000000",
    ] {
        assert_eq!(number_of(&ending(end)), 1, "{end:?}");
    }
}

#[test]
fn a_slave_line_answers_its_lowest_number() {
    let line = |line: &str| number_of(&format!("master,4,8\n{line}\nshare,0,0,1\n"));
    assert_eq!(line("slave,4100,64,2,8,1,0,0,63"), 4);
    assert_eq!(line("slave,4100,64,2,8,1,0,0,64"), 3);
    assert_eq!(line("slave,4096,64,2,8,1,0,63,0"), 3);
    assert_eq!(line("slave,4096,64,2,8,1,0,2,64"), 3);
    assert_eq!(line("slave,4096,64,2,8,01,0,0,64"), 1);
    let before_masters = "slave,4096,64,2,8,1,0,0,64\nmaster,4,8\n";
    assert_eq!(number_of(before_masters), 2);
}

#[test]
fn old_texts_are_refused_and_the_new_ones_written() {
    let old = BOARD.replace(",1,0,0,0\n", ",1,0,0\n");
    let late = BOARD.replace(",1,0,0,0\n", ",1,0,0,63\n");
    let records = [old.as_str(), &late].map(|text| format!("{}\n{text}", text.len()));
    let mut boards = Vec::new();
    print_boards(records.concat().as_bytes(), &mut boards).expect("the records are whole");
    assert_eq!(
        String::from_utf8_lossy(&boards),
        format!("read,1\nread,0\n{late}")
    );
    assert_eq!(table(old.as_bytes()), "refused,1\n");
}

#[test]
fn a_script_prints_the_counts() {
    let text = two_at_a_card(2, [1, 1]);
    let script = "reset\npost,0,read,4,15,1,-\nclock,1\nstate\npost,0,read,4,15,1,-\nclock,2\n";
    let mut output = Vec::new();
    simulate(text.as_bytes(), &mut script.as_bytes(), &mut output).expect("memory takes all");
    let output = String::from_utf8_lossy(&output).into_owned();
    let (before, state) = output.split_once("transfer,").expect("no state");
    assert_eq!(before, "reset,0\npost,0\nclock,0,0\nslave,0,2,0,4,15,1,0\n");
    assert!(state.starts_with("0,1,0,4,15,1,2\ntransfer,1,0,0,0,0,0,0\n"));
    let (_, log) = state.split_once("slot,15,0,0,0,0,0\n").expect("no slots");
    let (_, behind) = log.split_once("entry,7,0,0,0\n").expect("no log");
    let idle = "slave,0,0,0,0,0,0,0\n";
    assert_eq!(
        behind,
        format!("post,12\nclock,0,0\n{idle}clock,0,1\n{idle}")
    );
}
