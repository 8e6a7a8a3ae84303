//! The log of unmapped transfers: what clocks enter, what is dropped, and what a take takes out.

use crate::fabric::{read_of, write_of, Fabric};
use crate::{BOARD, MARKED};
use model::fabric::{self, Entry, Log, State, Transfer, LOG_LENGTH};

/// So many masters of 4 bytes, all connected with a slave from 0 to 63, with the mark.
fn masters_of(count: usize) -> Fabric {
    let shares = (0..count).map(|master| format!("share,{master},0,1\n"));
    let shares: String = shares.collect();
    let masters = "master,4,8\n".repeat(count);
    Fabric::new(&format!(
        "{masters}slave,0,64,4,8,0,0,0,0\n{shares}default\n"
    ))
}

fn entry(master: u8, address: u32, write: bool) -> Entry {
    Entry {
        master,
        address,
        write,
    }
}

/// Entries that no two are alike.
fn numbered(number: u32) -> Entry {
    entry(number as u8, 1000 + 4 * number, number % 2 == 1)
}

/// A log of these entries.
fn log_of(entries: &[Entry], lost: bool) -> Log {
    let mut log = Log {
        count: entries.len() as u32,
        lost,
        ..Log::default()
    };
    log.entries[..entries.len()].copy_from_slice(entries);
    log
}

fn post(fabric: &mut Fabric, entry: Entry) {
    let Entry {
        master,
        address,
        write,
    } = entry;
    let number = match write {
        true => fabric.post(master as u32, write_of(address, 15, 1), &[1, 2, 3, 4]),
        false => fabric.post(master as u32, read_of(address, 15, 1), &[]),
    };
    assert_eq!(number, 0);
}

/// Posts and a clock that finishes all of them.
fn finish(fabric: &mut Fabric, entries: &[Entry]) {
    for &entry in entries {
        post(fabric, entry);
    }
    let answer = fabric.clock();
    let mask = entries.iter().map(|entry| 1u8 << entry.master).sum();
    assert_eq!((answer.number, answer.mask), (0, mask));
}

#[test]
fn a_clock_enters_master_address_and_direction() {
    let mut fabric = masters_of(3);
    finish(&mut fabric, &[entry(2, 0xffff_fffc, true)]);
    assert_eq!(
        fabric.state.log,
        log_of(&[entry(2, 0xffff_fffc, true)], false)
    );
    finish(&mut fabric, &[entry(0, 64, false)]);
    let both = [entry(2, 0xffff_fffc, true), entry(0, 64, false)];
    assert_eq!(fabric.state.log, log_of(&both, false));
}

#[test]
fn a_post_enters_nothing() {
    let mut fabric = masters_of(2);
    post(&mut fabric, entry(0, 64, false));
    assert_eq!(fabric.state.log, Log::default());
    fabric.clock();
    fabric.clock();
    assert_eq!(fabric.state.log.count, 1);
}

#[test]
fn mapped_transfers_are_not_entered() {
    let mut fabric = masters_of(2);
    finish(&mut fabric, &[entry(0, 60, true)]);
    assert_eq!(fabric.state.log, Log::default());
}

#[test]
fn those_of_one_clock_are_entered_by_master() {
    let mut fabric = masters_of(4);
    let [a, b, c, d] = [
        entry(0, 400, true),
        entry(1, 300, false),
        entry(2, 200, true),
        entry(3, 100, false),
    ];
    finish(&mut fabric, &[d, b, a, c]);
    assert_eq!(fabric.state.log, log_of(&[a, b, c, d], false));
}

#[test]
fn those_of_an_earlier_clock_come_before() {
    let mut fabric = masters_of(4);
    let [a, b, c] = [
        entry(3, 100, false),
        entry(1, 104, true),
        entry(2, 108, false),
    ];
    finish(&mut fabric, &[a]);
    finish(&mut fabric, &[c, b]);
    finish(&mut fabric, &[a]);
    assert_eq!(fabric.state.log, log_of(&[a, b, c, a], false));
}

#[test]
fn eight_are_entered_and_the_ninth_is_dropped() {
    let mut fabric = masters_of(1);
    let entries: Vec<Entry> = (0..8)
        .map(|number| entry(0, 100 + 4 * number, number % 2 == 0))
        .collect();
    for (count, &entry) in entries.iter().enumerate() {
        finish(&mut fabric, &[entry]);
        assert_eq!(fabric.state.log, log_of(&entries[..=count], false));
    }
    finish(&mut fabric, &[entry(0, 200, true)]);
    assert_eq!(fabric.state.log, log_of(&entries, true));
    // further ones too, and a clock without any changes nothing
    finish(&mut fabric, &[entry(0, 204, false)]);
    fabric.clock();
    assert_eq!(fabric.state.log, log_of(&entries, true));
}

#[test]
fn where_the_log_has_space_for_some_the_lowest_masters_are_entered() {
    for count in 5..=8 {
        let mut fabric = masters_of(8);
        let old: Vec<Entry> = (0..count).map(numbered).collect();
        fabric.state.log = log_of(&old, false);
        let new = [entry(1, 64, false), entry(4, 68, true), entry(7, 72, false)];
        finish(&mut fabric, &new);
        let mut all = [&old[..], &new].concat();
        all.truncate(LOG_LENGTH);
        assert_eq!(fabric.state.log, log_of(&all, count > 5));
    }
}

#[test]
fn eight_masters_fill_the_log_in_one_clock() {
    let mut fabric = masters_of(8);
    let all: Vec<Entry> = (0..8)
        .map(|master| entry(master, 64 + 4 * master as u32, true))
        .collect();
    finish(&mut fabric, &all);
    assert_eq!(fabric.state.log, log_of(&all, false));
    finish(&mut fabric, &all);
    assert_eq!(fabric.state.log, log_of(&all, true));
}

#[test]
fn a_dropped_transfer_is_finished_all_the_same() {
    let mut fabric = masters_of(2);
    let old: Vec<Entry> = (0..8).map(numbered).collect();
    fabric.state.log = log_of(&old, false);
    fabric.buffer = [0xff; 4096];
    assert_eq!(fabric.post(1, read_of(64, 15, 2), &[]), 0);
    let answer = fabric.clock();
    assert_eq!(
        (answer.mask, answer.responses),
        (2, [0, 3, 0, 0, 0, 0, 0, 0])
    );
    assert_eq!(
        fabric.buffer[512..524],
        [0, 0, 0, 0, 0, 0, 0, 0, 255, 255, 255, 255]
    );
    assert_eq!(fabric.state.transfers[1], Transfer::default());
}

#[test]
fn a_take_gives_the_oldest() {
    let mut fabric = masters_of(4);
    let (a, b, c) = (
        entry(1, 100, true),
        entry(3, 104, false),
        entry(0, 108, true),
    );
    finish(&mut fabric, &[a, b]);
    finish(&mut fabric, &[c]);
    for (index, expected) in [a, b, c].into_iter().enumerate() {
        assert_eq!(fabric.take(), (0, expected));
        let left = &[a, b, c][index + 1..];
        assert_eq!(fabric.state.log, log_of(left, false));
    }
    assert_eq!(fabric.take(), (22, Entry::default()));
}

#[test]
fn every_entry_moves_one_place_down_and_the_last_becomes_0() {
    let mut fabric = masters_of(1);
    let all: Vec<Entry> = (1..=8).map(numbered).collect();
    fabric.state.log = log_of(&all, true);
    for taken in 1..=8 {
        assert_eq!(fabric.take(), (0, numbered(taken)));
        assert_eq!(fabric.state.log, log_of(&all[taken as usize..], true));
    }
}

#[test]
fn entries_behind_the_count_move_too() {
    let mut fabric = masters_of(1);
    let all: Vec<Entry> = (1..=8).map(numbered).collect();
    fabric.state.log = Log {
        count: 2,
        ..log_of(&all, false)
    };
    assert_eq!(fabric.take(), (0, numbered(1)));
    let expected = Log {
        count: 1,
        ..log_of(&all[1..], false)
    };
    assert_eq!(fabric.state.log, expected);
    // what a clock enters is put over them
    finish(&mut fabric, &[entry(0, 64, true)]);
    assert_eq!(
        fabric.state.log.entries[..3],
        [numbered(2), entry(0, 64, true), numbered(4)]
    );
    assert_eq!(fabric.state.log.count, 2);
}

#[test]
fn a_take_changes_nothing_but_the_entries_and_their_count() {
    let mut fabric = Fabric::new(MARKED);
    assert_eq!(fabric.post(0, read_of(4096, 15, 2), &[]), 0);
    assert_eq!(fabric.post(1, read_of(0, 3, 1), &[]), 0);
    fabric.clock();
    assert_eq!(fabric.post(1, write_of(8192, 3, 1), &[1, 2]), 0);
    let before = fabric.state;
    assert_eq!(fabric.take(), (0, entry(1, 0, false)));
    let expected = State {
        log: Log::default(),
        ..before
    };
    assert_eq!(fabric.state, expected);
}

#[test]
fn a_take_makes_space() {
    let mut fabric = masters_of(1);
    let all: Vec<Entry> = (0..8).map(numbered).collect();
    fabric.state.log = log_of(&all, false);
    assert_eq!(fabric.take(), (0, numbered(0)));
    finish(&mut fabric, &[entry(0, 64, true)]);
    let left = [&all[1..], &[entry(0, 64, true)]].concat();
    assert_eq!(fabric.state.log, log_of(&left, false));
    finish(&mut fabric, &[entry(0, 68, true)]);
    assert_eq!(fabric.state.log, log_of(&left, true));
}

#[test]
fn the_lost_mark_stays_until_a_reset() {
    let mut fabric = masters_of(1);
    let all: Vec<Entry> = (0..8).map(numbered).collect();
    fabric.state.log = log_of(&all, false);
    finish(&mut fabric, &[entry(0, 64, false)]);
    for _ in 0..8 {
        assert_eq!(fabric.take().0, 0);
        assert!(fabric.state.log.lost);
    }
    assert_eq!(fabric.take().0, 22);
    finish(&mut fabric, &[entry(0, 64, false)]);
    assert_eq!(fabric.state.log, log_of(&[entry(0, 64, false)], true));
    let (number, state) = fabric::reset(&fabric.board);
    assert_eq!((number, state.log), (0, Log::default()));
}

#[test]
fn an_empty_log_answers_22() {
    for mut fabric in [Fabric::new(MARKED), Fabric::new(BOARD)] {
        let before = fabric.state;
        assert_eq!(fabric.take(), (22, Entry::default()));
        assert_eq!(fabric.state, before);
    }
    // whatever stands behind the count, and also where one was dropped
    let mut fabric = masters_of(1);
    let all: Vec<Entry> = (1..=8).map(numbered).collect();
    fabric.state.log = Log {
        count: 0,
        ..log_of(&all, true)
    };
    let before = fabric.state;
    assert_eq!(fabric.take(), (22, Entry::default()));
    assert_eq!(fabric.state, before);
}

#[test]
fn a_take_needs_no_mark() {
    let mut fabric = Fabric::new(BOARD);
    fabric.state.log = log_of(&[numbered(5), numbered(6)], false);
    assert_eq!(fabric.clock().number, 0);
    assert_eq!(fabric.take(), (0, numbered(5)));
    assert_eq!(fabric.take(), (0, numbered(6)));
    assert_eq!(fabric.take(), (22, Entry::default()));
}

/// What the calls answer in a state with this change; refused ones leave everything.
fn numbers_in(text: &str, change: impl Fn(&mut Fabric)) -> [u8; 3] {
    let call = |call: fn(&mut Fabric) -> u8| {
        let mut fabric = Fabric::new(text);
        change(&mut fabric);
        let before = (fabric.state, fabric.memory.clone(), fabric.buffer);
        let number = call(&mut fabric);
        if number != 0 {
            assert_eq!((fabric.state, fabric.memory, fabric.buffer), before);
        }
        number
    };
    [
        call(|fabric| fabric.post(0, read_of(4096, 15, 1), &[])),
        call(|fabric| fabric.clock().number),
        call(|fabric| {
            let (number, entry) = fabric.take();
            assert!(number == 0 || entry == Entry::default());
            number
        }),
    ]
}

#[test]
fn a_count_over_eight_answers_9() {
    for text in [BOARD, MARKED] {
        for count in [1, 2, 7, 8] {
            assert_eq!(
                numbers_in(text, |fabric| fabric.state.log.count = count),
                [0; 3]
            );
        }
        assert_eq!(
            numbers_in(text, |fabric| fabric.state.log.count = 0),
            [0, 0, 22]
        );
        for count in [9, 10, 16, 255, 256, 257, 264, 65_536, 65_544, u32::MAX] {
            let numbers = numbers_in(text, |fabric| fabric.state.log.count = count);
            assert_eq!(numbers, [9; 3], "{count}");
        }
    }
}

#[test]
fn what_the_entries_hold_is_not_looked_at() {
    let odd = [
        entry(255, u32::MAX, true),
        entry(8, 4096, false),
        entry(7, 1, true),
        entry(2, 3, false),
    ];
    for text in [BOARD, MARKED] {
        for count in [1, 4] {
            let numbers = numbers_in(text, |fabric| {
                fabric.state.log = Log {
                    count,
                    ..log_of(&odd, true)
                };
            });
            assert_eq!(numbers, [0; 3]);
        }
        let mut fabric = Fabric::new(text);
        fabric.state.log = log_of(&odd, false);
        for entry in odd {
            assert_eq!(fabric.take(), (0, entry));
        }
    }
}

#[test]
fn the_board_comes_before_9_and_9_before_22() {
    let broken = |fabric: &mut Fabric| fabric.state.slots[0].owner = 9;
    assert_eq!(numbers_in(MARKED, broken), [9; 3]);
    let over = |fabric: &mut Fabric| {
        broken(fabric);
        fabric.state.log.count = 3;
    };
    assert_eq!(numbers_in(MARKED, over), [9; 3]);
    let changes: [(u8, fn(&mut Fabric)); 7] = [
        (2, |fabric| fabric.board.slave_count = 0),
        (3, |fabric| fabric.board.masters[0].width = 3),
        (4, |fabric| fabric.board.slaves[0].base = 4100),
        (7, |fabric| fabric.board.shares[7][0] = 1),
        (19, |fabric| {
            fabric.board.slaves[0].native = 1;
            fabric.board.masters[1].width = 1;
        }),
        (20, |fabric| fabric.board.shares[1][0] = 0),
        (3, |fabric| fabric.board.slaves[0].latency = 64),
    ];
    for (number, change) in changes {
        assert_eq!(numbers_in(MARKED, change), [number; 3]);
        let numbers = numbers_in(MARKED, |fabric| {
            change(fabric);
            broken(fabric);
            fabric.state.log.count = 9;
        });
        assert_eq!(numbers, [number; 3]);
    }
}

#[test]
fn a_reset_clears_the_log() {
    let mut fabric = masters_of(8);
    let all: Vec<Entry> = (0..8).map(numbered).collect();
    fabric.state.log = log_of(&all, true);
    let (number, state) = fabric::reset(&fabric.board);
    assert_eq!((number, state.log), (0, Log::default()));
    fabric.board.shares[0][0] = 0;
    let (number, state) = fabric::reset(&fabric.board);
    assert_eq!((number, state), (20, State::default()));
}
