//! The order of share lines: by master, then slave. A text that has another order is refused; a lent board has no order.

use crate::fabric::{read_of, Fabric};
use crate::BOARD;
use model::board::{Board, MASTER_LIMIT, SLAVE_LIMIT};
use model::description::{check_board, read, read_with_place, write, Place};
use model::fabric;
use model::generate::boards::{any_size, board};
use model::generate::random::Random;
use model::generate::texts;
use model::records::{print_boards, print_places};
use model::script::simulate;
use model::table::table;
use model::wait::wait_call;

type Pair = (usize, usize);

/// So many masters of 4 bytes and slaves of 2, without share lines.
fn unshared(masters: usize, slaves: usize) -> String {
    let slave_lines = (0..slaves).map(|slave| format!("slave,{},8,2,8,1,0,0,0\n", 8 * slave));
    "master,4,8\n".repeat(masters) + &slave_lines.collect::<String>()
}

fn share_line(pair: &Pair) -> String {
    format!("share,{},{},1\n", pair.0, pair.1)
}

/// The board with share lines of these pairs, in this order.
fn grid(masters: usize, slaves: usize, pairs: &[Pair]) -> String {
    unshared(masters, slaves) + &pairs.iter().map(share_line).collect::<String>()
}

fn number_of(text: &str) -> u8 {
    read(text.as_bytes()).err().unwrap_or(0)
}

/// The number and, from 0, the share line that is charged with it.
fn refused_share(masters: usize, slaves: usize, text: &str) -> Option<(u8, usize)> {
    match read_with_place(text.as_bytes()) {
        Err((number, Place::Line(line))) => Some((number, line - masters - slaves)),
        _ => None,
    }
}

/// Every pair of so many masters and slaves, in order.
fn pairs(masters: usize, slaves: usize) -> Vec<Pair> {
    (0..masters)
        .flat_map(|master| (0..slaves).map(move |slave| (master, slave)))
        .collect()
}

#[test]
fn share_lines_come_by_master_then_slave() {
    let number = |pairs: &[Pair]| number_of(&grid(2, 2, pairs));
    assert_eq!(number(&[(0, 0), (0, 1), (1, 0), (1, 1)]), 0);
    assert_eq!(number(&[(0, 1), (1, 0)]), 0);
    assert_eq!(number(&[(1, 0), (0, 1)]), 21);
    assert_eq!(number(&[(0, 0), (1, 0), (0, 1), (1, 1)]), 21);
    assert_eq!(number(&[(0, 1), (0, 0), (1, 0), (1, 1)]), 21);
    assert_eq!(number(&[(0, 0), (0, 1), (1, 1), (1, 0)]), 21);
    assert_eq!(number(&[(1, 0), (1, 1), (0, 0), (0, 1)]), 21);
}

#[test]
fn numbers_are_compared_and_not_their_digits() {
    let number = |pairs: &[Pair]| number_of(&grid(1, 16, pairs));
    assert_eq!(number(&[(0, 2), (0, 10)]), 0);
    assert_eq!(number(&[(0, 9), (0, 10)]), 0);
    assert_eq!(number(&[(0, 10), (0, 2)]), 21);
    assert_eq!(number(&[(0, 1), (0, 10), (0, 2)]), 21);
    assert_eq!(number(&[(0, 10), (0, 9)]), 21);
}

#[test]
fn shares_are_not_compared() {
    let lines = unshared(2, 2);
    let number = |shares: &str| number_of(&(lines.clone() + shares));
    assert_eq!(number("share,0,0,9\nshare,0,1,8\nshare,1,0,7\n"), 0);
    assert_eq!(number("share,0,0,1\nshare,1,0,2\nshare,0,1,3\n"), 21);
    assert_eq!(number("share,0,1,1\nshare,0,0,2\nshare,1,0,3\n"), 21);
}

#[test]
fn any_pair_may_stand_first() {
    let last = unshared(1, 16) + "share,0,15,1\n";
    assert_eq!(number_of(&last), 0);
    let every_last: Vec<Pair> = (0..8).map(|master| (master, 15)).collect();
    assert_eq!(number_of(&grid(8, 16, &every_last)), 0);
}

#[test]
fn the_first_line_that_comes_before_the_one_above_is_charged() {
    let refused = |pairs: &[Pair]| refused_share(2, 3, &grid(2, 3, pairs));
    assert_eq!(refused(&[(0, 1), (0, 0), (1, 0)]), Some((21, 1)));
    assert_eq!(refused(&[(0, 0), (1, 1), (0, 1)]), Some((21, 2)));
    assert_eq!(refused(&[(0, 0), (0, 2), (1, 1), (1, 0)]), Some((21, 3)));
    assert_eq!(refused(&[(1, 2), (0, 0), (0, 1), (0, 2)]), Some((21, 1)));
    let two_falls = [(0, 0), (0, 2), (0, 1), (1, 1), (1, 0)];
    assert_eq!(refused(&two_falls), Some((21, 2)));
}

#[test]
fn a_pair_that_has_a_line_stays_7() {
    let refused = |pairs: &[Pair]| refused_share(2, 2, &grid(2, 2, pairs));
    assert_eq!(refused(&[(0, 0), (0, 0)]), Some((7, 1)));
    assert_eq!(refused(&[(0, 0), (0, 1), (0, 0)]), Some((7, 2)));
    assert_eq!(refused(&[(0, 0), (1, 0), (0, 0)]), Some((7, 2)));
    assert_eq!(refused(&[(0, 1), (1, 0), (1, 1), (0, 1)]), Some((7, 3)));
    // the line that comes before the one above is the first bad one
    assert_eq!(refused(&[(0, 1), (0, 0), (0, 1)]), Some((21, 1)));
}

#[test]
fn lower_numbers_of_the_line_come_before() {
    let lines = grid(2, 2, &[(0, 1), (1, 0)]);
    let refused = |line: &str| refused_share(2, 2, &(lines.clone() + line));
    assert_eq!(refused("share,0,0,1\n"), Some((21, 2)));
    assert_eq!(refused("share,0,0,100\n"), Some((21, 2)));
    assert_eq!(refused("share,0,0,1"), Some((1, 2)));
    assert_eq!(refused("share,0,0\n"), Some((1, 2)));
    assert_eq!(refused("share,00,0,1\n"), Some((1, 2)));
    assert_eq!(refused("share,0,00,1\n"), Some((1, 2)));
    assert_eq!(refused("share,0,0,01\n"), Some((1, 2)));
    assert_eq!(refused("share,0,0,0\n"), Some((3, 2)));
    assert_eq!(refused("share,0,0,101\n"), Some((3, 2)));
    assert_eq!(refused("share,0,2,1\n"), Some((7, 2)));
    assert_eq!(refused("share,0,4294967296,1\n"), Some((7, 2)));
    assert_eq!(refused("share,4294967296,0,1\n"), Some((7, 2)));
}

#[test]
fn a_narrow_master_at_a_native_slave_comes_before() {
    let lines = "master,2,8\nmaster,4,8\nslave,0,8,4,8,1,0,1,0\nslave,8,8,4,8,1,0,0,0\n";
    let refused = |shares: &str| refused_share(2, 2, &(lines.to_string() + shares));
    assert_eq!(refused("share,1,0,1\nshare,0,0,1\n"), Some((19, 1)));
    assert_eq!(refused("share,0,1,1\nshare,0,0,1\n"), Some((19, 1)));
    // the same masters where the slave has bus sizing
    assert_eq!(refused("share,1,0,1\nshare,0,1,1\n"), Some((21, 1)));
    // a master that is wide enough
    assert_eq!(refused("share,1,1,1\nshare,1,0,1\n"), Some((21, 1)));
}

#[test]
fn it_comes_before_what_is_wrong_further_down() {
    for behind in ["\n", "master,4,8\n", "share,0,1,0\n", "share,2,0,1\n", "x"] {
        let text = grid(2, 2, &[(1, 0), (0, 0)]) + behind;
        assert_eq!(refused_share(2, 2, &text), Some((21, 1)), "{behind:?}");
    }
}

#[test]
fn what_is_wrong_further_up_comes_before() {
    let faults = [
        (1, "\n"),
        (2, "master,4,8\n"),
        (3, "share,1,0,0\n"),
        (7, "share,0,1,1\n"),
    ];
    for (number, before) in faults {
        let text = grid(2, 2, &[(0, 1)]) + before + &share_line(&(0, 0));
        assert_eq!(refused_share(2, 2, &text), Some((number, 1)));
    }
}

#[test]
fn the_line_comes_before_the_end() {
    // master 2 has no share line
    let text = grid(3, 2, &[(1, 0), (0, 0)]);
    assert_eq!(refused_share(3, 2, &text), Some((21, 1)));
    let in_order = grid(3, 2, &[(0, 0), (1, 0)]);
    let end = Err((20, Place::End));
    assert_eq!(read_with_place(in_order.as_bytes()), end);
}

#[test]
fn the_length_of_the_text_comes_before() {
    let text = grid(2, 1, &[(1, 0), (0, 0)]) + &"x".repeat(8192);
    let length = Err((1, Place::Length));
    assert_eq!(read_with_place(text.as_bytes()), length);
}

#[test]
fn native_slaves_are_no_exception() {
    let native = |pairs: &[Pair]| grid(1, 3, pairs).replace(",1,0,0,0\n", ",1,0,1,0\n");
    assert_eq!(number_of(&native(&[(0, 0), (0, 1), (0, 2)])), 0);
    let text = native(&[(0, 0), (0, 2), (0, 1)]);
    assert_eq!(refused_share(1, 3, &text), Some((21, 2)));
}

/// What is to be answered to share lines of these pairs, from the rules alone: the first line that does not come behind all
/// before it answers 7 where one of these is its own pair, else 21.
fn expected_refusal(pairs: &[Pair]) -> Option<(u8, usize)> {
    let highest_before = |line: usize| pairs[..line].iter().max();
    let line = (1..pairs.len()).find(|&line| highest_before(line) >= Some(&pairs[line]))?;
    let again = pairs[..line].contains(&pairs[line]);
    Some((if again { 7 } else { 21 }, line))
}

/// Sequences with one pair more than those given, of all pairs.
fn longer(sequences: &[Vec<Pair>], pairs: &[Pair]) -> Vec<Vec<Pair>> {
    let with_each = |sequence: &Vec<Pair>| {
        let sequence = sequence.clone();
        pairs
            .iter()
            .map(move |&pair| [&sequence[..], &[pair]].concat())
    };
    sequences.iter().flat_map(with_each).collect()
}

#[test]
fn every_sequence_of_four_share_lines_is_answered_as_it_has_to_be() {
    let pairs = pairs(2, 3);
    let mut sequences = vec![Vec::new()];
    for _ in 0..4 {
        sequences = longer(&sequences, &pairs);
        let answers = sequences
            .iter()
            .all(|lines| refused_share(2, 3, &grid(2, 3, lines)) == expected_refusal(lines));
        assert!(answers, "of {} sequences", sequences.len());
    }
    assert_eq!(sequences.len(), 6 * 6 * 6 * 6);
}

#[test]
fn each_pair_of_the_largest_board_is_compared_with_each() {
    let pairs = pairs(MASTER_LIMIT, SLAVE_LIMIT);
    let lines = unshared(MASTER_LIMIT, SLAVE_LIMIT);
    for two in longer(&longer(&[Vec::new()], &pairs), &pairs) {
        let text = lines.clone() + &share_line(&two[0]) + &share_line(&two[1]);
        let refusal = refused_share(MASTER_LIMIT, SLAVE_LIMIT, &text);
        assert_eq!(refusal, expected_refusal(&two), "{two:?}");
    }
}

#[test]
fn a_text_that_is_taken_is_what_the_writer_puts() {
    let mut random = Random::new(7);
    let mut taken = 0;
    for plan in texts::damaging_plans() {
        let text = texts::text(&mut random, plan);
        if let Ok(board) = read(&text) {
            assert_eq!(write(&board).as_bytes(), text);
            taken += 1;
        }
    }
    assert!(taken > 100, "only {taken}");
}

#[test]
fn of_all_orders_of_share_lines_one_is_taken() {
    let pairs = pairs(2, 2);
    let mut orders = vec![Vec::new()];
    for _ in 0..4 {
        orders = longer(&orders, &pairs);
    }
    orders.retain(|order| pairs.iter().all(|pair| order.contains(pair)));
    assert_eq!(orders.len(), 4 * 3 * 2);
    let answers = orders.iter().map(|order| number_of(&grid(2, 2, order)));
    assert_eq!(answers.clone().filter(|&number| number == 21).count(), 23);
    assert_eq!(answers.filter(|&number| number == 0).count(), 1);
}

#[test]
fn table_and_wait_call_answer_it() {
    let text = grid(2, 1, &[(1, 0), (0, 0)]);
    assert_eq!(table(text.as_bytes()), "refused,21\n");
    // before the room for the answer, the master and the slave are judged
    let mut output = [9; 15];
    assert_eq!(wait_call(text.as_bytes(), 0, 0, &mut output), 21);
    assert_eq!(wait_call(text.as_bytes(), 9, 9, &mut output), 21);
    assert_eq!(output, [9; 15]);
}

#[test]
fn a_script_is_not_run_on_a_refused_board() {
    let mut output = Vec::new();
    let text = grid(2, 1, &[(1, 0), (0, 0)]);
    simulate(text.as_bytes(), &mut &b"reset\n"[..], &mut output).expect("memory takes all");
    assert_eq!(output, b"refused,21\n");
}

#[test]
fn a_text_leaves_no_pair_to_the_next() {
    let texts = [
        grid(2, 2, &[(0, 1), (1, 1)]),
        grid(2, 2, &[(0, 0), (1, 0)]),
        grid(2, 2, &[(1, 1), (0, 0)]),
        grid(2, 2, &[(0, 0), (1, 0)]),
    ];
    let [first, second, _, fourth] = &texts;
    let expected = format!("read,0\n{first}read,0\n{second}read,21\nread,0\n{fourth}");
    let record = |text: &String| format!("{}\n{text}", text.len());
    let records: String = texts.iter().map(record).collect();
    let (mut boards, mut places) = (Vec::new(), Vec::new());
    print_boards(records.as_bytes(), &mut boards).expect("the records are whole");
    print_places(records.as_bytes(), &mut places).expect("the records are whole");
    assert_eq!(boards, expected.as_bytes());
    assert_eq!(places, b"read,0\nread,0\nshare,21\nread,0\n");
}

#[test]
fn a_lent_board_has_no_order() {
    let in_order = grid(2, 2, &[(0, 0), (0, 1), (1, 0), (1, 1)]);
    let mut board = read(in_order.as_bytes()).expect("the board is refused");
    board.shares = Default::default();
    for (master, slave) in [(1, 1), (0, 1), (1, 0), (0, 0)] {
        board.shares[master][slave] = 1;
    }
    assert_eq!(check_board(&board), Ok(()));
    assert_eq!(write(&board), in_order);
}

/// Sets some shares of the board to anything, also outside its counts.
fn overwrite_shares(random: &mut Random, board: &mut Board) {
    for _ in 0..random.between(1, 6) {
        let master = random.below(MASTER_LIMIT.min(board.master_count as usize + 1));
        let slave = random.below(SLAVE_LIMIT.min(board.slave_count as usize + 1));
        board.shares[master][slave] = random.pick(&[0, 1, 2, 100, 101]);
    }
}

#[test]
fn no_lent_board_is_refused_for_an_order() {
    let mut random = Random::new(9);
    let mut taken = 0;
    for _ in 0..1000 {
        let size = any_size(&mut random);
        let mut board = board(&mut random, size);
        overwrite_shares(&mut random, &mut board);
        let number = check_board(&board).err().unwrap_or(0);
        assert_ne!(number, 21);
        assert_eq!(number_of(&write(&board)), number);
        taken += (number == 0) as usize;
    }
    assert!(taken > 100, "only {taken}");
}

#[test]
fn every_call_takes_a_lent_board_of_every_pair() {
    let first = grid(8, 16, &pairs(8, 16));
    let mut fabric = Fabric::new(&first);
    assert_eq!(fabric::reset(&fabric.board).0, 0);
    assert_eq!(fabric.post(0, read_of(0, 15, 1), &[]), 0);
    assert_eq!(fabric.clock().number, 0);
}

#[test]
fn the_share_lines_of_a_script_come_in_any_order() {
    let script = "share,1,0,0\nshare,0,0,5\nreset\nshare,1,0,7\nshare,0,0,6\nreset\n\
                  post,0,read,4096,15,1,-\nclock,1\nwait,0,0\n";
    let mut output = Vec::new();
    simulate(BOARD.as_bytes(), &mut script.as_bytes(), &mut output).expect("memory takes all");
    let expected = "reset,20\nreset,0\npost,0\nclock,0,0\nslave,0,1,0,0,3,2,0\nwait,0,6,32\n";
    assert_eq!(String::from_utf8_lossy(&output), expected);
}
