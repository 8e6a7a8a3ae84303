//! The line `default`: last of all, once, and with no further field.

use crate::{BOARD, MARKED};
use model::board::Board;
use model::description::{check_board, read, read_with_place, write, Place};
use model::fabric;
use model::generate::boards::{any_size, board};
use model::generate::random::Random;
use model::generate::texts;
use model::records::{print_boards, print_places};
use model::script::simulate;
use model::table::table;
use model::wait::wait_call;

fn refused(text: &str) -> Option<(u8, Place)> {
    read_with_place(text.as_bytes()).err()
}

fn line(number: u8, index: usize) -> Option<(u8, Place)> {
    Some((number, Place::Line(index)))
}

fn with_mark(board: &Board, default: bool) -> Board {
    Board { default, ..*board }
}

/// Two masters and two slaves; the pair of master 1 and slave 1 has no share line.
const LINES: [&str; 7] = [
    "master,4,8",
    "master,2,1",
    "slave,0,8,2,8,1,0,0,0",
    "slave,8,8,2,8,1,0,0,0",
    "share,0,0,2",
    "share,0,1,1",
    "share,1,0,3",
];

/// The lines, with the other ones put at this place.
fn with_lines(place: usize, added: &[&str]) -> String {
    let lines = [&LINES[..place], added, &LINES[place..]].concat();
    lines.iter().map(|line| line.to_string() + "\n").collect()
}

#[test]
fn a_board_has_the_mark_where_its_text_has_the_line() {
    let marked = read(MARKED.as_bytes()).expect("the board is refused");
    let unmarked = read(BOARD.as_bytes()).expect("the board is refused");
    assert!(marked.default && !unmarked.default);
    assert_eq!(marked, with_mark(&unmarked, true));
    assert_eq!(check_board(&marked), Ok(()));
}

#[test]
fn the_writer_puts_it_last() {
    let marked = read(MARKED.as_bytes()).expect("the board is refused");
    assert_eq!(write(&marked), MARKED);
    let text = with_lines(7, &["default"]);
    let board = read(text.as_bytes()).expect("the board is refused");
    assert_eq!(write(&board), text);
}

#[test]
fn every_generated_board_is_written_and_read_with_its_mark() {
    let mut marked = 0;
    for seed in 0..200 {
        let mut random = Random::new(seed);
        let size = any_size(&mut random);
        let mut board = board(&mut random, size);
        marked += usize::from(board.default);
        let text = write(&board);
        assert_eq!(text.ends_with("\ndefault\n"), board.default);
        board.default = !board.default;
        let other = write(&board);
        assert_eq!(read(other.as_bytes()), Ok(board));
        assert_ne!(text, other);
        assert_eq!(
            text.replace("default\n", ""),
            other.replace("default\n", "")
        );
    }
    assert!((60..140).contains(&marked), "{marked} of 200");
}

#[test]
fn it_has_no_further_field() {
    for end in [",", ",0", ",1", ",2", ",default", ",,", ",1,1"] {
        let text = format!("{BOARD}default{end}\n");
        assert_eq!(refused(&text), line(1, 5), "{end}");
    }
}

#[test]
fn the_word_is_exact() {
    for word in [
        "defaul",
        "defaults",
        "efault",
        "Default",
        "DEFAULT",
        "defaulT",
        " default",
        "default ",
        "default\r",
        "default\t",
        "default\0",
        "\u{feff}default",
        "default;",
        "\"default\"",
        "",
    ] {
        let text = format!("{BOARD}{word}\n");
        assert_eq!(refused(&text), line(1, 5), "{word:?}");
    }
}

#[test]
fn it_needs_its_line_feed() {
    assert_eq!(refused(&MARKED[..MARKED.len() - 1]), line(1, 5));
    // where it stands too early as well
    assert_eq!(refused("master,4,8\ndefault"), line(1, 1));
    assert_eq!(refused(&format!("{MARKED}default")), line(1, 6));
}

#[test]
fn before_the_first_slave_it_answers_2() {
    for place in 0..=2 {
        let text = with_lines(place, &["default"]);
        assert_eq!(refused(&text), line(2, place));
    }
    assert_eq!(refused("default\n"), line(2, 0));
    assert_eq!(refused("master,4,8\ndefault\n"), line(2, 1));
    assert_eq!(refused("default,1\n"), line(1, 0));
}

#[test]
fn before_another_line_it_is_taken_and_that_line_answers_2() {
    for place in 3..=6 {
        let text = with_lines(place, &["default"]);
        assert_eq!(refused(&text), line(2, place + 1));
    }
    assert_eq!(refused(&with_lines(7, &["default"])), None);
}

#[test]
fn a_well_formed_line_behind_it_answers_2() {
    for behind in [
        "master,4,8",
        "master,3,8",
        "slave,16,8,2,8,1,0,0,0",
        "slave,0,8,2,8,1,0,0,0",
        "slave,4,8,2,8,1,0,0,0",
        "slave,0,7,2,8,1,0,0,64",
        "share,1,1,1",
        "share,0,0,1",
        "share,1,1,0",
        "share,9,99,1",
        "default",
    ] {
        let text = with_lines(7, &["default", behind]);
        assert_eq!(refused(&text), line(2, 8), "{behind}");
        let text = with_lines(7, &["default", behind, "default"]);
        assert_eq!(refused(&text), line(2, 8), "{behind}");
    }
}

#[test]
fn a_line_behind_it_that_is_not_well_formed_answers_1() {
    for behind in [
        "",
        "share,1,1",
        "share,1,1,01",
        "slave,16,8,2,8,1,0,0",
        "master,4",
        "default,1",
        "default,",
        "Default",
        "end",
    ] {
        let text = with_lines(7, &["default", behind]);
        assert_eq!(refused(&text), line(1, 8), "{behind}");
    }
}

#[test]
fn the_first_bad_line_is_charged() {
    let text = with_lines(7, &["share,1,1,0", "default", "default"]);
    assert_eq!(refused(&text), line(3, 7));
    let text = with_lines(7, &["share,0,0,1", "default"]);
    assert_eq!(refused(&text), line(7, 7));
    let text = with_lines(5, &["share,1,1,1", "share,0,0,1", "default"]);
    assert_eq!(refused(&text), line(7, 6));
    let text = with_lines(6, &["default", "default,1"]);
    assert_eq!(refused(&text), line(1, 7));
    let text = with_lines(6, &["default", "share,0,0,0"]);
    assert_eq!(refused(&text), line(2, 7));
}

#[test]
fn the_end_is_judged_behind_it() {
    let end = |number| Some((number, Place::End));
    let text = |lines: &[&str]| -> String {
        let line = |line: &&str| line.to_string() + "\n";
        lines.iter().map(line).collect()
    };
    // no share line at all, none of master 1, none of master 0
    assert_eq!(
        refused(&text(&[&LINES[..4], &["default"]].concat())),
        end(20)
    );
    assert_eq!(
        refused(&text(&[&LINES[..6], &["default"]].concat())),
        end(20)
    );
    let without_0 = [&LINES[..4], &LINES[6..], &["default"]].concat();
    assert_eq!(refused(&text(&without_0)), end(20));
    // a line behind it comes before the end
    let again = [&LINES[..4], &["default", "default"]].concat();
    assert_eq!(refused(&text(&again)), line(2, 5));
}

#[test]
fn a_lent_board_is_judged_as_without_the_mark() {
    let mut random = Random::new(3);
    let mut refused = 0;
    for _ in 0..500 {
        let size = any_size(&mut random);
        let mut board = board(&mut random, size);
        match random.below(6) {
            0 => board.shares[0] = Default::default(),
            1 => board.slave_count = random.below(17) as u8,
            2 => board.master_count = random.below(9) as u8,
            3 => board.slaves[0].span = 4,
            4 => board.shares[7][15] = 1,
            _ => {}
        }
        let numbers = [false, true].map(|mark| check_board(&with_mark(&board, mark)));
        assert_eq!(numbers[0], numbers[1]);
        assert_eq!(fabric::reset(&board).0, numbers[0].err().unwrap_or(0));
        assert_eq!(read(write(&board).as_bytes()).err(), numbers[0].err());
        refused += usize::from(numbers[0].is_err());
    }
    assert!(refused > 100, "only {refused}");
}

#[test]
fn a_lent_board_without_a_slave_is_refused_with_the_mark_too() {
    let mut board = read(MARKED.as_bytes()).expect("the board is refused");
    board.slave_count = 0;
    board.shares = Default::default();
    assert_eq!(check_board(&board), Err(2));
    assert_eq!(write(&board), "master,4,8\nmaster,2,1\ndefault\n");
    board.master_count = 0;
    assert_eq!(check_board(&board), Err(2));
}

#[test]
fn table_and_wait_call_have_the_same_figures_with_it() {
    let expected = "master,slave,wait,serve\n0,0,6,32\n1,0,36,2\n";
    assert_eq!(table(MARKED.as_bytes()), expected);
    let mut output = [9; 16];
    assert_eq!(wait_call(MARKED.as_bytes(), 1, 0, &mut output), 0);
    assert_eq!(output[..8], 36u64.to_le_bytes());
    assert_eq!(output[8..], 2u64.to_le_bytes());
    assert_eq!(wait_call(MARKED.as_bytes(), 1, 1, &mut output), 16);
    for seed in 0..100 {
        let mut random = Random::new(seed);
        let size = any_size(&mut random);
        let board = board(&mut random, size);
        let tables = [false, true].map(|mark| table(write(&with_mark(&board, mark)).as_bytes()));
        assert_eq!(tables[0], tables[1]);
    }
    assert_eq!(
        table(format!("{MARKED}default\n").as_bytes()),
        "refused,2\n"
    );
    assert_eq!(
        table(format!("{BOARD}default,1\n").as_bytes()),
        "refused,1\n"
    );
}

#[test]
fn records_are_answered_with_it() {
    let twice = format!("{MARKED}default\n");
    let early = format!("default\n{BOARD}");
    let share = format!("{MARKED}share,0,0,1\n");
    let field = format!("{BOARD}default,1\n");
    let texts = [MARKED, &twice, &early, &share, BOARD, &field];
    let records = texts.map(|text| format!("{}\n{text}", text.len())).concat();
    let (mut boards, mut places) = (Vec::new(), Vec::new());
    print_boards(records.as_bytes(), &mut boards).expect("the records are whole");
    print_places(records.as_bytes(), &mut places).expect("the records are whole");
    // the mark of one text is not left to the next
    let expected = format!("read,0\n{MARKED}read,2\nread,2\nread,2\nread,0\n{BOARD}read,1\n");
    assert_eq!(String::from_utf8_lossy(&boards), expected);
    let expected = "read,0\ndefault,2\ndefault,2\nshare,2\nread,0\ndefault,1\n";
    assert_eq!(String::from_utf8_lossy(&places), expected);
}

#[test]
fn a_script_is_not_run_on_a_refused_board() {
    let text = format!("{MARKED}default\n");
    let mut output = Vec::new();
    simulate(text.as_bytes(), &mut &b"reset\n"[..], &mut output).expect("memory takes all");
    assert_eq!(output, b"refused,2\n");
}

/// What a text of lines is answered for its lines `default` alone, from the rules: the line that is charged with 2, where the
/// others are good in their order.
fn charged_line(lines: &[&str]) -> Option<usize> {
    let first = lines.iter().position(|&line| line == "default")?;
    let has_slave = lines[..first].iter().any(|line| line.starts_with("slave"));
    match has_slave {
        false => Some(first),
        true => (first + 1 < lines.len()).then_some(first + 1),
    }
}

#[test]
fn every_two_places_of_the_line_are_answered_as_they_have_to_be() {
    for first in 0..=7 {
        for second in first..=7 {
            let lines = [
                &LINES[..first],
                &["default"],
                &LINES[first..second],
                &["default"],
                &LINES[second..],
            ]
            .concat();
            let text: String = lines.iter().map(|line| line.to_string() + "\n").collect();
            let expected = charged_line(&lines).and_then(|index| line(2, index));
            assert_eq!(refused(&text), expected, "{text}");
        }
        let text = with_lines(first, &["default"]);
        let lines: Vec<&str> = text.lines().collect();
        let expected = charged_line(&lines).and_then(|index| line(2, index));
        assert_eq!(refused(&text), expected, "{text}");
    }
}

#[test]
fn a_generated_text_that_is_taken_has_the_line_last_or_not_at_all() {
    let mut random = Random::new(11);
    let mut taken = [0; 2];
    for plan in texts::damaging_plans() {
        let text = texts::text(&mut random, plan);
        let Ok(board) = read(&text) else {
            continue;
        };
        let text = String::from_utf8(text).expect("a text that is taken is ASCII");
        assert_eq!(text.matches("default").count(), usize::from(board.default));
        assert_eq!(text.ends_with("\ndefault\n"), board.default);
        taken[usize::from(board.default)] += 1;
    }
    assert!(taken.iter().all(|&count| count > 50), "only {taken:?}");
}
