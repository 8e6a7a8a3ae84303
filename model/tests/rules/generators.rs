//! The generators: boards that are taken, and texts and scripts that reach every refusal.

use std::fs;
use std::path::Path;

use crate::end_tally::{unended, words, Kind, Unended, KINDS};
use crate::late_tally::{late_tally, LateTally, FAULTS};
use crate::reset_tally::{printed_if, reset_tally, ResetTally, RESET_CASES};
use crate::tally::{tally, Tally};
use crate::unmapped_tally::{unmapped_tally, UnmappedTally, CASES};
use model::board::Board;
use model::description::{read, write};
use model::fabric::State;
use model::generate::boards::{any_size, board, longest_board, write_boards, Size};
use model::generate::random::Random;
use model::generate::{scripts, texts};
use model::records::print_boards;
use model::script::simulate;

#[test]
fn generated_boards_are_read_back() {
    for seed in 0..200 {
        let mut random = Random::new(seed);
        let size = any_size(&mut random);
        let board = board(&mut random, size);
        assert_eq!(read(write(&board).as_bytes()), Ok(board), "seed {seed}");
    }
}

#[test]
fn generated_boards_have_native_cards_at_wider_masters() {
    let is_wider = |seed: &u64| {
        let board = board(&mut Random::new(*seed), Size::Small);
        board.pairs().any(|(master, slave)| {
            let card = &board.slaves[slave];
            let wider = board.masters[master].width > card.width;
            board.connected(master, slave) && card.is_native() && wider
        })
    };
    let boards = (0..200).filter(is_wider).count();
    assert!(boards > 50, "only {boards} of 200");
}

/// How many boards of 200 are such, of all sizes.
fn boards_that(are_such: impl Fn(&Board) -> bool) -> usize {
    let is_such = |seed: &u64| {
        let mut random = Random::new(*seed);
        let size = any_size(&mut random);
        are_such(&board(&mut random, size))
    };
    (0..200).filter(is_such).count()
}

/// The masters that are connected with the slave.
fn masters_at(board: &Board, slave: usize) -> Vec<usize> {
    (0..board.master_count as usize)
        .filter(|&master| board.connected(master, slave))
        .collect()
}

#[test]
fn generated_boards_have_either_wait_longer_where_masters_wait_for_each_other() {
    let differences = |board: &Board| -> Vec<i32> {
        (0..board.slave_count as usize)
            .filter(|&slave| masters_at(board, slave).len() > 1)
            .map(|slave| &board.slaves[slave])
            .map(|slave| slave.read_wait as i32 - slave.write_wait as i32)
            .collect()
    };
    let read = boards_that(|board| differences(board).iter().any(|&longer| longer > 0));
    let write = boards_that(|board| differences(board).iter().any(|&longer| longer < 0));
    let equal = boards_that(|board| differences(board).contains(&0));
    assert!(read > 50, "only {read} of 200");
    assert!(write > 50, "only {write} of 200");
    assert!(equal > 50, "only {equal} of 200");
}

#[test]
fn generated_boards_have_several_unlike_masters_at_a_slave() {
    let unlike = boards_that(|board| {
        (0..board.slave_count as usize).any(|slave| {
            let masters = masters_at(board, slave);
            let differ = |value: &dyn Fn(usize) -> u8| {
                masters
                    .iter()
                    .any(|&other| value(other) != value(masters[0]))
            };
            masters.len() > 2
                && differ(&|master| board.masters[master].width)
                && differ(&|master| board.masters[master].burst)
                && differ(&|master| board.shares[master][slave])
        })
    });
    assert!(unlike > 80, "only {unlike} of 200");
}

#[test]
fn generated_boards_have_masters_at_few_slaves() {
    let slaves_of = |board: &Board, master: usize| {
        let slaves = 0..board.slave_count as usize;
        slaves
            .filter(|&slave| board.connected(master, slave))
            .count()
    };
    let few = boards_that(|board| {
        let mut masters = 0..board.master_count as usize;
        board.slave_count >= 3 && masters.all(|master| slaves_of(board, master) <= 2)
    });
    assert!(few > 10, "only {few} of 200");
}

#[test]
fn the_longest_board_is_taken() {
    let board = longest_board(&mut Random::new(1));
    let text = write(&board);
    assert_eq!(read(text.as_bytes()), Ok(board));
    // 8 lines of 12 bytes, 3 of 41 and 13 of 40, of each master 10 of 14 and 6 of 15, and the last one of 8
    assert_eq!(text.len(), 96 + 123 + 520 + 8 * (140 + 90) + 8);
}

/// What is answered to 2,000 generated texts.
fn answers_to_texts(seed: u64) -> String {
    let (mut records, mut answers) = (Vec::new(), Vec::new());
    texts::write_texts(seed, 2000, &mut records).expect("memory takes all");
    print_boards(&records, &mut answers).expect("the records are whole");
    String::from_utf8(answers).expect("the answers are ASCII")
}

#[test]
fn generated_texts_reach_every_refusal_of_the_reader() {
    let answers = answers_to_texts(1);
    for number in [0, 1, 2, 3, 4, 5, 6, 7, 19, 20, 21] {
        let line = format!("read,{number}");
        assert!(answers.lines().any(|answer| answer == line), "no {line}");
    }
}

#[test]
fn generated_texts_often_have_share_lines_out_of_order() {
    let answers = answers_to_texts(2);
    let refused = answers.lines().filter(|&line| line == "read,21").count();
    assert!(refused > 80, "only {refused} of 2000");
    let taken = answers.lines().filter(|&line| line == "read,0").count();
    assert!(taken > 250, "only {taken} of 2000");
}

/// A board and a script for it.
pub fn board_and_script(seed: u64, calls: usize) -> (String, Vec<u8>) {
    let mut random = Random::new(seed);
    let size = any_size(&mut random);
    let text = write(&board(&mut random, size));
    let mut script = Vec::new();
    scripts::write_script(seed, calls, text.as_bytes(), &mut script).expect("memory takes all");
    (text, script)
}

/// What is printed for generated scripts on generated boards.
fn printed_by_scripts(seeds: std::ops::Range<u64>) -> String {
    let mut printed = Vec::new();
    for seed in seeds {
        let (text, script) = board_and_script(seed, 200);
        simulate(text.as_bytes(), &mut &script[..], &mut printed).expect("memory takes all");
    }
    String::from_utf8(printed).expect("scripts print ASCII")
}

#[test]
fn generated_scripts_reach_every_refusal_of_a_post() {
    let printed = printed_by_scripts(0..200);
    for number in (0..=20).filter(|number| ![1, 10].contains(number)) {
        let line = format!("post,{number}");
        assert!(printed.lines().any(|answer| answer == line), "no {line}");
    }
}

#[test]
fn generated_scripts_reach_every_refusal_of_a_take() {
    let printed = printed_by_scripts(0..200);
    for number in [2, 3, 4, 5, 6, 7, 9, 19, 20, 22] {
        let line = format!("take,{number},0,0,0");
        assert!(printed.lines().any(|answer| answer == line), "no {line}");
    }
    assert!(printed.lines().any(|answer| answer.starts_with("take,0,")));
    // neither memory nor buffer is lent
    assert!(!printed.lines().any(|answer| answer.starts_with("take,8,")));
}

#[test]
fn generated_scripts_are_never_refused_for_an_order() {
    let printed = printed_by_scripts(300..340);
    for line in ["reset,21", "post,21", "clock,21,0"] {
        assert!(!printed.lines().any(|answer| answer == line), "{line}");
    }
}

#[test]
fn generated_scripts_call_with_a_master_that_has_no_share_line() {
    let printed = printed_by_scripts(200..300);
    for line in ["reset,20", "post,20", "clock,20,0"] {
        assert!(printed.lines().any(|answer| answer == line), "no {line}");
    }
}

#[test]
fn generated_scripts_have_writes_that_leave_words_out() {
    let tallies: Vec<Tally> = (0..300)
        .map(|seed| board_and_script(seed, 100))
        .map(|(text, script)| tally(text.as_bytes(), &script))
        .collect();
    let count = |is_such: fn(&Tally) -> bool| tallies.iter().filter(|tally| is_such(tally)).count();
    let finished = count(|tally| tally.finished);
    let refused = count(|tally| tally.refused);
    let entered = count(|tally| tally.entered);
    assert!(finished > 90, "only {finished} of 300 finish one");
    assert!(
        refused > 20,
        "only {refused} of 300 answer 9 for the accesses of one"
    );
    assert!(
        entered > 10,
        "only {entered} of 300 go on from the middle of one"
    );
}

#[test]
fn generated_boards_have_short_and_long_latencies() {
    let of_latency = |is_such: fn(u32) -> bool| {
        boards_that(|board| {
            let slaves = &board.slaves[..board.slave_count as usize];
            slaves.iter().any(|slave| is_such(slave.latency))
        })
    };
    assert!(of_latency(|latency| latency == 0) > 100);
    for latency in [1, 2, 3, 63] {
        let boards = boards_that(|board| board.slaves.iter().any(|slave| slave.latency == latency));
        assert!(boards >= 20, "only {boards} of 200 have {latency}");
    }
    assert!(of_latency(|latency| (4..63).contains(&latency)) > 40);
    // where masters meet, and a reader has a turn to lose
    let contested = boards_that(|board| {
        (0..board.slave_count as usize).any(|slave| {
            let has_turn = |master: &usize| board.shares[*master][slave] > 1;
            let masters = masters_at(board, slave);
            board.slaves[slave].latency > 0 && masters.len() > 1 && masters.iter().any(has_turn)
        })
    });
    assert!(contested > 60, "only {contested} of 200");
}

/// How often a script has a case of a latency.
type Number = fn(&LateTally) -> usize;

/// Of 400 scripts of 100 calls, how many have each case of a latency.
fn scripts_with_latencies() -> Vec<(String, usize)> {
    let tallies: Vec<LateTally> = (0..400)
        .map(|seed| board_and_script(seed, 100))
        .map(|(text, script)| late_tally(text.as_bytes(), &script))
        .collect();
    let count = |number: &dyn Fn(&LateTally) -> usize| {
        tallies.iter().filter(|tally| number(tally) > 0).count()
    };
    let cases: [(&str, Number); 9] = [
        ("passed", |tally| tally.passed),
        ("passed long", |tally| tally.passed_long),
        ("writes", |tally| tally.writes),
        ("others served", |tally| tally.others_served),
        ("lost", |tally| tally.lost),
        ("lost alone", |tally| tally.lost_alone),
        ("posts", |tally| tally.posts),
        ("entered", |tally| tally.entered),
        ("lent", |tally| tally.lent),
    ];
    let mut scripts: Vec<(String, usize)> = cases
        .iter()
        .map(|(name, number)| (name.to_string(), count(number)))
        .collect();
    for (index, fault) in FAULTS.into_iter().enumerate() {
        scripts.push((format!("{fault:?}"), count(&|tally| tally.faults[index])));
    }
    scripts
}

#[test]
fn generated_scripts_have_every_case_of_a_latency() {
    let cases = scripts_with_latencies();
    println!("{cases:?}");
    for (name, scripts) in cases {
        assert!(scripts >= 24, "{name} only in {scripts} of 400");
    }
}

#[test]
fn about_half_of_the_generated_boards_have_the_mark() {
    let marked = boards_that(|board| board.default);
    assert!((80..=120).contains(&marked), "{marked} of 200");
    let folder = Path::new(env!("CARGO_TARGET_TMPDIR")).join("marked_boards");
    let _ = fs::remove_dir_all(&folder);
    write_boards(6, 500, &folder).expect("the boards cannot be written");
    let boards: Vec<Option<Board>> = (0..500)
        .map(|index| fs::read(folder.join(format!("{index}.txt"))).expect("no board"))
        .map(|text| read(&text).ok())
        .collect();
    let taken = boards.iter().flatten().count();
    let marked = boards
        .iter()
        .flatten()
        .filter(|board| board.default)
        .count();
    assert!(taken > 380, "only {taken} of 500 are taken");
    assert!((180..=260).contains(&marked), "{marked} of {taken}");
}

/// What alone a text is refused for, where that is its line `default`.
#[derive(Clone, Copy, PartialEq, Eq, Debug)]
enum DefaultFault {
    /// It has a further field.
    Longer,
    Twice,
    /// It stands before the first slave.
    Early,
    /// A slave or a share line stands behind it.
    Between,
}

fn is_taken(lines: &[&[u8]]) -> bool {
    read(&[&lines.join(&b'\n')[..], b"\n"].concat()).is_ok()
}

/// The text with `default` last and once is taken, as it stands it is not.
fn default_fault(text: &[u8]) -> Option<DefaultFault> {
    let text = text.strip_suffix(b"\n")?;
    let lines: Vec<&[u8]> = text.split(|&byte| byte == b'\n').collect();
    let is_default = |line: &&[u8]| *line == b"default" || line.starts_with(b"default,");
    let others: Vec<&[u8]> = lines
        .iter()
        .copied()
        .filter(|line| !is_default(line))
        .collect();
    let right = [&others[..], &[b"default"]].concat();
    let found: Vec<&[u8]> = lines.iter().copied().filter(is_default).collect();
    if found.is_empty() || is_taken(&lines) || !is_taken(&right) {
        return None;
    }
    let place = lines.iter().position(|line| is_default(&line))?;
    let is_slave = |line: &&[u8]| line.starts_with(b"slave");
    match (found[..] == [b"default"], found.len()) {
        (false, 1) => Some(DefaultFault::Longer),
        (_, 2..) => Some(DefaultFault::Twice),
        _ if lines[..place].iter().any(is_slave) => Some(DefaultFault::Between),
        _ => Some(DefaultFault::Early),
    }
}

#[test]
fn generated_texts_are_often_refused_for_the_line_default_alone() {
    let mut random = Random::new(3);
    let texts: Vec<Vec<u8>> = texts::damaging_plans()
        .into_iter()
        .map(|plan| texts::text(&mut random, plan))
        .collect();
    let count = |fault| {
        let is_such = |text: &&Vec<u8>| default_fault(text) == Some(fault);
        texts.iter().filter(is_such).count()
    };
    let faults = [
        DefaultFault::Longer,
        DefaultFault::Twice,
        DefaultFault::Early,
        DefaultFault::Between,
    ]
    .map(|fault| (fault, count(fault)));
    println!("{faults:?} of {}", texts.len());
    assert!(faults.iter().all(|&(_, count)| count > 50), "{faults:?}");
    let is_unconnected = |text: &&Vec<u8>| text.ends_with(b"\ndefault\n") && read(text) == Err(20);
    let unconnected = texts.iter().filter(is_unconnected).count();
    assert!(unconnected > 100, "only {unconnected}");
}

/// Of 400 scripts of 100 calls, how many have each case of unmapped transfers and of the log.
fn scripts_with_unmapped() -> Vec<(&'static str, usize)> {
    let tallies: Vec<UnmappedTally> = (0..400)
        .map(|seed| board_and_script(seed, 100))
        .map(|(text, script)| unmapped_tally(text.as_bytes(), &script))
        .collect();
    let has = |tally: &&UnmappedTally, case: &str| tally.get(case).is_some_and(|&count| count > 0);
    let count = |case: &'static str| tallies.iter().filter(|tally| has(tally, case)).count();
    CASES.into_iter().map(|case| (case, count(case))).collect()
}

#[test]
fn generated_scripts_have_every_case_of_unmapped_transfers() {
    let cases = scripts_with_unmapped();
    println!("{cases:#?}");
    for (case, scripts) in cases {
        assert!(scripts >= 24, "{case} only in {scripts} of 400");
    }
}

/// Of 400 scripts of 100 calls, how many have each case of a refused reset.
fn scripts_with_refused_resets() -> Vec<(&'static str, usize)> {
    let tallies: Vec<ResetTally> = (0..400)
        .map(|seed| board_and_script(seed, 100))
        .map(|(text, script)| reset_tally(text.as_bytes(), &script))
        .collect();
    let has = |tally: &&ResetTally, case: &str| tally.get(case).is_some_and(|&count| count > 0);
    let count = |case: &'static str| tallies.iter().filter(|tally| has(tally, case)).count();
    RESET_CASES
        .into_iter()
        .map(|case| (case, count(case)))
        .collect()
}

#[test]
fn generated_scripts_have_every_case_of_a_refused_reset() {
    let cases = scripts_with_refused_resets();
    println!("{cases:#?}");
    for (case, scripts) in cases {
        assert!(scripts >= 24, "{case} only in {scripts} of 400");
    }
}

/// What a wrong program does to the state at a refused reset.
type Wrong = (&'static str, fn(&mut State));

const WRONG: [Wrong; 8] = [
    ("all is 0", |state| *state = State::default()),
    ("no transfer is held", |state| {
        state.transfers = State::default().transfers
    }),
    ("no latency is left", |state| {
        state
            .transfers
            .iter_mut()
            .for_each(|transfer| transfer.late = 0)
    }),
    ("no slot is left", |state| {
        state.slots = State::default().slots
    }),
    ("no slave serves", |state| {
        state.slots.iter_mut().for_each(|slot| slot.serving = false)
    }),
    ("no entry stands", |state| state.log.count = 0),
    ("no entry has numbers", |state| {
        state.log.entries = State::default().log.entries
    }),
    ("nothing is lost", |state| state.log.lost = false),
];

/// Which of the wrong programs print something else than the right one.
fn told_apart(text: &[u8], script: &[u8]) -> [bool; WRONG.len()] {
    let right = printed_if(text, script, |_| {});
    WRONG.map(|(_, change)| right != printed_if(text, script, change))
}

#[test]
fn generated_scripts_tell_what_a_refused_reset_changes() {
    let told: Vec<[bool; WRONG.len()]> = (400..500)
        .map(|seed| board_and_script(seed, 100))
        .map(|(text, script)| told_apart(text.as_bytes(), &script))
        .collect();
    for (index, (name, _)) in WRONG.into_iter().enumerate() {
        let scripts = told.iter().filter(|told| told[index]).count();
        println!("{name}: {scripts} of 100");
        assert!(scripts >= 8, "{name}: only {scripts} of 100");
    }
}

#[test]
fn about_one_generated_script_in_eight_lacks_its_last_line_feed() {
    let ends: Vec<Unended> = (0..400)
        .map(|seed| board_and_script(seed, 100))
        .filter_map(|(text, script)| unended(text.as_bytes(), &script))
        .collect();
    assert!((24..=75).contains(&ends.len()), "{} of 400", ends.len());
    for kind in KINDS {
        let count = ends.iter().filter(|end| end.kind == kind).count();
        println!("{kind:?}: {count} of 400");
        assert!(count >= 4, "{kind:?} only in {count} of 400");
    }
}

/// Boards with scripts that are only opened and closed.
fn short_scripts() -> impl Iterator<Item = (String, Vec<u8>)> {
    (0..6000).map(|seed| board_and_script(seed, 0))
}

#[test]
fn unended_lines_of_every_word_are_whole_and_cut() {
    let ends: Vec<Unended> = short_scripts()
        .filter_map(|(text, script)| unended(text.as_bytes(), &script))
        .collect();
    for word in words() {
        for kind in [Kind::Whole, Kind::Cut] {
            let is_such = |end: &&Unended| end.kind == kind && end.words.contains(&word);
            let count = ends.iter().filter(is_such).count();
            println!("{word} {kind:?}: {count} of 6000");
            assert!(count >= 2, "{word} {kind:?}: only {count} of 6000");
        }
    }
    // clocks are generated with two digits or more
    let is_clock_of_one = |end: &&Unended| end.line == b"clock,1";
    let cut_clocks = ends.iter().filter(is_clock_of_one).count();
    assert!(cut_clocks >= 4, "only {cut_clocks} of 6000");
}

#[test]
fn some_generated_scripts_are_one_unended_line_or_empty() {
    let scripts: Vec<Vec<u8>> = short_scripts().map(|(_, script)| script).collect();
    let empty = scripts.iter().filter(|script| script.is_empty()).count();
    let is_one_line = |script: &&Vec<u8>| !script.is_empty() && !script.contains(&b'\n');
    let one_line = scripts.iter().filter(is_one_line).count();
    assert!((8..=50).contains(&empty), "{empty} of 6000");
    assert!((25..=80).contains(&one_line), "{one_line} of 6000");
}

#[test]
fn scripts_for_refused_boards_end_with_and_without_a_line_feed() {
    let is_ended = |seed: &u64| {
        let mut script = Vec::new();
        scripts::write_script(*seed, 100, b"master,4,8\n", &mut script).expect("memory takes all");
        script.ends_with(b"\n")
    };
    let ended = (0..100).filter(is_ended).count();
    assert!((50..=95).contains(&ended), "{ended} of 100");
}
