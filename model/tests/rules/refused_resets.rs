//! Resets that are refused: they leave the state, every number of it.

use crate::generators::board_and_script;
use crate::tally::ended_lines;
use crate::{BOARD, MARKED};
use model::script::{simulate, Simulator};

fn printed_on(text: &str, script: &str) -> String {
    let mut output = Vec::new();
    simulate(text.as_bytes(), &mut script.as_bytes(), &mut output).expect("memory takes all");
    String::from_utf8(output).expect("a script prints ASCII")
}

/// The lines that a state prints: these, and zeros in all others.
fn state_with(lines: &[&str]) -> String {
    let transfers = (0..8).map(|master| format!("transfer,{master},0,0,0,0,0,0"));
    let slots = (0..16).map(|slave| format!("slot,{slave},0,0,0,0,0"));
    let log = std::iter::once("log,0,0".to_string());
    let entries = (0..8).map(|place| format!("entry,{place},0,0,0"));
    let zeros = transfers.chain(slots).chain(log).chain(entries);
    zeros
        .map(|zero| {
            // the word, and the number that is not overwritten; the line of the log has none
            let front = match zero.strip_prefix("log,") {
                Some(_) => "log,".to_string(),
                None => zero.split_inclusive(',').take(2).collect(),
            };
            let line = lines.iter().find(|line| line.starts_with(&front));
            line.map_or(zero, |line| line.to_string()) + "\n"
        })
        .collect()
}

#[test]
fn transfers_go_on_after_a_refused_reset() {
    let script = "reset\npost,0,read,4096,15,1,-\npost,1,write,4100,3,1,a1b2\nclock,3\n\
                  share,1,0,0\nreset\nstate\nclock,1\nshare,1,0,3\nclock,2\nshow,memory,4,2\n";
    let state = state_with(&[
        "transfer,0,1,0,4096,15,1,0",
        "transfer,1,1,1,4100,3,1,0",
        "slot,0,0,1,1,1,1",
    ]);
    let expected = format!(
        "reset,0\npost,0\npost,0\n\
         clock,0,0\nslave,0,1,0,0,3,2,0\n\
         clock,0,0\nslave,0,2,0,0,3,2,0\n\
         clock,0,0\nslave,0,1,0,2,3,2,1\n\
         reset,20\n{state}clock,20,0\n\
         clock,0,1\nslave,0,2,0,2,3,2,1\n\
         clock,0,2\nslave,0,2,1,4,3,1,0\na1b2\n"
    );
    assert_eq!(printed_on(BOARD, script), expected);
}

#[test]
fn a_latency_goes_on_after_a_refused_reset() {
    let text = BOARD.replace(",1,0,0,0\n", ",1,0,0,3\n");
    let script = "reset\npost,0,read,4096,15,1,-\nclock,4\ncount,1,1\nreset\nstate\ncount,2,1\n\
                  clock,3\n";
    let state = state_with(&["transfer,0,1,0,4096,15,1,3", "slot,0,0,1,0,0,0"]);
    let idle = "slave,0,0,0,0,0,0,0\n";
    let expected = format!("reset,7\n{state}clock,0,0\n{idle}clock,0,0\n{idle}clock,0,1\n{idle}");
    let printed = printed_on(&text, script);
    let (_, after) = printed.split_at(printed.find("reset,7").expect("not refused"));
    assert_eq!(after, expected);
}

#[test]
fn the_log_stands_after_a_refused_reset() {
    let script = "reset\npost,0,read,16,15,1,-\nclock,1\npost,1,write,32,3,1,a1b2\nlog,1,1\n\
                  master,0,3,8\nreset\nstate\ntake\nmaster,0,4,8\ntake\nclock,1\ntake\ntake\n";
    let state = state_with(&[
        "transfer,1,1,1,32,3,1,0",
        "slot,0,1,0,0,0,0",
        "log,1,1",
        "entry,0,0,16,0",
    ]);
    let expected = format!(
        "reset,3\n{state}take,3,0,0,0\ntake,0,0,16,0\n\
         clock,0,2\nslave,0,0,0,0,0,0,0\nresponse,1,3\ntake,0,1,32,1\ntake,22,0,0,0\n"
    );
    let printed = printed_on(MARKED, script);
    let (_, after) = printed.split_at(printed.find("reset,3").expect("not refused"));
    assert_eq!(after, expected);
}

/// Lines of a whole state, of which no two numbers are equal if both may be above 1.
fn overwritten_state() -> String {
    let transfers = (0..8).map(|master| {
        let (address, lanes, late) = (1000 + master, 10 + master, 2000 + master);
        format!(
            "transfer,{master},1,1,{address},{lanes},{},{late}\n",
            20 + master
        )
    });
    let slots = (0..16).map(|slave| {
        let (owner, remaining, done) = (30 + slave, 50 + slave, 3000 + slave);
        format!("slot,{slave},{owner},{remaining},1,{done},{}\n", 70 + slave)
    });
    let log = std::iter::once("log,4000,1\n".to_string());
    let entries = (0..8).map(|place| format!("entry,{place},{},{},1\n", 90 + place, 5000 + place));
    transfers.chain(slots).chain(log).chain(entries).collect()
}

#[test]
fn every_number_stands_after_a_refused_reset() {
    let state = overwritten_state();
    let script = format!("reset\n{state}count,0,1\nreset\nstate\nreset\nstate\n");
    let expected = format!("reset,0\nreset,2\n{state}reset,2\n{state}");
    assert_eq!(printed_on(BOARD, &script), expected);
}

#[test]
fn whatever_the_board_is_refused_for_the_state_stands() {
    let before = "reset\nfill,buffer,512,c1c2\npost,0,read,4096,15,8,-\npost,1,read,32,3,1,-\n\
                  clock,3\nstate\n";
    let state = state_with(&[
        "transfer,0,1,0,4096,15,8,0",
        "slot,0,0,0,1,1,1",
        "log,1,0",
        "entry,0,1,32,0",
    ]);
    for (lines, number) in [
        ("count,0,1", 2),
        ("count,2,0", 2),
        ("master,0,3,8", 3),
        ("master,1,2,3", 3),
        ("slave,0,4096,4096,2,8,1,0,0,64", 3),
        ("share,0,0,101", 3),
        ("slave,0,4100,4096,2,8,1,0,0,0", 4),
        ("slave,1,4096,8,1,1,0,0,0,0\ncount,2,2", 5),
        ("slave,1,65536,65536,1,1,0,0,0,0\ncount,2,2", 6),
        ("count,1,1", 7),
        ("share,0,1,1", 7),
        ("slave,0,4096,4096,4,8,1,0,1,0", 19),
        ("share,1,0,0", 20),
    ] {
        let printed = printed_on(MARKED, &format!("{before}{lines}\nreset\nstate\n"));
        let expected = format!("{state}reset,{number}\n{state}");
        assert!(printed.ends_with(&expected), "{lines}: {printed}");
    }
}

#[test]
fn before_the_first_accepted_reset_the_state_is_all_0() {
    let zeros = state_with(&[]);
    let script = "state\nshare,1,0,0\nreset\nstate\nshare,1,0,3\nclock,1\nstate\n";
    let idle = "clock,0,0\nslave,0,0,0,0,0,0,0\n";
    let expected = format!("{zeros}reset,20\n{zeros}{idle}{zeros}");
    assert_eq!(printed_on(BOARD, script), expected);
}

#[test]
fn an_accepted_reset_after_refused_ones_clears() {
    let script = "reset\npost,0,read,4096,15,1,-\nclock,1\nlog,2,1\nshare,1,0,0\nreset\nreset\n\
                  share,1,0,3\nreset\nstate\n";
    let state = state_with(&["slot,0,1,0,0,0,0"]);
    let printed = printed_on(BOARD, script);
    let expected = format!("reset,20\nreset,20\nreset,0\n{state}");
    assert!(printed.ends_with(&expected), "{printed}");
}

#[test]
fn without_its_refused_resets_a_script_prints_the_same() {
    let mut left_out = 0;
    for seed in 0..100 {
        let (text, script) = board_and_script(seed, 100);
        let mut simulator = Simulator::new(text.as_bytes()).expect("a generated board is refused");
        let mut without = simulator.clone();
        for line in ended_lines(&script) {
            let (mut printed, mut expected) = (Vec::new(), Vec::new());
            let result = simulator
                .run_line(line, &mut printed)
                .expect("memory takes all");
            if printed.starts_with(b"reset,") && printed != b"reset,0\n" {
                left_out += 1;
                continue;
            }
            let same = without
                .run_line(line, &mut expected)
                .expect("memory takes all");
            assert_eq!((result, printed), (same, expected), "seed {seed}");
            assert_eq!(simulator.state, without.state, "seed {seed}");
            if result.is_none() {
                break;
            }
        }
    }
    assert!(left_out > 50, "only {left_out}");
}
