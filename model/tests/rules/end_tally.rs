//! The last line of a script, if it lacks its line feed.

use crate::tally::ended_lines;
use crate::BOARD;
use model::script::Simulator;

/// What an unended line is.
#[derive(Clone, Copy, PartialEq, Eq, Debug)]
pub enum Kind {
    /// It would be carried out if it had its line feed: a whole line, or a cut one that is a whole one too.
    Whole,
    /// It can be made such a line by further bytes.
    Cut,
    /// It cannot.
    Malformed,
    /// It is one byte long.
    Character,
}

pub const KINDS: [Kind; 4] = [Kind::Whole, Kind::Cut, Kind::Malformed, Kind::Character];

/// A line of each kind; some of the same word differ in a name.
const PATTERNS: [&str; 22] = [
    "reset",
    "state",
    "take",
    "clock,0",
    "post,0,read,0,0,0,-",
    "post,0,write,0,0,0,-",
    "wait,0,0",
    "fill,memory,0,-",
    "fill,buffer,0,-",
    "show,memory,0,0",
    "show,buffer,0,0",
    "lend,memory,0",
    "lend,buffer,0",
    "transfer,0,0,0,0,0,0,0",
    "slot,0,0,0,0,0,0",
    "log,0,0",
    "entry,0,0,0,0",
    "master,0,0,0",
    "slave,0,0,0,0,0,0,0,0,0",
    "share,0,0,0",
    "count,0,0",
    "default,0",
];

pub fn word_of(line: &str) -> &str {
    line.split(',').next().unwrap_or_default()
}

/// The first words of a script's lines.
pub fn words() -> Vec<&'static str> {
    let mut words: Vec<&str> = PATTERNS.iter().map(|pattern| word_of(pattern)).collect();
    words.dedup();
    words
}

/// An unended line, and the words of the lines that it is or can be made.
#[derive(Clone, PartialEq, Eq, Debug)]
pub struct Unended {
    pub line: Vec<u8>,
    pub kind: Kind,
    pub words: Vec<&'static str>,
}

fn is_run(simulator: &Simulator, line: &[u8]) -> bool {
    let result = simulator.clone().run_line(line, &mut Vec::new());
    matches!(result, Ok(Some(())))
}

/// Whether the line becomes one of the pattern's word that is carried out, if its last field is ended and the pattern's other
/// fields follow.
fn becomes(simulator: &Simulator, line: &[u8], pattern: &str) -> bool {
    let fields: Vec<&str> = pattern.split(',').collect();
    let own: Vec<&[u8]> = line.split(|&byte| byte == b',').collect();
    if own.len() > fields.len() {
        return false;
    }
    let (field, rest) = (fields[own.len() - 1], &fields[own.len()..]);
    let end_of_name = field.as_bytes().strip_prefix(own[own.len() - 1]);
    let ends = [&b""[..], b"0", end_of_name.unwrap_or_default()];
    ends.into_iter().any(|end| {
        let mut whole = [line, end].concat();
        for field in rest {
            whole.push(b',');
            whole.extend(field.as_bytes());
        }
        whole.starts_with(fields[0].as_bytes()) && is_run(simulator, &whole)
    })
}

fn judge(simulator: &Simulator, line: &[u8]) -> Unended {
    let words_if = |is_such: &dyn Fn(&str) -> bool| -> Vec<&'static str> {
        let such = PATTERNS.into_iter().filter(|pattern| is_such(pattern));
        let mut words: Vec<&str> = such.map(word_of).collect();
        words.dedup();
        words
    };
    let own = String::from_utf8_lossy(line).into_owned();
    let (kind, words) = if line.len() == 1 {
        (Kind::Character, Vec::new())
    } else if is_run(simulator, line) {
        (
            Kind::Whole,
            words_if(&|pattern| word_of(pattern) == word_of(&own)),
        )
    } else {
        let words = words_if(&|pattern| becomes(simulator, line, pattern));
        match words.is_empty() {
            true => (Kind::Malformed, words),
            false => (Kind::Cut, words),
        }
    };
    Unended {
        line: line.to_vec(),
        kind,
        words,
    }
}

/// The script's last line, if it lacks its line feed and no line before it ends the script.
pub fn unended(text: &[u8], script: &[u8]) -> Option<Unended> {
    let mut simulator = Simulator::new(text).ok()?;
    let last = script.split(|&byte| byte == b'\n').next_back()?;
    if last.is_empty() {
        return None;
    }
    for line in ended_lines(script) {
        simulator.run_line(line, &mut Vec::new()).ok()??;
    }
    Some(judge(&simulator, last))
}

#[test]
fn unended_lines_are_told_apart() {
    let judged = |script: &str| {
        let end = unended(BOARD.as_bytes(), script.as_bytes());
        end.map(|end| (end.kind, end.words))
    };
    assert_eq!(
        judged("reset\nclock,10"),
        Some((Kind::Whole, vec!["clock"]))
    );
    assert_eq!(judged("state"), Some((Kind::Whole, vec!["state"])));
    for (line, words) in [
        ("clock,", vec!["clock"]),
        ("log", vec!["log"]),
        ("sl", vec!["slot", "slave"]),
        ("post,0,wri", vec!["post"]),
        ("post,0,write,4096,15,1,a", vec!["post"]),
        ("show,buffer,12", vec!["show"]),
        ("slave,0,4096,4096", vec!["slave"]),
    ] {
        assert_eq!(judged(line), Some((Kind::Cut, words)), "{line}");
    }
    for line in [
        "clock,01",
        "clock,1\r",
        "share,0,16",
        "stat,",
        "lend,memory,70000",
    ] {
        assert_eq!(judged(line), Some((Kind::Malformed, vec![])), "{line}");
    }
    assert_eq!(judged("reset\nc"), Some((Kind::Character, vec![])));
    for script in ["", "reset\n", "reset\nclock,01\nreset"] {
        assert_eq!(judged(script), None, "{script}");
    }
}
