//! Last lines that lack their line feed, which are errors, whatever they say.

use super::lines::{
    default_line, entry_line, log_line, master_line, slave_line, slot_line, transfer_line,
};
use super::Author;
use crate::fabric::LOG_LENGTH;

/// The first words of a script's lines; those that scripts use most come more often.
const WORDS: [&str; 24] = [
    "clock", "clock", "clock", "clock", "post", "post", "reset", "reset", "state", "state", "take",
    "wait", "fill", "show", "lend", "transfer", "slot", "log", "entry", "master", "slave", "share",
    "count", "default",
];

/// Single characters that begin a line, stand in one, or are none of a script's.
const CHARACTERS: &[u8] = b"cprst0159-,\r \0\xff";

impl Author {
    /// A line about what the script uses, as it would be carried out now.
    fn line_of(&mut self, word: &str) -> String {
        let master = self.random.below(self.masters());
        let slave = self.random.below(self.slaves());
        match word {
            // two digits or more, so that one that is cut clocks too
            "clock" => format!("clock,{}", self.random.pick(&[10, 12, 25, 30, 100])),
            "post" => {
                let style = self.style();
                let post = self.some_post(&style);
                self.post_line(&post)
            }
            "wait" => format!("wait,{master},{slave}"),
            "fill" | "show" | "lend" => self.line_of_store(word),
            "transfer" => transfer_line(master, &self.simulator.state.transfers[master]),
            "slot" => slot_line(slave, &self.simulator.state.slots[slave]),
            "log" => log_line(&self.simulator.state.log),
            "entry" => {
                let place = self.random.below(LOG_LENGTH);
                entry_line(place, &self.any_entry())
            }
            "master" => master_line(master, &self.board.masters[master]),
            "slave" => slave_line(slave, &self.board.slaves[slave]),
            "share" => {
                let shares = self.random.between(0, 100);
                format!("share,{master},{slave},{shares}")
            }
            "count" => format!("count,{},{}", self.masters(), self.slaves()),
            "default" => default_line(self.random.chance(1, 2)),
            _ => word.to_string(),
        }
    }

    /// A line about the bytes of memory or buffer.
    fn line_of_store(&mut self, word: &str) -> String {
        let name = self.random.pick(&["memory", "buffer"]);
        let (start, count) = self.piece(name, 32);
        match word {
            "fill" => self.fill_line(name, start, count),
            "show" => format!("show,{name},{start},{count}"),
            _ => format!("lend,{name},{}", self.lent(name)),
        }
    }

    /// A line without its end: of any length, or with only the last few bytes missing.
    fn cut_line(&mut self, mut line: String) -> String {
        let missing = self.random.between(1, line.len() - 1);
        let missing = self.random.pick(&[missing, missing, missing, 1, 2, 3]);
        line.truncate(line.len() - missing);
        line
    }

    /// A whole line, a cut one, a malformed one or a single character.
    fn unended_line(&mut self) -> Vec<u8> {
        let word = self.random.pick(&WORDS);
        let line = match self.random.below(12) {
            0..=3 => self.line_of(word),
            4..=6 => {
                let line = self.line_of(word);
                self.cut_line(line)
            }
            7..=9 => match self.malformed_line() {
                // without its line feed an empty line is none
                line if line.is_empty() => word.to_uppercase(),
                line => line,
            },
            _ => return vec![self.random.pick(CHARACTERS)],
        };
        line.into_bytes()
    }

    /// Ends the script in a line without its line feed; now and then that is the whole script, or the script is empty.
    pub fn unended(&mut self) {
        let line = self.unended_line();
        match self.random.below(32) {
            0 => return self.script.clear(),
            1 | 2 => self.script.clear(),
            _ => {}
        }
        self.script.extend(line);
    }
}
