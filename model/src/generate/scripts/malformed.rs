//! Lines that end a script, because they are malformed.

use super::Author;

/// Lines about the log and about unmapped addresses; some only print or stand in a description.
const UNMAPPED: [&str; 24] = [
    "take,",
    "take,1",
    "Take",
    "default",
    "default,",
    "default,2",
    "default,256",
    "default,01",
    "default,1,1",
    "log",
    "log,0",
    "log,0,2",
    "log,0,0,0",
    "log,01,0",
    "log,4294967296,0",
    "entry,8,0,0,0",
    "entry,0,256,0,0",
    "entry,0,0,4294967296,0",
    "entry,0,0,0,2",
    "entry,0,0,0",
    "entry,0,0,0,0,0",
    "entry,0,0,0,read",
    "entry,00,0,0,0",
    "response,0,3",
];

const MALFORMED: [&str; 51] = [
    "",
    "nonsense",
    "Reset",
    " reset",
    "reset,",
    "state,1",
    "clock",
    "clock,",
    "clock,01",
    "clock,-1",
    "clock,1,1",
    "clock,1\r",
    "post,0,read,0,1,1",
    "post,0,reads,0,1,1,-",
    "post,0,READ,0,1,1,-",
    "post,0,read,0,256,1,-",
    "post,0,read,0,1,256,-",
    "post,0,read,4294967296,1,1,-",
    "post,4294967296,read,0,1,1,-",
    "post,0,write,0,1,1,0",
    "post,0,write,0,1,1,0G",
    "post,0,write,0,1,1,AB",
    "wait,0",
    "wait,4294967296,0",
    "wait,0,4294967296",
    "fill,memory,0,abc",
    "fill,memory,70000,00",
    "fill,buffer,4096,00",
    "fill,stack,0,00",
    "show,buffer,4000,97",
    "show,memory,0,70000",
    "lend,memory,70000",
    "lend,buffer,4105",
    "transfer,8,0,0,0,0,0,0",
    "transfer,0,2,0,0,0,0,0",
    "transfer,0,0,2,0,0,0,0",
    "transfer,0,0,0,0,0,0",
    "transfer,0,0,0,0,0,0,0,0",
    "transfer,0,0,0,0,0,0,4294967296",
    "transfer,0,0,0,0,0,0,01",
    "slot,16,0,0,0,0,0",
    "slot,0,0,0,0,65536,0",
    "slot,0,256,0,0,0,0",
    "master,8,1,1",
    "slave,16,0,8,1,1,0,0,0,0",
    "slave,0,0,8,1,1,0,0,0",
    "slave,0,0,8,1,1,0,0,0,0,0",
    "slave,0,0,8,1,1,0,0,4294967296,0",
    "slave,0,0,8,1,1,0,0,0,4294967296",
    "share,0,16,1",
    "count,256,1",
];

impl Author {
    pub fn malformed_line(&mut self) -> String {
        let name = self.random.pick(&["memory", "buffer"]);
        let limit = self.lend_limit(name);
        let lent = self.lent(name);
        match self.random.below(12) {
            0 => format!("lend,{name},{}", limit + 1),
            1 => format!("show,{name},{},2", lent - 1),
            2 => format!("show,{name},0,{}", lent + 1),
            3 => format!("fill,{name},{},0000", lent - 1),
            4..=7 => self.random.pick(&UNMAPPED).to_string(),
            _ => self.random.pick(&MALFORMED).to_string(),
        }
    }

    /// A malformed line, and lines that are never run.
    pub fn malformed(&mut self) {
        let line = self.malformed_line();
        self.script.extend(line.as_bytes());
        self.script.extend(b"\nreset\nstate\n");
    }
}
