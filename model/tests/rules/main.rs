//! Holds the model to the rules: to worked examples of each, and to what they promise of every history.

mod accesses;
mod arbiter;
mod default_line;
mod description;
mod end_tally;
mod fabric;
mod files;
mod generators;
mod histories;
mod lanes;
mod late_tally;
mod latency;
mod log;
mod native;
mod order;
mod posts;
mod programs;
mod refused_resets;
mod reset_tally;
mod tally;
mod unconnected;
mod unmapped;
mod unmapped_histories;
mod unmapped_scripts;
mod unmapped_tally;
mod waits;
mod words;
mod worst;

/// A slave with a master twice as wide and one as wide as itself.
const BOARD: &str = "master,4,8\n\
                     master,2,1\n\
                     slave,4096,4096,2,8,1,0,0,0\n\
                     share,0,0,2\n\
                     share,1,0,3\n";

/// The same board with its last line, so that unmapped transfers are taken.
const MARKED: &str = "master,4,8\n\
                      master,2,1\n\
                      slave,4096,4096,2,8,1,0,0,0\n\
                      share,0,0,2\n\
                      share,1,0,3\n\
                      default\n";
