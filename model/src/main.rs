//! The model's commands: takes the words of the command line and calls the library.

use std::env;
use std::ffi::OsString;
use std::fs;
use std::io::{self, BufReader, BufWriter, Read, Write};
use std::path::Path;
use std::process::ExitCode;

use model::generate::{boards, scripts, texts};
use model::{records, script, table};

const USAGE: &str = "usage: model table < TEXT
       model table FILE..
       model simulate BOARDFILE < SCRIPT
       model texts < RECORDS
       model count-texts < RECORDS
       model gen-texts SEED COUNT
       model gen-boards SEED COUNT DIR
       model gen-script SEED CALLS BOARDFILE
";

/// Input and output go in pieces of this many bytes.
const PIECE: usize = 1 << 16;

fn standard_input() -> io::Result<Vec<u8>> {
    let mut bytes = Vec::new();
    io::stdin().lock().read_to_end(&mut bytes)?;
    Ok(bytes)
}

fn number(word: &str) -> io::Result<u64> {
    word.parse()
        .map_err(|_| io::Error::other(format!("{word} is no number")))
}

fn count(word: &str) -> io::Result<usize> {
    Ok(number(word)? as usize)
}

fn simulate(board_file: &str, output: &mut impl Write) -> io::Result<()> {
    let text = fs::read(board_file)?;
    let mut lines = BufReader::with_capacity(PIECE, io::stdin().lock());
    script::simulate(&text, &mut lines, output)
}

/// The commands whose words are all text.
fn run_text(words: &[&str], output: &mut impl Write) -> io::Result<()> {
    match words {
        ["table"] => table::print(&mut io::stdin().lock(), output),
        ["simulate", board_file] => simulate(board_file, output),
        ["texts"] => records::print_boards(&standard_input()?, output),
        ["count-texts"] => records::print_places(&standard_input()?, output),
        ["gen-texts", seed, texts] => texts::write_texts(number(seed)?, count(texts)?, output),
        ["gen-boards", seed, boards, directory] => {
            let boards = count(boards)?;
            boards::write_boards(number(seed)?, boards, Path::new(directory))
        }
        ["gen-script", seed, calls, board_file] => {
            let text = fs::read(board_file)?;
            let calls = count(calls)?;
            scripts::write_script(number(seed)?, calls, &text, output)
        }
        _ => Err(io::Error::other(USAGE)),
    }
}

/// Names of files are bytes; all other words are text, and one that is not belongs to no command.
fn run(words: &[OsString], output: &mut impl Write) -> io::Result<()> {
    match words {
        [command, files @ ..] if command == "table" && !files.is_empty() => {
            table::print_files(files, output, &mut io::stderr())
        }
        _ => {
            let words: Option<Vec<&str>> = words.iter().map(|word| word.to_str()).collect();
            run_text(&words.unwrap_or_default(), output)
        }
    }
}

fn main() -> ExitCode {
    let words: Vec<OsString> = env::args_os().skip(1).collect();
    let mut output = BufWriter::with_capacity(PIECE, io::stdout().lock());
    let result = run(&words, &mut output).and_then(|()| output.flush());
    match result {
        Ok(()) => ExitCode::SUCCESS,
        Err(error) => {
            eprintln!("{error}");
            ExitCode::FAILURE
        }
    }
}
