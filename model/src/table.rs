//! The table program: wait and serve of every connected pair.

use std::ffi::{OsStr, OsString};
use std::fs::File;
use std::io::{self, Read, Write};
use std::os::unix::ffi::OsStrExt;
use std::path::Path;

use crate::board::Board;
use crate::description::{read, TEXT_LIMIT};
use crate::wait::{serve, wait};

/// What the program prints for a text.
pub fn table(text: &[u8]) -> String {
    match read(text) {
        Err(number) => format!("refused,{number}\n"),
        Ok(board) => board_table(&board),
    }
}

fn board_table(board: &Board) -> String {
    let mut lines = String::from("master,slave,wait,serve\n");
    for (master, slave) in board.pairs() {
        if board.connected(master, slave) {
            let wait = wait(board, master, slave);
            let serve = serve(board, master, slave);
            lines += &format!("{master},{slave},{wait},{serve}\n");
        }
    }
    lines
}

/// Of a text over the limit only the front is kept: it is refused for its length alone.
fn text_of(input: &mut impl Read) -> io::Result<Vec<u8>> {
    let mut text = Vec::new();
    let limit = TEXT_LIMIT as u64 + 1;
    input.take(limit).read_to_end(&mut text)?;
    Ok(text)
}

/// Reads the text and prints its table. The input is read to its end, as whoever writes it may expect.
pub fn print(input: &mut impl Read, output: &mut impl Write) -> io::Result<()> {
    let text = text_of(input)?;
    io::copy(input, &mut io::sink())?;
    output.write_all(table(&text).as_bytes())
}

/// The line in front of a file's table. A name is bytes: it need not be text.
fn name_line(name: &OsStr) -> Vec<u8> {
    [b"file,", name.as_bytes(), b"\n"].concat()
}

/// Prints the tables of several files, in the order of their names, each behind a line with its name. Of a file that cannot be
/// read there is that line alone; the others are printed all the same.
pub fn print_files(
    names: &[OsString],
    output: &mut impl Write,
    errors: &mut impl Write,
) -> io::Result<()> {
    for name in names {
        output.write_all(&name_line(name))?;
        match File::open(name).and_then(|mut file| text_of(&mut file)) {
            Ok(text) => output.write_all(table(&text).as_bytes())?,
            Err(error) => {
                // a cause that nobody can be told holds up no table
                let _ = writeln!(errors, "table: {}: {error}", Path::new(name).display());
            }
        }
    }
    Ok(())
}
