//! The table program with names of files: the tables of several descriptions at one start.

use std::ffi::{OsStr, OsString};
use std::fs::{self, File};
use std::os::unix::ffi::OsStrExt;
use std::path::{Path, PathBuf};
use std::process::{Command, Output, Stdio};

use crate::BOARD;
use model::generate::boards::write_boards;
use model::table::{print, print_files};

/// What is printed for `BOARD`.
const TABLE: &str = "master,slave,wait,serve\n0,0,6,32\n1,0,36,2\n";
/// One master alone, and what is printed for it.
const ALONE: &str = "master,1,4\nslave,0,8,1,1,0,2,0,0\nshare,0,0,9\n";
const ALONE_TABLE: &str = "master,slave,wait,serve\n0,0,0,12\n";

/// The files of one test.
struct Folder {
    path: PathBuf,
}

impl Folder {
    /// Empty; what an earlier run left there is removed.
    fn new(test: &str) -> Folder {
        let path = Path::new(env!("CARGO_TARGET_TMPDIR")).join(test);
        let _ = fs::remove_dir_all(&path);
        fs::create_dir_all(&path).expect("the folder cannot be made");
        Folder { path }
    }

    /// The word for a file of the folder, whether or not there is one.
    fn word(&self, name: impl AsRef<OsStr>) -> OsString {
        self.path.join(name.as_ref()).into_os_string()
    }

    fn file(&self, name: impl AsRef<OsStr>, text: impl AsRef<[u8]>) -> OsString {
        let word = self.word(name);
        fs::write(&word, text).expect("the file cannot be written");
        word
    }
}

/// What the program prints when it is started with these words.
fn start(words: &[OsString]) -> Output {
    Command::new(env!("CARGO_BIN_EXE_model"))
        .arg("table")
        .args(words)
        .stdin(Stdio::null())
        .output()
        .expect("the program does not start")
}

/// Starts the program, which has to end well, and gives what it prints on standard output.
fn printed(words: &[OsString]) -> Vec<u8> {
    let output = start(words);
    assert!(output.status.success());
    output.stdout
}

/// Each file's line, and what is printed behind it.
fn answers(words: &[OsString], behind: &[&str]) -> Vec<u8> {
    assert_eq!(words.len(), behind.len());
    let mut answers = Vec::new();
    for (word, behind) in words.iter().zip(behind) {
        answers.extend([b"file,", word.as_bytes(), b"\n", behind.as_bytes()].concat());
    }
    answers
}

/// What the program prints for a file on standard input.
fn printed_alone(word: &OsStr) -> Vec<u8> {
    let output = Command::new(env!("CARGO_BIN_EXE_model"))
        .arg("table")
        .stdin(File::open(word).expect("the file cannot be opened"))
        .output()
        .expect("the program does not start");
    assert!(output.status.success());
    output.stdout
}

#[test]
fn without_a_name_the_text_is_standard_input() {
    let folder = Folder::new("standard_input");
    let word = folder.file("board.txt", BOARD);
    assert_eq!(printed_alone(&word), TABLE.as_bytes());
}

#[test]
fn a_file_has_a_line_with_its_name_and_behind_it_its_table() {
    let folder = Folder::new("one_file");
    let words = [folder.file("board.txt", BOARD)];
    assert_eq!(printed(&words), answers(&words, &[TABLE]));
}

#[test]
fn tables_come_in_the_order_of_the_words() {
    let folder = Folder::new("order");
    let mut words = [folder.file("b.txt", BOARD), folder.file("a.txt", ALONE)];
    assert_eq!(printed(&words), answers(&words, &[TABLE, ALONE_TABLE]));
    words.reverse();
    assert_eq!(printed(&words), answers(&words, &[ALONE_TABLE, TABLE]));
}

#[test]
fn the_same_file_twice_is_printed_twice() {
    let folder = Folder::new("twice");
    let board = folder.file("board.txt", BOARD);
    let alone = folder.file("alone.txt", ALONE);
    let words = [board.clone(), board.clone(), alone, board];
    let behind = [TABLE, TABLE, ALONE_TABLE, TABLE];
    assert_eq!(printed(&words), answers(&words, &behind));
}

#[test]
fn a_refused_file_has_its_number_and_ends_nothing() {
    let folder = Folder::new("refused");
    let words = [
        folder.file("no_share.txt", "master,1,1\nslave,0,8,1,1,0,0,0,0\n"),
        folder.file("board.txt", BOARD),
        folder.file("no_slave.txt", "master,1,1\n"),
        folder.file("no_line_feed.txt", &BOARD[..BOARD.len() - 1]),
        folder.file("alone.txt", ALONE),
    ];
    let behind = [
        "refused,20\n",
        TABLE,
        "refused,2\n",
        "refused,1\n",
        ALONE_TABLE,
    ];
    assert_eq!(printed(&words), answers(&words, &behind));
}

#[test]
fn an_empty_file_is_a_text_without_a_master() {
    let folder = Folder::new("empty");
    let words = [folder.file("empty.txt", ""), folder.file("b.txt", BOARD)];
    assert_eq!(printed(&words), answers(&words, &["refused,2\n", TABLE]));
}

#[test]
fn of_a_file_that_is_not_there_only_its_line_is_printed() {
    let folder = Folder::new("missing");
    let board = folder.file("board.txt", BOARD);
    let missing = folder.word("missing.txt");
    let between = [board.clone(), missing.clone(), board.clone()];
    assert_eq!(printed(&between), answers(&between, &[TABLE, "", TABLE]));
    let around = [missing.clone(), board, missing.clone()];
    assert_eq!(printed(&around), answers(&around, &["", TABLE, ""]));
    let alone = [missing];
    assert_eq!(printed(&alone), answers(&alone, &[""]));
}

#[test]
fn a_folder_is_no_description() {
    let folder = Folder::new("directory");
    let words = [
        folder.path.clone().into_os_string(),
        folder.file("board.txt", BOARD),
        // a file that is taken for a folder
        folder.word("board.txt/board.txt"),
    ];
    assert_eq!(printed(&words), answers(&words, &["", TABLE, ""]));
}

#[test]
fn what_cannot_be_read_is_told_on_standard_error() {
    let folder = Folder::new("errors");
    let board = folder.file("board.txt", BOARD);
    let missing = folder.word("missing.txt");
    let directory = folder.path.clone().into_os_string();
    let errors = start(&[missing, board.clone(), directory]).stderr;
    let errors = String::from_utf8_lossy(&errors).into_owned();
    let lines: Vec<&str> = errors.lines().collect();
    assert_eq!(lines.len(), 2);
    assert!(lines[0].contains("missing.txt: "), "{}", lines[0]);
    assert!(lines[1].contains("errors: "), "{}", lines[1]);
    assert_eq!(start(&[board]).stderr, b"");
}

#[test]
fn a_name_is_printed_byte_for_byte() {
    let folder = Folder::new("names");
    let words = [
        folder.file("a board, with a comma.txt", BOARD),
        folder.file(OsStr::from_bytes(b"no text \xff\xfe.txt"), BOARD),
        folder.file("../names/./up.txt", BOARD),
        folder.file("file,refused", BOARD),
        folder.file("two\nlines", BOARD),
        folder.file("-", BOARD),
    ];
    let behind = [TABLE; 6];
    assert_eq!(printed(&words), answers(&words, &behind));
}

#[test]
fn the_empty_word_names_no_file() {
    let folder = Folder::new("empty_word");
    let words = [OsString::new(), folder.file("board.txt", BOARD)];
    assert_eq!(printed(&words), answers(&words, &["", TABLE]));
}

#[test]
fn a_longer_text_leaves_nothing_to_the_next_file() {
    let folder = Folder::new("long");
    // up to the limit the first line answers, above it the length
    let first_line = "slave,0,8,1,1,0,0,0,0\n";
    let long = |length: usize| first_line.to_string() + &"x".repeat(length - first_line.len());
    let words = [
        folder.file("at_the_limit.txt", long(8_192)),
        folder.file("board.txt", BOARD),
        folder.file("above_the_limit.txt", long(8_193)),
        folder.file("empty.txt", ""),
        folder.file("longer.txt", long(100_000)),
        folder.file("alone.txt", ALONE),
    ];
    let behind = [
        "refused,2\n",
        TABLE,
        "refused,1\n",
        "refused,2\n",
        "refused,1\n",
        ALONE_TABLE,
    ];
    assert_eq!(printed(&words), answers(&words, &behind));
}

#[test]
fn generated_boards_have_the_tables_that_they_have_alone() {
    let folder = Folder::new("generated");
    let boards = 300;
    write_boards(5, boards, &folder.path).expect("the boards cannot be written");
    let name = |index: usize| folder.word(format!("{index}.txt"));
    let words: Vec<OsString> = (0..boards).map(name).collect();
    let alone = |word: &OsString| {
        let mut input = File::open(word).expect("the board cannot be opened");
        let mut output = Vec::new();
        print(&mut input, &mut output).expect("memory takes all");
        String::from_utf8(output).expect("a table is ASCII")
    };
    let tables: Vec<String> = words.iter().map(alone).collect();
    let behind: Vec<&str> = tables.iter().map(String::as_str).collect();
    assert_eq!(printed(&words), answers(&words, &behind));
}

#[test]
fn output_that_cannot_be_written_is_an_error() {
    let folder = Folder::new("no_space");
    let words = [folder.file("board.txt", BOARD)];
    let whole = answers(&words, &[TABLE]).len();
    // no room for the first line, nor for the table, nor for its last line feed
    for room in [0, words[0].len() + 10, whole - 1, whole] {
        let mut output = &mut vec![0; room][..];
        let printed = print_files(&words, &mut output, &mut Vec::new());
        assert_eq!(printed.is_ok(), room == whole);
    }
}

#[test]
fn errors_that_cannot_be_written_hold_up_no_table() {
    let folder = Folder::new("no_errors");
    let words = [folder.word("missing.txt"), folder.file("b.txt", BOARD)];
    let mut output = Vec::new();
    let mut no_room = &mut [0; 0][..];
    print_files(&words, &mut output, &mut no_room).expect("memory takes all");
    assert_eq!(output, answers(&words, &["", TABLE]));
}
