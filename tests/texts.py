#!/usr/bin/env python3
"""Writes crates/texts/stdin: the chosen descriptions that the test program texts reads, each with the reason why it is there.

    tests/texts.py            writes crates/texts/stdin from the list below
    tests/texts.py --check    says whether the stored records are this list, and their stored answers those given here

To add a record, put an entry into its part of the list: the number that the rules give (README.md, "Refusals"; 0 for a text that
is taken), the reason, and the text. Outside the last three parts a record has as little wrong as can be: without the rule that it
is there for, it would be answered with another number. Then write the records and let the model in model/ answer them. The stored
answers are never the program's own, or it would be compared with itself:

    tests/texts.py
    cargo build --release --offline --manifest-path model/Cargo.toml --target-dir target/model
    target/model/release/model texts < crates/texts/stdin > crates/texts/stdout
    tests/texts.py --check

The numbers of the list are one more opinion beside the program's and the model's: a record that is refused for another cause than
it was written for shows there. So does a text that is taken and is written otherwise than it was read: a board has one text.
"""

import sys
from pathlib import Path

ROOT = Path(__file__).resolve().parent.parent
RECORDS = ROOT / "crates/texts/stdin"
ANSWERS = ROOT / "crates/texts/stdout"

MASTER = "master,4,8"
SLAVE = "slave,4096,4096,2,8,1,0,0,0"
SHARE = "share,0,0,2"
NATIVE = "slave,4096,4096,4,8,1,0,1,0"
LATE = "slave,4096,4096,2,8,1,0,0,63"
SECOND = "slave,0,8,1,1,0,0,0,0"
DEFAULT = "default"


def text(*lines):
    """Lines, each with its line feed."""
    return "".join(line + "\n" for line in lines)


def small(master=MASTER, slave=SLAVE, share=SHARE):
    """A board of three lines that is taken, with another line instead of one of them."""
    return text(master, slave, share)


def closed(*lines):
    """The same board with the line default, and these lines behind it."""
    return small() + text(DEFAULT, *lines)


def unshared(*bases_and_spans):
    """A master, and slaves that differ in base and span alone: share lines are yet to follow."""
    return text(MASTER, *(f"slave,{base},{span},2,8,1,0,0,0" for base, span in bases_and_spans))


def slaves(*bases_and_spans):
    """The same with a share line for the first slave."""
    return unshared(*bases_and_spans) + text(SHARE)


def shares(masters):
    """Share lines of so many masters, each at the first slave."""
    return [f"share,{master},0,2" for master in range(masters)]


def narrow(*shares, native=1):
    """A master half as wide as the slave, one as wide and one wider, with these share lines."""
    return text("master,2,8", MASTER, "master,8,8", f"slave,4096,4096,4,8,1,0,{native},0", *shares)


def narrow_last(*shares):
    """The same masters at the native slave, the narrow one last."""
    return text(MASTER, "master,8,8", "master,2,8", NATIVE, *shares)


def grid(masters, slaves, *pairs):
    """So many masters, all alike, and so many slaves, with a share line for each of these pairs, of 1, 2, .. shares."""
    lines = [f"share,{master},{slave},{index + 1}" for index, (master, slave) in enumerate(pairs)]
    return text(*[MASTER] * masters, *(f"slave,{base},{span},2,8,1,0,0,0" for base, span in row(slaves)), *lines)


def row(count):
    """Bases and spans of slaves of 8 bytes, each where the one before it ends."""
    return [(8 * index, 8) for index in range(count)]


def stored(name):
    """A board that stands in boards/."""
    return (ROOT / "boards" / name).read_bytes().decode("latin-1")


def reordered(board, order):
    """A board's text with its share lines in the order that a function of their list gives."""
    lines = board.splitlines()
    shares = [line for line in lines if line.startswith("share")]
    return text(*(line for line in lines if line not in shares), *order(shares))


def by_slave(shares):
    """Share lines by slave, then master."""
    return sorted(shares, key=lambda line: [int(number) for number in line.split(",")[2:0:-1]])


def without(board, *masters):
    """A board's text without the share lines of these masters."""
    names = tuple(f"share,{master}," for master in masters)
    return text(*(line for line in board.splitlines() if not line.startswith(names)))


def longest():
    """Every number has the most digits it can have, spans five of them as often as their total allows."""
    spans = [16384] * 3 + [1024] * 13
    lines = ["master,8,64"] * 8
    lines += [f"slave,{4294967296 - 16384 * (index + 1)},{span},8,64,255,255,1,63" for index, span in enumerate(spans)]
    lines += [f"share,{master},{slave},100" for master in range(8) for slave in range(16)]
    return text(*lines)


def every_value(*more):
    """Every width, burst and span, but for the widest span, both ends of the waits, both values of the native field, and both
    ends of the latency and of the shares: each master at the slave of its number, which has its width. More slave lines stand
    behind the others."""
    widths = [1, 2, 4, 8]
    bursts = [1, 2, 4, 8, 16, 32, 64]
    spans = [32768 >> index for index in range(13)] + [8]
    lines = [f"master,{widths[index % 4]},{bursts[index % 7]}" for index in range(8)]
    base = 0
    for index, span in enumerate(spans):
        read_wait = [0, 255][index % 2]
        write_wait = [0, 0, 255][index % 3]
        native = [0, 0, 1, 1, 0][index % 5]
        latency = [0, 63, 63][index % 3]
        sizes = f"{span},{widths[index % 4]},{bursts[index % 7]}"
        lines.append(f"slave,{base},{sizes},{read_wait},{write_wait},{native},{latency}")
        base += span
    lines += more
    lines += [f"share,{index},{index},{[1, 100][index % 2]}" for index in range(8)]
    return text(*lines)


def long(length):
    """A text of so many bytes in two lines, of which the first answers 2."""
    first = text("slave,0,8,1,1,0,0,0,0")
    return first + text("x" * (length - len(first) - 1))


LIST = [
    ("0: boards of every size", [
        (0, "the shortest text that is taken: the least of everything", text(
            "master,1,1", "slave,0,8,1,1,0,0,0,0", "share,0,0,1")),
        (0, "the board of docs/RULES.md, section 9", stored("document01.txt")),
        (0, "a board of a usual size, some of its pairs not connected", stored("crane.txt")),
        (0, "the largest board: 8 masters, 16 slaves, every pair connected, shares at their most", stored("largest.txt")),
        (0, "the longest text that a board without the line default can have", longest()),
        (0, "every value of the lists, and spans that total exactly 65,536", every_value()),
        (0, "the widest span, the whole total by itself, at the highest base it can have", slaves((4294901760, 65536))),
        (0, "the highest base of all and the lowest: what ends at 2^32 does not reach round to 0", slaves(
            (4294967288, 8), (0, 8))),
        (0, "slaves that touch below and above have no byte in common; the writer leaves them in the order of their lines", slaves(
            (4096, 4096), (0, 4096), (8192, 8))),
        (0, "the most masters, all alike, at one slave", text(*[MASTER] * 8, SLAVE, *shares(8))),
        (0, "the most masters, each at its own slave", grid(8, 8, *((index, index) for index in range(8)))),
        (0, "a master at two slaves, or two masters at one, is no pair twice", text(
            MASTER, "master,2,1", SLAVE, "slave,0,8,1,1,0,0,0,0",
            "share,0,0,1", "share,0,1,2", "share,1,0,3", "share,1,1,4")),
        (0, "no share line for the slaves below and above the one that all masters are connected with", text(
            MASTER, "master,2,1", SLAVE, "slave,0,8,1,1,0,0,0,0", "slave,8,8,1,1,0,0,0,0", "share,0,1,4", "share,1,1,5")),
        (0, "one master, connected with the last of the most slaves alone", unshared(*row(16)) + text("share,0,15,1")),
    ]),
    ("0: share lines by master, then slave", [
        (0, "the slave falls where the master rises", grid(2, 2, (0, 1), (1, 0))),
        (0, "the slave falls from the last to the first, at every master", grid(
            8, 16, *((master, slave) for master in range(8) for slave in (0, 15)))),
        (0, "the slave falls at every master, and by one", grid(8, 8, *((index, 7 - index) for index in range(8)))),
        (0, "slaves by number, 2 before 10: as text they would fall", grid(1, 16, (0, 1), (0, 2), (0, 9), (0, 10), (0, 15))),
        (0, "slaves that fall in their last digit, and in their last three bits", grid(1, 16, (0, 7), (0, 8), (0, 9), (0, 10))),
        (0, "shares that fall from line to line", text(
            MASTER, MASTER, SLAVE, "slave,0,8,2,8,1,0,0,0", "share,0,0,100", "share,0,1,50", "share,1,0,2", "share,1,1,1")),
        (0, "the last pair of the most masters and slaves behind the first pairs", grid(
            8, 16, *((master, 0) for master in range(8)), (7, 15))),
    ]),
    ("0: native cards", [
        (0, "a board of a usual kind: a native card with a wider master and with one of its own width", stored("encoder.txt")),
        (0, "a native card without a share line", text(
            "master,1,1", "slave,0,8,1,1,0,0,1,0", "slave,8,8,1,1,0,0,0,0", "share,0,1,1")),
        (0, "a master of the card's width", small(slave=NATIVE)),
        (0, "a master twice as wide", small(slave="slave,4096,4096,2,8,1,0,1,0")),
        (0, "the widest master at the narrowest card", small("master,8,64", "slave,4096,4096,1,8,1,0,1,0")),
        (0, "a narrower master on the board that is connected with another slave, not with the card", text(
            "master,2,8", MASTER, "master,8,8", NATIVE, "slave,0,8,4,8,1,0,0,0", "share,0,1,1", "share,1,0,3", "share,2,0,2")),
        (0, "a narrower master at a slave with bus sizing", narrow("share,0,0,1", "share,1,0,2", "share,2,0,3", native=0)),
        (0, "a narrower master at the slave with bus sizing of two, and a wider one at both", text(
            "master,1,1", "master,8,8", "slave,0,8,2,1,0,0,1,0", "slave,8,8,2,1,0,0,0,0",
            "share,0,1,2", "share,1,0,3", "share,1,1,4")),
        (0, "by turns native and not: each line keeps its own number", text(
            MASTER, *(f"slave,{8 * index},8,2,8,1,0,{index % 2},0" for index in range(16)), SHARE)),
    ]),
    ("0: slaves with a read latency", [
        (0, "the least above none", small(slave="slave,4096,4096,2,8,1,0,0,1")),
        (0, "the highest", small(slave=LATE)),
        (0, "two digits, the last of them 0", small(slave="slave,4096,4096,2,8,1,0,0,10")),
        (0, "a native card", small(slave="slave,4096,4096,4,8,1,0,1,63")),
        (0, "no waits, and a burst of one word", small(slave="slave,4096,4096,2,1,0,0,0,63")),
        (0, "from 0 to 60 by fours: each line keeps its own number", text(
            MASTER, *(f"slave,{8 * index},8,2,8,1,0,0,{4 * index}" for index in range(16)), SHARE)),
    ]),
    ("0: the line default", [
        (0, "the least of everything", text("master,1,1", "slave,0,8,1,1,0,0,0,0", "share,0,0,1", DEFAULT)),
        (0, "the board of docs/RULES.md, section 9", stored("document01.txt") + text(DEFAULT)),
        (0, "a board of a usual size, some of its pairs not connected", stored("crane.txt") + text(DEFAULT)),
        (0, "the largest board", stored("largest.txt") + text(DEFAULT)),
        (0, "the longest text that a board can have", longest() + text(DEFAULT)),
        (0, "every value of the lists, and spans that total exactly 65,536", every_value() + text(DEFAULT)),
        (0, "the whole of the spans' total in one slave", slaves((4294901760, 65536)) + text(DEFAULT)),
        (0, "native cards", stored("encoder.txt") + text(DEFAULT)),
        (0, "a slave with a latency", small(slave=LATE) + text(DEFAULT)),
        (0, "a slave without a share line, the last of two", text(MASTER, SLAVE, SECOND, SHARE, DEFAULT)),
        (0, "behind the last pair of the most masters and slaves", grid(
            8, 16, *((master, 0) for master in range(8)), (7, 15)) + text(DEFAULT)),
    ]),
    ("1: the text as a whole", [
        (2, "8,192 bytes are not too many: the first line answers", long(8192)),
        (1, "with one byte more the length answers", long(8193)),
        (1, "more than the program keeps of a record: it still finds the next one", long(9000)),
        (1, "the last line feed is missing", small()[:-1]),
        (1, "a 0 byte behind the last line feed, as where a C string is handed in with its end", small() + "\0"),
        (1, "a line feed alone: an empty line, and no empty text", "\n"),
        (1, "an empty line between two kinds", text(MASTER, "", SLAVE, SHARE)),
        (1, "an empty line at the end", small() + "\n"),
        (1, "a comment", text("# crane") + small()),
        (1, "a carriage return in each line, as Windows saves it", small().replace("\n", "\r\n")),
        (1, "a carriage return in the last line alone", small(share="share,0,0,2\r")),
        (1, "an editor's mark of UTF-8 in front", "\xef\xbb\xbf" + small()),
    ]),
    ("1: a line's word", [
        (1, "another word", small(master="bus,4,8")),
        (1, "a capital letter", small(master="Master,4,8")),
        (1, "another letter at the end", small(slave="slavs,4096,4096,2,8,1,0,0,0")),
        (1, "a letter too few", small(share="shar,0,0,2")),
        (1, "a letter too many", small(share="shares,0,0,2")),
        (1, "a space in front", small(master=" master,4,8")),
        (1, "an empty word", small(master=",4,8")),
    ]),
    ("1: how many fields a line has", [
        (1, "the word alone", small(master="master")),
        (1, "a master's line with one too few", small(master="master,4")),
        (1, "a master's line with one too many", small(master="master,4,8,1")),
        (1, "a slave's line of six numbers, as it was before there were native cards", small(slave="slave,4096,4096,2,8,1,0")),
        (1, "a slave's line of seven numbers, as it was before there was a latency", small(slave="slave,4096,4096,2,8,1,0,0")),
        (1, "a slave's line with one too many", small(slave="slave,4096,4096,2,8,1,0,0,0,0")),
        (1, "a slave's line with an empty field too many, behind a last comma", small(slave="slave,4096,4096,2,8,1,0,1,0,")),
        (1, "six numbers in the second of two slave lines", text(MASTER, SLAVE, "slave,0,8,1,1,0,0", SHARE)),
        (1, "seven numbers in the second of two slave lines", text(MASTER, SLAVE, "slave,0,8,1,1,0,0,0", SHARE)),
        (1, "a share line with one too few", small(share="share,0,0")),
        (1, "a share line with one too many, an empty one behind a last comma", small(share="share,0,0,2,")),
    ]),
    # As default they would be taken.
    ("1: lines that are nearly default, behind the share lines", [
        (1, "a number behind the word", small() + text("default,1")),
        (1, "0 behind the word", small() + text("default,0")),
        (1, "an empty field behind the word", small() + text("default,")),
        (1, "two empty fields behind the word", small() + text("default,,")),
        (1, "a field behind the word that is no number", small() + text("default,x")),
        (1, "the numbers of a master line behind the word", small() + text("default,4,8")),
        (1, "the numbers of a share line behind the word", small() + text("default,0,0,2")),
        (1, "the numbers of a slave line behind the word", small() + text("default,0,8,1,1,0,0,0,0")),
        (1, "the word twice", small() + text("default,default")),
        (1, "an empty field in front", small() + text(",default")),
        (1, "another word in front", small() + text("share,default")),
        (1, "a capital letter", small() + text("Default")),
        (1, "capital letters", small() + text("DEFAULT")),
        (1, "a letter too few", small() + text("defaul")),
        (1, "a letter too many", small() + text("defaults")),
        (1, "another letter at the end", small() + text("defaulx")),
        (1, "another letter in front", small() + text("xefault")),
        (1, "a space in front", small() + text(" default")),
        (1, "a space behind", small() + text("default ")),
        (1, "a carriage return behind", small() + text("default\r")),
        (1, "a 0 byte behind", small() + text("default\0")),
        (1, "quotes", small() + text('"default"')),
        (1, "no line feed", small() + DEFAULT),
        (1, "the word of a share line alone", small() + text("share")),
    ]),
    ("1: how a number is spelled; every field has one of these", [
        (1, "nothing, in a master's width", small(master="master,,8")),
        (1, "nothing, at the end of a line", small(share="share,0,0,")),
        (1, "a leading zero, in a master's burst", small(master="master,4,08")),
        (1, "0 twice, in a write wait", small(slave="slave,4096,4096,2,8,1,00,0,0")),
        (1, "a leading zero, in a native field: without it the line would be taken", small(slave="slave,4096,4096,2,8,1,0,01,0")),
        (1, "nothing, in a native field: the line has its fields", small(slave="slave,4096,4096,2,8,1,0,,0")),
        (1, "11 digits, in a native field", small(slave="slave,4096,4096,2,8,1,0,10000000000,0")),
        (1, "a leading zero, in a latency: without it the line would be taken", small(slave="slave,4096,4096,2,8,1,0,0,063")),
        (1, "0 twice, in a latency", small(slave="slave,4096,4096,2,8,1,0,0,00")),
        (1, "nothing, in a latency: the line has its fields", small(slave="slave,4096,4096,2,8,1,0,0,")),
        (1, "11 digits, in a latency", small(slave="slave,4096,4096,2,8,1,0,0,10000000000")),
        (1, "11 digits, in a base: no number, so not 3", small(slave="slave,10000000000,8,2,8,1,0,0,0")),
        (1, "20 digits, in shares: cut to 64 bits it is 2", small(share="share,0,0,18446744073709551618")),
        (1, "a plus sign, in a span", small(slave="slave,4096,+4096,2,8,1,0,0,0")),
        (1, "a minus sign, in a read wait", small(slave="slave,4096,4096,2,8,-1,0,0,0")),
        (1, "a space in front, in a slave's width", small(slave="slave,4096,4096, 2,8,1,0,0,0")),
        (1, "a space behind, in a slave's burst", small(slave="slave,4096,4096,2,8 ,1,0,0,0")),
        (1, "hex, in a master's number", small(share="share,0x0,0,2")),
        (1, "a tab, in a slave's number", small(share="share,0,\t0,2")),
        (1, "the byte below the digit 0", small(share="share,0,0,/")),
        (1, "the byte above the digit 9", small(share="share,0,0,:")),
        (1, "quotes", small(share='share,0,0,"2"')),
    ]),
    # A text in which only the master is absent is an empty one: a slave line that no master line precedes is refused itself.
    ("2: where a line stands, how many there are, and what is absent at the end", [
        (2, "an empty text", ""),
        (2, "a master and no slave", text(MASTER)),
        (2, "a slave before any master", text(SLAVE, MASTER, SHARE)),
        (2, "a share before any master", text(SHARE, MASTER, SLAVE)),
        (2, "a share before any slave", text(MASTER, SHARE, SLAVE)),
        (2, "a master behind a slave", text(MASTER, SLAVE, MASTER, *shares(2))),
        (2, "a master behind a share", small() + text(MASTER, "share,1,0,2")),
        (2, "a slave behind a share", small() + text("slave,0,8,1,1,0,0,0,0")),
        (2, "a ninth master", text(*[MASTER] * 9, SLAVE, *shares(9))),
        (2, "a seventeenth slave", slaves(*row(17))),
        (2, "default before any line", text(DEFAULT) + small()),
        (2, "default behind the masters, before any slave", text(MASTER, DEFAULT, SLAVE, SHARE)),
        (2, "default twice", closed(DEFAULT)),
        (2, "default twice, behind the largest board", stored("largest.txt") + text(DEFAULT, DEFAULT)),
        (2, "a master behind default", closed(MASTER)),
        (2, "a slave behind default", closed(SECOND)),
        (2, "a slave behind default, and no share line before it", text(MASTER, SLAVE, DEFAULT, SECOND)),
        (2, "a share behind default", text(MASTER, SLAVE, SECOND, SHARE, DEFAULT, "share,0,1,2")),
        (2, "a share behind default, the first share line of the board", text(MASTER, SLAVE, DEFAULT, SHARE)),
        (2, "the last share line of the largest board behind default", text(
            *stored("largest.txt").splitlines()[:-1], DEFAULT, stored("largest.txt").splitlines()[-1])),
    ]),
    # The values just inside are those of the boards above.
    ("3: values that a field does not have", [
        (3, "a master's width of 0", small(master="master,0,8")),
        (3, "a master's width between two legal ones", small(master="master,3,8")),
        (3, "a master's width of the next power of two", small(master="master,16,8")),
        (3, "a master's width that is 4 when it is cut to a byte or to 32 bits", small(master="master,4294967300,8")),
        (3, "a master's burst of 0", small(master="master,4,0")),
        (3, "a master's burst between two legal ones", small(master="master,4,3")),
        (3, "a master's burst of the next power of two", small(master="master,4,128")),
        (3, "a base of 2^32, a multiple of its span", small(slave="slave,4294967296,4096,2,8,1,0,0,0")),
        (3, "the highest number of 10 digits, in a base: a number, so not 1", small(slave="slave,9999999999,4096,2,8,1,0,0,0")),
        (3, "a span of 0, by which nothing can be divided", small(slave="slave,0,0,2,8,1,0,0,0")),
        (3, "a span of the power of two below the list", small(slave="slave,4096,4,2,8,1,0,0,0")),
        (3, "a span between two legal ones, the base its multiple", small(slave="slave,12288,12,2,8,1,0,0,0")),
        (3, "a span of the next power of two: the value answers, not the total", small(slave="slave,131072,131072,2,8,1,0,0,0")),
        (3, "a slave's width of 0", small(slave="slave,4096,4096,0,8,1,0,0,0")),
        (3, "a slave's width between two legal ones", small(slave="slave,4096,4096,6,8,1,0,0,0")),
        (3, "a slave's width of the next power of two", small(slave="slave,4096,4096,16,8,1,0,0,0")),
        (3, "a slave's burst of 0", small(slave="slave,4096,4096,2,0,1,0,0,0")),
        (3, "a slave's burst between two legal ones", small(slave="slave,4096,4096,2,48,1,0,0,0")),
        (3, "a slave's burst of the next power of two", small(slave="slave,4096,4096,2,128,1,0,0,0")),
        (3, "a read wait of one too many", small(slave="slave,4096,4096,2,8,256,0,0,0")),
        (3, "a write wait of one too many", small(slave="slave,4096,4096,2,8,1,256,0,0")),
        (3, "a native field of one too many", small(slave="slave,4096,4096,2,8,1,0,2,0")),
        (3, "a native field of two digits, the first of them 1", small(slave="slave,4096,4096,2,8,1,0,10,0")),
        (3, "a native field that is 0 when it is cut to a byte", small(slave="slave,4096,4096,2,8,1,0,256,0")),
        (3, "a native field that is 0 when it is cut to a byte or to 32 bits", small(
            slave="slave,4096,4096,2,8,1,0,4294967296,0")),
        (3, "a native field that is 1 when it is cut to a byte or to 32 bits", small(
            slave="slave,4096,4096,2,8,1,0,4294967297,0")),
        (3, "the highest number of 10 digits, in a native field", small(slave="slave,4096,4096,2,8,1,0,9999999999,0")),
        (3, "a latency of one too many", small(slave="slave,4096,4096,2,8,1,0,0,64")),
        (3, "a latency of one too many, of a native card", small(slave="slave,4096,4096,4,8,1,0,1,64")),
        (3, "a latency of one too many, in the last of the most slaves", unshared(*row(15)) + text(
            "slave,120,8,2,8,1,0,0,64", SHARE)),
        (3, "a latency of the next power of two", small(slave="slave,4096,4096,2,8,1,0,0,128")),
        (3, "a latency of the highest wait", small(slave="slave,4096,4096,2,8,1,0,0,255")),
        (3, "a latency that is 0 when it is cut to a byte", small(slave="slave,4096,4096,2,8,1,0,0,256")),
        (3, "a latency that is 0 when it is cut to a byte or to 32 bits", small(slave="slave,4096,4096,2,8,1,0,0,4294967296")),
        (3, "a latency that is 63 when it is cut to a byte or to 32 bits", small(slave="slave,4096,4096,2,8,1,0,0,4294967359")),
        (3, "the highest number of 10 digits, in a latency", small(slave="slave,4096,4096,2,8,1,0,0,9999999999")),
        (3, "shares of 0: a pair that is not connected has no line", small(share="share,0,0,0")),
        (3, "shares of one too many", small(share="share,0,0,101")),
        (3, "shares that are 2 when they are cut to a byte or to 32 bits", small(share="share,0,0,4294967298")),
    ]),
    ("4: a base between two multiples of its span", [
        (4, "an example of rule 9.8", small(slave="slave,4100,4096,2,8,1,0,0,0")),
        (4, "a base below its span, and not 0", small(slave="slave,32768,65536,2,8,1,0,0,0")),
        (4, "the highest base in range, a multiple of no span: not 3", small(slave="slave,4294967295,8,2,8,1,0,0,0")),
    ]),
    # Bases are multiples of spans and spans powers of two, so of two slaves with a byte in common one lies within the other.
    ("5: slaves with a byte in common", [
        (5, "the same bytes", slaves((4096, 4096), (4096, 4096))),
        (5, "at the front of the earlier one", slaves((4096, 4096), (4096, 8))),
        (5, "inside the earlier one", slaves((4096, 4096), (6144, 1024))),
        (5, "at the back of the earlier one", slaves((4096, 4096), (8184, 8))),
        (5, "round the earlier one: neither its first byte nor its last is in there", slaves((6144, 1024), (4096, 4096))),
        (5, "at the end of all addresses, where base and span make 2^32", slaves((4294963200, 4096), (4294967288, 8))),
        (5, "with the second and not the first", slaves((0, 8), (8, 8), (8, 8))),
        (5, "the last that there can be with the first, and with none between", slaves(*row(15), (0, 8))),
    ]),
    # Spans are multiples of 8, so the least total that is too large is 65,544.
    ("6: more bytes than there can be", [
        (6, "by the least, beside the widest span", slaves((0, 65536), (65536, 8))),
        (6, "by the least, at the fifteenth slave: the board of exactly 65,536 above and one slave more", every_value(
            "slave,65536,8,1,1,0,0,0,0")),
    ]),
    ("7: share lines for a pair that is not there, or has one", [
        (7, "a master one above the last", small() + text("share,1,0,2")),
        (7, "a slave one above the last", small() + text("share,0,1,2")),
        (7, "a ninth master, where there are eight", text(*[MASTER] * 8, SLAVE, *shares(9))),
        (7, "a seventeenth slave, where there are sixteen: with all shares in one row it would be the first of master 1",
         text(MASTER) + unshared(*row(16)) + text(SHARE, "share,0,16,2", "share,1,1,2")),
        (7, "a master that is 0 when it is cut to a byte or to 32 bits: a name has no range", small(share="share,4294967296,0,2")),
        (7, "a pair twice, with the same shares", small() + text(SHARE)),
        (7, "a pair twice, with other shares", small() + text("share,0,0,5")),
        (7, "a pair twice, the last of the most masters and slaves", grid(
            8, 16, *((master, 0) for master in range(7)), (7, 15), (7, 15))),
    ]),
    ("19: a share line that joins a master to a native slave wider than it", [
        (19, "half as wide", small("master,2,8", NATIVE)),
        (19, "half as wide, the slave with a latency", small("master,2,8", "slave,4096,4096,4,8,1,0,1,63")),
        (19, "the narrowest master at the widest slave", small("master,1,1", "slave,0,8,8,1,0,0,1,0")),
        (19, "behind share lines of wider masters", narrow_last("share,0,0,1", "share,1,0,1", "share,2,0,1")),
        (19, "before share lines of wider masters", narrow("share,0,0,1", "share,1,0,1", "share,2,0,1")),
        (19, "the first slave has bus sizing and takes the master, the second does not", text(
            "master,2,8", "slave,0,8,4,8,1,0,0,0", NATIVE, "share,0,0,2", "share,0,1,2")),
        (19, "the last master at the last slave of the most that there can be", text(
            *["master,8,8"] * 7, "master,4,8", *(f"slave,{8 * index},8,8,8,1,0,1,0" for index in range(16)),
            *shares(7), "share,7,15,1")),
    ]),
    ("20: a master without a share line", [
        (20, "the only one: the shortest text in which lines are right", text("master,1,1", "slave,0,8,1,1,0,0,0,0")),
        (20, "the most there can be, and none has one", text(*[MASTER] * 8, SLAVE)),
        (20, "the first of two", text(MASTER, "master,2,1", SLAVE, "share,1,0,3")),
        (20, "the last of two, as where a planner forgot the recorder", text(MASTER, "master,2,1", SLAVE, SHARE)),
        (20, "the middle one of three", text(MASTER, "master,2,1", MASTER, SLAVE, SHARE, "share,2,0,2")),
        (20, "the masters below and above the connected one", text(
            MASTER, "master,2,1", "master,1,1", SLAVE, "slave,0,8,1,1,0,0,0,0", "share,1,1,5")),
        (20, "the first of the most, on the largest board", without(stored("largest.txt"), 0)),
        (20, "one between, on the largest board", without(stored("largest.txt"), 4)),
        (20, "the last of the most, on the largest board", without(stored("largest.txt"), 7)),
        (20, "all of them, on the largest board", without(stored("largest.txt"), *range(8))),
        (20, "one of a board of a usual size", without(stored("crane.txt"), 3)),
        (20, "as many share lines as masters, two of them of one master", text(
            MASTER, "master,2,1", SLAVE, "slave,0,8,1,1,0,0,0,0", "share,0,0,2", "share,0,1,2")),
        (20, "the first of two: the slaves of the other's lines have the numbers of both", text(
            MASTER, "master,2,1", SLAVE, "slave,0,8,1,1,0,0,0,0", "share,1,0,2", "share,1,1,2")),
        (20, "the last of two, behind lines of the first at the most slaves", text(MASTER) + unshared(*row(16)) + text(
            *(f"share,0,{slave},2" for slave in range(16)))),
        (20, "the first of two, before lines of the last at the most slaves", text(MASTER) + unshared(*row(16)) + text(
            *(f"share,1,{slave},2" for slave in range(16)))),
        (20, "the last of two, at a slave with a latency", text(MASTER, MASTER, LATE, SHARE)),
        (20, "one that no slave takes: the only slave is native and wider", narrow("share,1,0,1", "share,2,0,1")),
        (20, "the only one, on a board with default", text("master,1,1", "slave,0,8,1,1,0,0,0,0", DEFAULT)),
        (20, "the first of two, on a board with default", text(MASTER, "master,2,1", SLAVE, "share,1,0,3", DEFAULT)),
        (20, "the last of two, on a board with default", text(MASTER, "master,2,1", SLAVE, SHARE, DEFAULT)),
        (20, "the last of the most, on the largest board with default", without(stored("largest.txt"), 7) + text(DEFAULT)),
        (20, "all of them, on the largest board with default", without(stored("largest.txt"), *range(8)) + text(DEFAULT)),
    ]),
    # Without the rule each of them is a board: every master has a share line.
    ("21: share lines that do not come by master, then slave", [
        (21, "the least: one master, its two slaves the other way round", grid(1, 2, (0, 1), (0, 0))),
        (21, "two masters at one slave, the other way round", grid(2, 1, (1, 0), (0, 0))),
        (21, "the master falls and the slave rises", grid(2, 2, (1, 0), (0, 1))),
        (21, "master and slave fall", grid(2, 2, (1, 1), (0, 0))),
        (21, "by slave, then master", grid(2, 2, (0, 0), (1, 0), (0, 1), (1, 1))),
        (21, "the slaves in order, the masters not", grid(3, 3, (1, 0), (0, 1), (2, 2))),
        (21, "the masters in order, the slaves of the first not", grid(2, 2, (0, 1), (0, 0), (1, 0), (1, 1))),
        (21, "the masters in order, the slaves of the last not", grid(2, 2, (0, 0), (0, 1), (1, 1), (1, 0))),
        (21, "the slaves of each master in order, the masters not", grid(2, 2, (1, 0), (1, 1), (0, 0), (0, 1))),
        (21, "behind the first share line, but before the second", grid(2, 2, (0, 0), (1, 1), (0, 1))),
        (21, "two neighbours of one master swapped, the lines round them in order", grid(
            1, 5, (0, 0), (0, 2), (0, 1), (0, 3), (0, 4))),
        (21, "slave 10 above slave 9: as text they are in order", grid(1, 16, (0, 10), (0, 9))),
        (21, "slave 10 above slave 2, 1 above both: as text they are in order", grid(1, 16, (0, 1), (0, 10), (0, 2))),
        (21, "slave 12 above slave 11", grid(1, 16, (0, 12), (0, 11))),
        (21, "slave 8 above slave 0, alike in their last three bits", grid(1, 16, (0, 8), (0, 0))),
        (21, "the last slave of master 1 above the first of master 0", grid(2, 16, (1, 15), (0, 0))),
        (21, "the first slave of master 1 above the last of master 0, where the two numbers add up to more", grid(
            2, 16, (1, 0), (0, 15))),
        (21, "master 7 at the first slave above master 6 at the last", grid(
            8, 16, *((master, 0) for master in range(6)), (7, 0), (6, 15))),
        (21, "the shares rise all the same", text(
            MASTER, MASTER, SLAVE, "slave,0,8,2,8,1,0,0,0", "share,0,0,1", "share,1,0,2", "share,0,1,3")),
        (21, "the shares fall too", text(MASTER, MASTER, SLAVE, "share,1,0,100", "share,0,0,1")),
        (21, "the most masters, backwards, each at its own slave", grid(8, 8, *((index, index) for index in reversed(range(8))))),
        (21, "one master, backwards at the most slaves", grid(1, 16, *((0, slave) for slave in reversed(range(16))))),
        (21, "the largest board backwards", reordered(stored("largest.txt"), lambda shares: shares[::-1])),
        (21, "the largest board by slave, then master", reordered(stored("largest.txt"), by_slave)),
        (21, "the longest text by slave, then master", reordered(longest(), by_slave)),
        (21, "the largest board as text, slave 10 before slave 2", reordered(stored("largest.txt"), sorted)),
        (21, "the first two share lines of the largest board the other way round", reordered(
            stored("largest.txt"), lambda shares: [shares[1], shares[0], *shares[2:]])),
        (21, "the last two share lines of the largest board the other way round", reordered(
            stored("largest.txt"), lambda shares: [*shares[:-2], shares[-1], shares[-2]])),
        (21, "the first share line of the largest board at the end", reordered(
            stored("largest.txt"), lambda shares: [*shares[1:], shares[0]])),
        (21, "the last share line of the largest board in front", reordered(
            stored("largest.txt"), lambda shares: [shares[-1], *shares[:-1]])),
        (21, "a board of a usual size, with a pair that a planner added at the end", stored("crane.txt") + text("share,2,0,1")),
        (21, "a board of a usual size, with a pair of its last master added at the end", stored("crane.txt") + text("share,4,0,1")),
        (21, "a native card, its masters wide enough", text(MASTER, "master,8,8", NATIVE, "share,1,0,1", "share,0,0,1")),
        (21, "a narrow master at the slave with bus sizing, behind a wide one at the native card", text(
            "master,2,8", MASTER, NATIVE, "slave,0,8,4,8,1,0,0,0", "share,1,0,1", "share,0,1,1")),
    ]),
    ("Several faults in one line: the lowest number", [
        (1, "1 before 2: a slave before any master, with a bad number", text("slave,4096,4096,2,8,1,0,0,x", MASTER)),
        (1, "1 before 3: a bad number behind a value outside its list", small(master="master,3,x")),
        (1, "1 before 3 to 6: a bad number at the end of a slave line with every other fault", unshared((0, 65536)) + text(
            "slave,4,65536,3,8,1,0,0,")),
        (1, "1 before 3: no line feed behind shares of 0", small(share="share,0,0,0")[:-1]),
        (1, "1 before 7: a pair twice, with a leading zero", small() + text("share,0,0,02")),
        (1, "1 before 3: six numbers, a width of 3", small(slave="slave,4096,4096,3,8,1,0")),
        (1, "1 before 3: seven numbers, the last of them 64", small(slave="slave,4096,4096,2,8,1,0,64")),
        (1, "1 before 19: shares with a leading zero", narrow("share,0,0,02")),
        (1, "1 before 19: no line feed", narrow("share,0,0,2")[:-1]),
        (1, "1 before 21: 0 twice, in a master's number", grid(2, 1, (1, 0)) + text("share,00,0,1")),
        (1, "1 before 21: 0 twice, in a slave's number", grid(1, 2, (0, 1)) + text("share,0,00,1")),
        (1, "1 before 21: shares with a leading zero", grid(2, 1, (1, 0)) + text("share,0,0,01")),
        (1, "1 before 21: a field too few", grid(2, 1, (1, 0)) + text("share,0,0")),
        (1, "1 before 21: no line feed", grid(2, 1, (1, 0), (0, 0))[:-1]),
        (1, "1 before 2: default before any slave, with an empty field behind it", text(MASTER, "default,", SLAVE)),
        (1, "1 before 2: default before any line, and no line feed", DEFAULT),
        (1, "1 before 2: default twice, the second without its line feed", closed() + DEFAULT),
        (1, "1 before 2: another word behind default", closed("bus,4,8")),
        (1, "1 before 2: an empty line behind default", closed("")),
        (1, "1 before 2: a master's line with one too few behind default", closed("master,4")),
        (1, "1 before 2: a slave's line of seven numbers behind default", closed("slave,0,8,1,1,0,0,0")),
        (1, "1 before 2: shares with a leading zero behind default", closed("share,0,0,02")),
        (1, "1 before 2: a share line without its line feed behind default", closed() + SHARE),
        (2, "2 before 3: a ninth master, with a width of 0", text(*[MASTER] * 8, "master,0,8", SLAVE)),
        (2, "2 before 3: a seventeenth slave, with a native field of 2", unshared(*row(16)) + text("slave,4096,8,2,8,1,0,2,0")),
        (2, "2 before 3: a seventeenth slave, with a latency of 64", unshared(*row(16)) + text("slave,4096,8,2,8,1,0,0,64")),
        (2, "2 before 4 to 6: a seventeenth slave, with each of them", slaves(*row(16), (4, 65536))),
        (2, "2 before 3 and 7: a share before any slave, of 0 and for no master", text(MASTER, "share,1,0,0", SLAVE)),
        (2, "2 before 3: a master behind default, with a width of 3", closed("master,3,8")),
        (2, "2 before 3: a slave behind default, with a latency of 64", closed("slave,0,8,1,1,0,0,0,64")),
        (2, "2 before 4: a slave behind default, the base no multiple", closed("slave,4,8,1,1,0,0,0,0")),
        (2, "2 before 5: a slave behind default, the same bytes again", closed(SLAVE)),
        (2, "2 before 6: a slave behind default, the total passed", closed("slave,65536,65536,1,1,0,0,0,0")),
        (2, "2 before 3: a share behind default, of 0", closed("share,0,0,0")),
        (2, "2 before 3: a share behind default, of one too many", closed("share,0,0,101")),
        (2, "2 before 3 and 7: a share behind default, of 0 and for no master", closed("share,1,0,0")),
        (2, "2 before 7: a share behind default, for no master", closed("share,1,0,2")),
        (2, "2 before 7: a share behind default, for no slave", closed("share,0,1,2")),
        (2, "2 before 7: a pair twice, the second behind default", closed(SHARE)),
        (2, "2 before 19: a narrow master behind default", narrow("share,1,0,1", "share,2,0,1", DEFAULT, "share,0,0,1")),
        (2, "2 before 21: a share behind default that comes before the pair above", grid(2, 1, (1, 0)) + text(
            DEFAULT, "share,0,0,1")),
        (3, "3 before 4: a wait of 256, the base no multiple", small(slave="slave,4100,4096,2,8,256,0,0,0")),
        (3, "3 before 4: a native field of 2, the base no multiple", small(slave="slave,4100,4096,2,8,1,0,2,0")),
        (3, "3 before 4: a latency of 64, the base no multiple", small(slave="slave,4100,4096,2,8,1,0,0,64")),
        (3, "3 before 5: a width of 3, the same bytes again", text(MASTER, SLAVE, "slave,4096,4096,3,8,1,0,0,0")),
        (3, "3 before 5: a latency of 64, the same bytes again", text(MASTER, SLAVE, "slave,4096,4096,2,8,1,0,0,64")),
        (3, "3 before 6: a burst of 3, the total passed", unshared((0, 65536)) + text("slave,65536,8,2,3,1,0,0,0")),
        (3, "3 before 6: a latency of 64, the total passed", unshared((0, 65536)) + text("slave,65536,8,2,8,1,0,0,64")),
        (3, "3 before 7: shares of 0 for no master", small(share="share,1,0,0")),
        (3, "3 before 19: shares of 0", narrow("share,0,0,0")),
        (3, "3 before 19: shares of one too many", narrow("share,0,0,101")),
        (3, "3 before 21: shares of 0", grid(2, 1, (1, 0)) + text("share,0,0,0")),
        (3, "3 before 21: shares of one too many, of one master", grid(1, 2, (0, 1)) + text("share,0,0,101")),
        (4, "4 before 5: half of it is the earlier slave's", slaves((4096, 4096), (6144, 4096))),
        (4, "4 before 6: the total passed, no byte in common", slaves((0, 65536), (98304, 65536))),
        (5, "5 before 6: the total passed, a byte in common", slaves((0, 65536), (0, 8))),
        (7, "7 before 19: a master that is the narrow one when it is cut to 32 bits", narrow("share,4294967296,0,2")),
        (7, "7 before 19: a narrow master at a slave that is the native one when it is cut", narrow("share,0,4294967296,2")),
        (7, "7 before 19: a narrow master, and a slave one above the native one", narrow("share,0,1,2")),
        (7, "7 before 21: a pair twice, with another slave between", grid(1, 2, (0, 0), (0, 1), (0, 0))),
        (7, "7 before 21: a pair twice, with other shares and another master between", grid(2, 1, (0, 0), (1, 0), (0, 0))),
        (7, "7 before 21: a pair twice, the first of the largest board at its end", stored("largest.txt") + text("share,0,0,1")),
        (7, "7 before 21: no slave of that number, and a lower master", grid(2, 2, (0, 0), (1, 1)) + text("share,0,2,1")),
        (7, "7 before 21: a slave that is 0 when it is cut to 32 bits, and a lower master", grid(
            2, 1, (1, 0)) + text("share,0,4294967296,1")),
        (7, "7 and not 21: a master that is 0 when it is cut to 32 bits, no lower one", grid(
            2, 1, (1, 0)) + text("share,4294967296,0,1")),
        (19, "19 before 21: a narrow master behind wider ones", narrow("share,1,0,1", "share,2,0,1", "share,0,0,1")),
        (19, "19 before 21: a narrow master's native slave behind its other slave", text(
            "master,2,8", NATIVE, "slave,0,8,4,8,1,0,0,0", "share,0,1,1", "share,0,0,1")),
    ]),
    ("Several lines with a fault: the first of them", [
        (3, "a width of 3, then another word", text("master,3,8", "bus,4,8")),
        (5, "the same bytes, then a base that is no multiple", slaves((0, 8), (0, 8), (4, 8))),
        (6, "the total passed, then a master behind a slave", slaves((0, 65536), (65536, 8)) + text(MASTER)),
        (7, "a pair twice, then a line without its line feed", small() + text(SHARE) + "share,0"),
        (3, "a native field of 2, then a share line of a narrower master", narrow("share,0,0,2", native=2)),
        (3, "a latency of 64, then a share line of a narrower master", small("master,2,8", "slave,4096,4096,4,8,1,0,1,64")),
        (7, "a pair twice, then a master narrower than the native slave", narrow("share,1,0,1", "share,1,0,1", "share,0,0,1")),
        (19, "a master narrower than the native slave, then a pair twice", narrow("share,0,0,1", "share,1,0,1", "share,1,0,1")),
        (19, "a master narrower than the native slave, and the same line again", narrow("share,0,0,1", "share,0,0,1")),
        (19, "a master narrower than the native slave, then shares of 0", narrow("share,0,0,1", "share,1,0,0")),
        (19, "a master narrower than the native slave, then a line without its line feed", narrow("share,0,0,1") + "share,1"),
        (21, "a share line out of order, then an empty line", grid(2, 1, (1, 0), (0, 0)) + "\n"),
        (21, "a share line out of order, then a line without its line feed", grid(2, 2, (1, 0), (0, 0)) + "share,1,1,1"),
        (21, "a share line out of order, then a master behind shares", grid(2, 1, (1, 0), (0, 0)) + text(MASTER)),
        (21, "a share line out of order, then shares of 0", grid(2, 2, (1, 0), (0, 0)) + text("share,1,1,0")),
        (21, "a share line out of order, and the same line again", grid(2, 1, (1, 0), (0, 0), (0, 0))),
        (21, "a share line out of order, then the pair above it again", grid(2, 1, (1, 0), (0, 0), (1, 0))),
        (21, "a share line out of order, then a master narrower than the native slave", narrow(
            "share,2,0,1", "share,1,0,1", "share,0,0,1")),
        (1, "an empty line, then a share line out of order", grid(2, 1, (1, 0)) + text("", "share,0,0,1")),
        (3, "shares of 0, then a share line that is before them", grid(1, 2) + text("share,0,1,0", "share,0,0,1")),
        (7, "a pair twice, then a share line out of order", grid(2, 1, (1, 0), (1, 0), (0, 0))),
        (19, "a master narrower than the native slave, then a share line out of order", narrow(
            "share,0,0,1", "share,2,0,1", "share,1,0,1")),
        (2, "default alone: then the end without a master", text(DEFAULT)),
        (2, "default before any line, then a width of 3", text(DEFAULT, "master,3,8")),
        (2, "default twice, then an empty line", closed(DEFAULT, "")),
        (2, "a share of 0 behind default, then another word", closed("share,0,0,0", "bus,4,8")),
        (1, "a capital letter, then default twice", small() + text("Default", DEFAULT, DEFAULT)),
        (3, "shares of 0, then default twice", small(share="share,0,0,0") + text(DEFAULT, DEFAULT)),
        (7, "a pair twice, then default twice", small() + text(SHARE, DEFAULT, DEFAULT)),
        (19, "a master narrower than the native slave, then default twice", narrow("share,0,0,1", DEFAULT, DEFAULT)),
        (21, "a share line out of order, then default twice", grid(2, 1, (1, 0), (0, 0)) + text(DEFAULT, DEFAULT)),
        (3, "a width of 3, then the end without a slave", text("master,3,8")),
        (1, "a line without its line feed, then the end without a slave", MASTER),
    ]),
    ("A master without a share line and another fault: what comes before the end, and at the end 2", [
        (1, "over 8,192 bytes, in good lines and one long one", text(MASTER, SLAVE, "x" * 8192)),
        (1, "no line feed behind the last line", text(MASTER, MASTER, SLAVE, SHARE)[:-1]),
        (1, "an empty line at the end", text(MASTER, MASTER, SLAVE, SHARE, "")),
        (1, "its only line has a leading zero", text(MASTER, MASTER, SLAVE, SHARE, "share,1,0,02")),
        (2, "no slave: both are found at the end", text(MASTER, MASTER)),
        (2, "no slave, and the most masters", text(*[MASTER] * 8)),
        (2, "a master behind the share lines, which has none itself", small() + text(MASTER)),
        (2, "a slave behind the share lines", text(MASTER, MASTER, SLAVE, SHARE, "slave,0,8,1,1,0,0,0,0")),
        (2, "its only line stands before any slave", text(MASTER, SHARE, SLAVE)),
        (1, "default without its line feed", text(MASTER, SLAVE) + DEFAULT),
        (1, "default with an empty field behind it", text(MASTER, SLAVE, "default,")),
        (2, "default behind the masters, and no slave", text(MASTER, DEFAULT)),
        (2, "default twice", text(MASTER, SLAVE, DEFAULT, DEFAULT)),
        (2, "its only line stands behind default", text(MASTER, MASTER, SLAVE, SHARE, DEFAULT, "share,1,0,2")),
        (3, "a width of 3, in the first line", text("master,3,8", SLAVE)),
        (3, "its only line has shares of 0", text(MASTER, MASTER, SLAVE, SHARE, "share,1,0,0")),
        (3, "its only line has shares of 0, and stands before others", text(MASTER, MASTER, SLAVE, "share,0,0,0", "share,1,0,2")),
        (4, "a base that is no multiple of its span", text(MASTER, "slave,4100,4096,2,8,1,0,0,0")),
        (5, "slaves with a byte in common", unshared((4096, 4096), (4096, 8))),
        (6, "more bytes than there can be", unshared((0, 65536), (65536, 8))),
        (7, "its only line names no slave", text(MASTER, MASTER, SLAVE, SHARE, "share,1,1,2")),
        (7, "its only line has its number when it is cut to 32 bits", text(MASTER, MASTER, SLAVE, SHARE, "share,4294967297,0,2")),
        (7, "a line of the other master instead, which has one for the pair", text(MASTER, MASTER, SLAVE, SHARE, SHARE)),
        (19, "its only line joins it to a native slave wider than it", narrow_last("share,0,0,1", "share,1,0,1", "share,2,0,1")),
        (19, "a line of a master narrower than the native slave, and none of the last master", narrow(
            "share,0,0,1", "share,1,0,1")),
        (21, "share lines of two others, the other way round", grid(3, 1, (1, 0), (0, 0))),
        (21, "share lines of another, the other way round", grid(2, 2, (0, 1), (0, 0))),
        (21, "the first of the most, and the second at two slaves the other way round", grid(
            8, 2, (1, 1), (1, 0), *((master, 0) for master in range(2, 8)))),
    ]),
]


def chosen():
    """The records of all parts: number, reason with the part's heading, text."""
    return [(number, f"{part}: {reason}", description) for part, records in LIST for number, reason, description in records]


def written(records):
    """The records as the program reads them: a length, a line feed, and so many bytes."""
    texts = [description.encode("latin-1") for _, _, description in records]
    return b"".join(b"%d\n" % len(description) + description for description in texts)


def answer(number, description):
    """What is answered to a record: its number and, where it is taken, the writer's text, which is its own."""
    return b"read,%d\n" % number + (description.encode("latin-1") if number == 0 else b"")


def answered():
    """The numbers of the stored answers, each of which begins with a line read,N."""
    lines = ANSWERS.read_bytes().splitlines()
    return [int(line[len(b"read,"):]) for line in lines if line.startswith(b"read,")]


def complaints(records):
    """What is stored and does not agree with the list."""
    if RECORDS.read_bytes() != written(records):
        yield "the stored records are not those of the list"
    numbers = answered()
    if len(numbers) != len(records):
        yield f"{len(numbers)} stored answers to {len(records)} records"
    for (number, reason, _), found in zip(records, numbers):
        if found != number:
            yield f"the stored answer is {found}, the list's {number}, for {reason}"
    if ANSWERS.read_bytes() != b"".join(answer(number, description) for number, _, description in records):
        yield "the stored answers are not the list's numbers, with its own text behind each 0"


def main(arguments):
    records = chosen()
    if not arguments:
        RECORDS.write_bytes(written(records))
        print(f"texts: {len(records)} records written")
        return 0
    if arguments == ["--check"]:
        found = list(complaints(records))
        for complaint in found or [f"{len(records)} records and their answers agree"]:
            print(f"texts: {complaint}")
        return 1 if found else 0
    asked = arguments in (["-h"], ["--help"])
    print(__doc__, end="", file=sys.stdout if asked else sys.stderr)
    return 0 if asked else 2


if __name__ == "__main__":
    sys.exit(main(sys.argv[1:]))
