#!/usr/bin/env python3
"""Looks in the code for the named forms of docs/DECISIONS.md, which no proof speaks of.

usage: tests/forms.py

Each entry of FORMS names a function, texts that its head or its body has, and words that its body has not. A text stands as often
as the entry says, or at least once. Each row of the document's table "Named forms" has an entry by its rule; the row "all", of answers
that are enums, names each enum of the code with its definition. The entries of rule 8.4 are of no row: by them a clock and a run of
clocks begin by one function.

Prints a line for each complaint; exit status 0 if there is none, else 1.
"""
import re
import sys
from pathlib import Path

ROOT = Path(__file__).resolve().parent.parent
BRANCHES = ("if", "match", "return", "while", "loop", "for")


class Form:
    """A function of a file below crates/, and what it has and has not. In `has`, a text of the body, or a text and how often."""

    def __init__(self, rule, path, function, has=(), lacks=(), head=()):
        self.rule = rule
        self.path = path
        self.function = function
        self.has = [(text, None) if isinstance(text, str) else text for text in has]
        self.lacks = lacks
        self.head = head

    def __str__(self):
        return f"crates/{self.path}: {self.function}"


WORDS = ('b"master"', 'b"slave"', 'b"share"')
BEGINNING = ("ready", "request_masks", "unmapped_mask")
PART = ("PART_BYTES * m", ("&mut buffer[start..end]", 1))
FORMS = [
    Form("2.2", "fabric_bytes/src/lib.rt", "read_access", has=PART),
    Form("2.2", "fabric_bytes/src/lib.rt", "post_words", has=PART),
    Form("2.2", "simulate/src/obey.rt", "obey_script", has=[("let mut words: [u8; BUFFER_BYTES] = [0; 4096];", 1), "&mut words"]),
    Form("4.5", "fabric_arbiter/src/lib.rt", "first_requester", has=[("loop {", 1), ("break ", 2)], lacks=["return", "while", "for"]),
    Form("1.3", "description_lines/src/lib.rt", "item_of", has=[f"word == {word}" for word in WORDS]),
    Form("1.3", "description_lines/src/lib.rt", "put_item", has=WORDS),
    Form("5.8", "fabric_c/src/lib.rt", "fabric_wait", head=['extern "C"', "text: &[u8], master: u32, slave: u32, out: &mut [u8]"]),
    Form("3.6", "fabric_accesses/src/lib.rt", "agrees", has=["above_span(address, sl.span) == above_span(sl.base, sl.span)"]),
    Form("3.6", "fabric_accesses/src/lib.rt", "above_span", has=[("n & (span - 1)", 1)], lacks=BRANCHES),
    Form("3.4", "fabric_lanes/src/lib.rt", "legal_lanes", has=["u32::count_ones(lanes)", "u32::trailing_zeros(lanes)"]),
    Form("3.4", "fabric_lanes/src/lib.rt", "post_lanes", has=[("legal_lanes(width, lanes)", 1)], lacks=BRANCHES),
    Form("4.3 to 4.6", "fabric_grant/src/lib.rt", "arbitrate_record", has=[("choose(", 1), ("arbiter_after(", 1)], lacks=BRANCHES,
         head=["&mut Arbiter"]),
    Form("4.3 to 4.6", "fabric_grant/src/lib.rt", "arbitrate", has=[("arbitrate_record(&mut a,", 1)], lacks=BRANCHES),
    Form("4.3 to 4.6", "fabric_grant/src/lib.rt", "slot_asked", has=[("arbitrate(arbiter_of(slot),", 1)]),
    Form("4.3 to 4.6", "fabric_cycle/src/lib.rt", "clock_slave", has=[("fabric_grant::slot_asked(", 1)]),
    Form("8.4", "fabric/src/lib.rt", "clock", has=[("fabric_begin::begin(", 1)], lacks=BEGINNING),
    Form("8.4", "fabric/src/lib.rt", "run", has=[("fabric_begin::begin(", 1)], lacks=BEGINNING),
    Form("5.7", "wait_turns/src/lib.rt", "slave_turns", has=[("longest_access(", 1), ("single_access(slave, v)", 1), ("turns_at(", 1)],
         lacks=BRANCHES),
    Form("5.7", "wait_table/src/lib.rt", "add_turns", has=[("slave_turns(", 1)], lacks=["longest_access", "single_access", "read_wait"]),
    Form("5.7", "wait_turns/src/lib.rt", "single_access", lacks=["longest_access", "read_wait"]),
    Form("5.7", "wait_turns/src/lib.rt", "turns_at", has=[("for ", 1)],
         lacks=["longest_access", "single_access", "read_wait", "write_wait", "latency"]),
]


def without_comments(text):
    return re.sub(r"//.*", "", text)


def parts_of(text, function):
    """The head of a function, up to the brace that opens its body, and its body; None if the text has no such function."""
    found = re.search(rf"^(?:pub )?(?:extern \"C\" )?fn {function}\(", text, re.M)
    if not found:
        return None
    # the lines of a contract and of a body are indented
    opened = re.compile(r"^(?! ).*\{$", re.M).search(text, found.start())
    closed = text.index("\n}\n", opened.end())
    return text[found.start():opened.end()], text[opened.end():closed]


def complaints_of(form):
    path = ROOT / "crates" / form.path
    if not path.is_file():
        yield f"{form}: there is no such file"
        return
    parts = parts_of(without_comments(path.read_text()), form.function)
    if not parts:
        yield f"{form}: there is no such function"
        return
    head, body = parts
    for text in form.head:
        if text not in head:
            yield f"{form}: its head has no `{text}`"
    for text, times in form.has:
        count = body.count(text)
        if count == 0 or times and count != times:
            yield f"{form}: it has `{text}` {count} times" + (f", not {times}" if times else "")
    for word in form.lacks:
        if re.search(rf"\b{word}\b", body):
            yield f"{form}: it has `{word}`"


def named_forms():
    """The rows of the document's table, by rule."""
    text = (ROOT / "docs/DECISIONS.md").read_text().split("### Named forms")[1]
    return {row.split("|")[1].strip(): row for row in re.findall(r"^\| (?!rule).*$", text, re.M)}


def rows_without_entry():
    for rule in sorted(set(named_forms()) - {form.rule for form in FORMS} - {"all"}):
        yield f"docs/DECISIONS.md: the named form of rule {rule} is not looked for"


def enums_without_definition():
    row = named_forms()["all"]
    for path in sorted((ROOT / "crates").glob("*/src/*.rt")):
        for name in re.findall(r"^(?:pub )?enum (\w+)", path.read_text(), re.M):
            if f"`{name}` by `" not in row:
                yield f"docs/DECISIONS.md: no definition is named for the enum {name} of {path.parent.parent.name}"


def main(arguments):
    if arguments:
        print(__doc__, end="", file=sys.stderr)
        return 2
    complaints = [line for form in FORMS for line in complaints_of(form)]
    complaints += list(rows_without_entry()) + list(enums_without_definition())
    print("\n".join(complaints or [f"forms: {len(FORMS)} functions have the forms that are named for them"]))
    return 1 if complaints else 0


if __name__ == "__main__":
    sys.exit(main(sys.argv[1:]))
