#!/usr/bin/env python3
"""Spells the repository's own definitions and lemmas as today's Rattle does: words in snake case, types and facts in camel case.

usage: tools/port_names.py [--report]      at the top of the repository, once, after /opt/rattle/port/port.py

It goes over specs/ and proofs/, the ghost lines and clauses of src/, the must-fail edits and the names in backticks of the
documents. Functions of src/, exported names, strings, inputs and outputs keep their spelling. --report writes nothing, and lists
names that would fall together.
"""

import collections
import glob
import re
import sys

TOKEN = re.compile(r'(?<![^\s(){}\[\].,;@"`«»])([^\s(){}\[\].,;@"`«»]+)(?=[\s(){}\[\].,;@"`«»]|$)')
MARKS = r"(?:(?:unfoldable|abbrev|pub|record|data|open) )*"
DECLARED = re.compile(r"^\s*" + MARKS + r"([^\s(){}\[\].,;=:λ«»]+)(?= :(?: |$)| [({])")
USE = re.compile(r"^\s*(?:pub )?use ([^\s{;]+?)(?:\.\{([^}]*)\})?(?: as (\S+))?\s*$", re.M)
GARBLED = {"Shares-at": "shares_at", "Line-of": "line_of", "Numbers-of": "numbers_of", "Clear-of": "clear_of"}
SPECIAL = {"line_after": "line_after_lem", "lane_test": "lane_test_lem", "getD-table": "get_or_table", "getD-table-past": "get_or_table_past", "getD-replicate-all": "get_or_replicate_all"}
WORDS = set("module where use let in as elim record data open pub abbrev unfoldable unfolding".split())


def crates():
    return sorted(p.split("/")[1] for p in glob.glob("crates/*/src"))


def antt_files():
    out = []
    for part in ("specs", "proofs"):
        out += glob.glob(f"crates/*/{part}/**/*.antt", recursive=True)
    return sorted(p for p in out if "/out/" not in p)


def snake(name):
    if name in SPECIAL:
        return SPECIAL[name]
    if "-" in name and name[0].isupper():
        return name
    name = name.replace("getD", "get_or")
    name = re.sub(r"(?<=[a-z0-9])([A-Z])", lambda m: "_" + m[1].lower(), name)
    return name.replace("-", "_").lower() if re.fullmatch(r"[\w'′-]+", name) else name.replace("-", "_")


def wanted(name):
    return name in SPECIAL or (re.search(r"[a-zA-Z]", name) and not name[0].isupper() and ("-" in name.strip("-") or re.search(r"[a-z0-9][A-Z]", name)))


def declared(path):
    """The names that a file declares, its goals' names aside."""
    goals = re.compile(r"^\s*" + MARKS + r"(\S+) : tie\.(?:Need-|invariant|decreases)", re.M)
    text = open(path).read()
    aside = set(goals.findall(text))
    names = set()
    for line in text.splitlines():
        if line.lstrip().startswith("--"):
            continue
        m = DECLARED.match(line)
        if m and m[1] not in WORDS and m[1] not in aside:
            names.add(m[1])
    if path.endswith("/Proof.antt"):
        names = {n for n in names if not n.endswith("-spec")}
    return names


def foreign(text, own):
    """The names that a file imports from elsewhere than this repository's crates."""
    names = set()
    for m in USE.finditer(text):
        parts = m[1].split(".")
        mine = parts[0] == "Rattle" and len(parts) > 1 and parts[1] in own
        if not mine and m[2]:
            for leaf in m[2].split(","):
                leaf = leaf.strip()
                names.add(leaf.split(" as ")[-1].strip())
                names.add(leaf.split(" as ")[0].strip())
    return names


def turn_text(text, table, aside):
    def one(m):
        before = text[max(0, m.start() - 4) : m.start()]
        if before.endswith("tie.") or m[1] in aside:
            return m[1]
        return table.get(m[1], GARBLED.get(m[1], m[1]))

    return TOKEN.sub(one, text)


def turn_antt(text, table, own):
    aside = foreign(text, own)
    lines = []
    for line in text.splitlines(keepends=True):
        m = USE.match(line)
        if m:
            parts = m[1].split(".")
            if not (parts[0] == "Rattle" and len(parts) > 1 and parts[1] in own):
                lines.append(line)
                continue
        lines.append(turn_text(line, table, aside))
    return "".join(lines)


CLAUSE = re.compile(r"^\s*(?:requires|ensures|ghost)\b")
STRING = re.compile(r'b?"(?:[^"\\]|\\.)*"')


def turn_rt(text, table, own):
    """Turns ghost lines, clauses and comments of a source."""
    out, depth, inside = [], 0, False
    for line in text.splitlines(keepends=True):
        if re.match(r"\s*ghost use ", line):
            first = line.split()[2].split(".")
            mine = first[0] == "Rattle" and first[1] in own
            out.append(turn_text(line, table, set()) if mine else line)
            continue
        if not inside and CLAUSE.match(line):
            inside, depth = True, 0
        if inside:
            out.append(turn_text(line, table, set()))
            depth += line.count("{") - line.count("}")
            inside = depth > 0
            continue
        if line.lstrip().startswith("//"):
            out.append(re.sub(r"`[^`\n]+`", lambda m: turn_text(m[0], table, set()), line))
            continue
        out.append(line)
    return "".join(out)


def turn_edit(text, table, own):
    out, source = [], ""
    for line in text.splitlines(keepends=True):
        if line.startswith("file: "):
            source = line[6:].strip()
        if line.startswith("refused: ") or (line.startswith(("old: ", "new: ")) and source.endswith(".antt")):
            line = turn_text(line, table, set())
        out.append(line)
    return "".join(out)


def turn_page(text, table):
    return re.sub(r"`[^`\n]+`", lambda m: turn_text(m[0], table, set()), text)


def main():
    own = set(crates())
    files = antt_files()
    names = collections.defaultdict(set)
    for p in files:
        for n in declared(p):
            names[n].add(p)
    table = {n: snake(n) for n in names if wanted(n)}
    table = {n: t for n, t in table.items() if n != t}
    texts = {p: open(p).read() for p in files}
    apart(table, names, texts, own)
    report(table, texts, own)
    if "--report" in sys.argv[1:]:
        return 0
    for p in files:
        write(p, texts[p], turn_antt(texts[p], table, own))
    for p in sorted(glob.glob("crates/*/src/**/*.rt", recursive=True)):
        t = open(p).read()
        write(p, t, turn_rt(t, table, own))
    for p in sorted(glob.glob("crates/*/must-fail/*.edit")):
        t = open(p).read()
        write(p, t, turn_edit(t, table, own))
    for p in sorted(["README.md", "CONTRIBUTING.md", "bench/README.md", "clients/c/README.md"] + glob.glob("docs/*.md")):
        try:
            t = open(p).read()
        except OSError:
            continue
        write(p, t, turn_page(t, table))
    return 0


def apart(table, names, texts, own):
    """A lemma that would have a definition's name gets _lem."""
    taken = {t for n, t in table.items() if "-" not in n}
    taken |= {n for n, ps in names.items() if not all(p.endswith("/Proof.antt") for p in ps)}
    for text in texts.values():
        here = set(TOKEN.findall(text))
        away = foreign(text, own)
        for n in [n for n in table if n in here and table[n] in away]:
            table[n] += "_lem"
    for n in sorted(table):
        if "-" in n and table[n] in taken:
            table[n] += "_lem"


def write(path, old, new):
    if old != new:
        with open(path, "w") as f:
            f.write(new)


def report(table, texts, own):
    new = collections.defaultdict(set)
    for n, t in table.items():
        new[t].add(n)
    for p, text in texts.items():
        tokens = set(TOKEN.findall(text))
        away = foreign(text, own)
        for t in tokens & set(new):
            also = [n for n in new[t] if n in tokens and n not in away]
            if also:
                print(f"{p}: {t} stands there already, beside {', '.join(also)}")
        for t, olds in new.items():
            here = olds & tokens - away
            if len(here) > 1:
                print(f"{p}: {', '.join(sorted(here))} fall together as {t}")


if __name__ == "__main__":
    raise SystemExit(main())
