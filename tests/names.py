#!/usr/bin/env python3
"""Checks that what the documents and comments cite exists.

usage: tests/names.py [--write]

- a rule that is cited ("rule 4.5", "rules 4.3 to 4.6") stands in docs/RULES.md, and each rule has a row in docs/PROMISES.md; the rules
  of a section stand in the order of their numbers, but for section 7, which is by who causes a refusal;
- a crate, file, definition, function, law or must-fail edit that a document names in backquotes exists;
- each label of a must-fail edit is named in docs/PROMISES.md, and those of rules 10.1 to 10.12 have files of their own;
- the constants of include/fabric.h are those of crate common_numbers, and its refusals' numbers;
- each row of a document's table has as many cells as the table's heading;
- no two definitions that docs/READING.md lists for the fabric have the same name, and no two laws the same statement;
- a figure that changes with the product stands in one document: how long the gate takes, how many numbers a board and a state are, and
  no decision is a version;
- docs/READING.md lists every file of definitions that is to be believed, with its number of lines (--write puts the numbers);
- what the contract of a public call (docs/PROMISES.md, section 2) or a listed file names stands in a listed file, in a crate's records
  that docs/READING.md names, or in the kit: so what it names through others does too.

Prints a line for each complaint; exit status 0 where there is none, else 1.
"""
import re
import subprocess
import sys
from pathlib import Path

from edits import all_edits

ROOT = Path(__file__).resolve().parent.parent
# What a document may name in backquotes and this repository does not have: programs and words of the language or of the kit.
FOREIGN = set("io libc os std check rt gcc cargo python3 valgrind antt".split())
# Laws of one statement whose modules ask for different things, of which neither follows from the other.
APART = ["legal_accepted (description_board/proofs/Accepted.antt)", "accepted_board (fabric_calls/proofs/RunOfClocks.antt)"]


def tracked():
    listed = subprocess.run(["git", "ls-files", "-co", "--exclude-standard"], cwd=ROOT, capture_output=True, text=True)
    return [ROOT / name for name in listed.stdout.split("\n") if name and (ROOT / name).is_file()]


def text_of(path):
    """A file's text; an import that goes over several lines, as one line."""
    text = path.read_text(errors="replace")
    if path.suffix in (".antt", ".rt"):
        text = re.sub(r"^((?:pub )?(?:ghost )?use [^{};]*\{)([^{}]*)\}", lambda m: m[1] + " ".join(m[2].split()).rstrip(",") + "}", text, flags=re.M)
    return text


def rules():
    return set(re.findall(r"^- \*\*(\d+\.\d+)\*\*", text_of(ROOT / "docs/RULES.md"), re.M))


def cited_rules(text):
    """The numbers behind "rule" or "rules": 4.3, 4.4; 4.3 to 4.6; 4.3 and 4.5."""
    for found in re.finditer(r"\brules? (\d+\.\d+(?:(?:, | and | to | or |, and )\d+\.\d+)*)", text, re.I):
        yield from re.findall(r"\d+\.\d+", found.group(1))


def rule_complaints(files):
    known = rules()
    for path in files:
        if path.suffix in (".md", ".antt", ".rt", ".h", ".c", ".sh", ".rs", ".py") and path.name != "LANDINGS.md":
            for number in cited_rules(text_of(path)):
                if number not in known:
                    yield f"{path.relative_to(ROOT)}: there is no rule {number}"
    rows = set()
    for line in text_of(ROOT / "docs/PROMISES.md").split("\n"):
        if line.startswith("| "):
            rows |= set(re.findall(r"\d+\.\d+", line.split("|")[1]))
    for number in sorted(known - rows, key=lambda n: [int(part) for part in n.split(".")]):
        yield f"docs/PROMISES.md: no row for rule {number}"


def order_complaints():
    """Rules that stand after a higher one of their section."""
    last = {}
    for section, number in re.findall(r"^- \*\*(\d+)\.(\d+)\*\*", text_of(ROOT / "docs/RULES.md"), re.M):
        if section != "7" and int(number) < last.get(section, 0):
            yield f"docs/RULES.md: rule {section}.{number} stands after rule {section}.{last[section]}"
        last[section] = max(int(number), last.get(section, 0))


class Names:
    """What exists: crates, files, and every word of code, definitions, laws, scripts and the header."""

    def __init__(self, files):
        self.crates = {path.parent.name for path in (ROOT / "crates").glob("*/src")}
        self.edits = {str(edit) for edit in all_edits(ROOT)}
        self.words = set()
        self.in_crate = {}
        for path in files:
            if path.suffix in (".antt", ".rt", ".h", ".c", ".sh", ".rs", ".py", ".toml") or path.name == "run":
                words = {word.removesuffix("'s").strip("'") for word in re.findall(r"[\w']+(?:-[\w']+)*", text_of(path))}
                words |= set(re.findall(r"\w[\w']*(?:-[\w']+)*", text_of(path)))
                self.words |= words | set(re.findall(r"\w+", text_of(path)))
                parts = path.relative_to(ROOT).parts
                if parts[0] == "crates":
                    self.in_crate.setdefault(parts[1], set()).update(words)
        for path in files:
            self.words.add(path.stem)

    def path_exists(self, name):
        return (ROOT / name).exists() or (ROOT / "crates" / name).exists()

    def file_exists(self, crate, name):
        folder = ROOT / "crates" / crate
        tries = [folder / name, folder / "specs" / f"{name}.antt", folder / "proofs" / f"{name}.antt"]
        return any(path.exists() for path in tries) or f"{crate}/{name}" in self.edits

    def complaint(self, cited):
        """What is wrong with one name in backquotes, or None."""
        first = re.match(r"(\w+)::(\w+)", cited)
        if first:
            crate, name = first.groups()
            if crate in FOREIGN:
                return None
            if crate not in self.crates:
                return "no such crate"
            return None if name in self.in_crate[crate] else f"crate {crate} has no {name}"
        placed = re.match(r"(\w+)/([\w/.]+?)(?: · (.*))?$", cited)
        if placed and placed.group(1) in self.crates:
            crate, name, what = placed.groups()
            if not self.file_exists(crate, name):
                return "no such file or edit"
            missing = [w for w in re.findall(r"[\w']+(?:-[\w']+)*", what or "") if w not in self.in_crate[crate]]
            return f"crate {crate} has no {missing[0]}" if missing else None
        labelled = re.match(r"(\w+)/([\w-]+)$", cited)
        if labelled and labelled.group(1) in self.crates:
            return None if self.file_exists(*labelled.groups()) else "no such file or edit"
        if re.search(r"/(CRATE|FILE|FUNCTION|MODULE|LABEL|NAME)\b", cited):  # a form to be filled in
            return None
        if re.match(r"(docs|crates|tests|include|boards|clients|model|bench|\.ci)/[\w./-]*\w$", cited):
            return None if self.path_exists(cited) else "no such file"
        if re.match(r"(common|description|fabric|wait|program|theorem)_\w+$|[a-z]+[A-Z]\w*$|[a-z]\w*_\w+$|[a-z]+(-[a-z\d]+)+$", cited):
            return None if cited in self.words or cited in self.crates else "no such name"
        return None


def documents():
    found = [ROOT / "README.md", ROOT / "CONTRIBUTING.md", ROOT / "clients/c/README.md"]
    found += [path for path in sorted((ROOT / "docs").glob("*.md")) if not path.name.startswith(("LANDINGS", "PORT", "DESIGN-PASS"))]
    return [path for path in found if path.exists()]


def name_complaints(files):
    names = Names(files)
    for path in documents():
        text = re.sub(r"^```.*?^```", "", text_of(path), flags=re.M | re.S)
        for cited in sorted(set(re.findall(r"`([^`\n]+)`", text))):
            complaint = names.complaint(cited)
            if complaint:
                yield f"{path.relative_to(ROOT)}: `{cited}`: {complaint}"
    promises = text_of(ROOT / "docs/PROMISES.md")
    for edit in sorted(names.edits):
        if edit not in promises:
            yield f"docs/PROMISES.md: the edit {edit} is not named"
    # the kit's own word on a wrong program is to be seen, so its edit stands in no group
    for row in re.findall(r"^\| 10\.\d+ \|.*$", promises, re.M):
        for crate, label in re.findall(r"`(\w+)/([\w-]+)`", row.split("|")[-2]):
            if not (ROOT / "crates" / crate / "must-fail" / f"{label}.edit").exists():
                yield f"docs/PROMISES.md: the edit {crate}/{label} has no file of its own"


def cells(row):
    return re.sub(r"`[^`]*`", "", row).count("|")


def table_complaints():
    for path in documents() + [ROOT / "docs/LANDINGS.md"]:
        heading = 0
        for number, line in enumerate(text_of(path).split("\n"), 1):
            if not line.startswith("|"):
                heading = 0
            elif heading == 0:
                heading = cells(line)
            elif cells(line) != heading:
                yield f"{path.relative_to(ROOT)}: line {number}: a row of {cells(line)} bars where the heading has {heading}"


def value_of(expression, values):
    return eval(re.sub(r"[A-Z]\w*", lambda m: str(values[m.group(0)]), expression), {"__builtins__": {}})


def refusals():
    """The numbers of crate common_numbers' enum of refusals, by names as a constant has them: BAD_TEXT of BadText."""
    cases = re.search(r"pub enum Refusal \{(.*?)\}", text_of(ROOT / "crates/common_numbers/src/lib.rt"), re.S).group(1)
    return {re.sub(r"(?<=[a-z])(?=[A-Z])", "_", case).upper(): int(number) for case, number in re.findall(r"(\w+) = (\d+)", cases)}


def constants():
    """The constants of crate common_numbers and its refusals, by name."""
    values = refusals()
    highest = str(max(values.values()))
    for name, expression in re.findall(r"pub const (\w+): \w+ = ([^;]+);", text_of(ROOT / "crates/common_numbers/src/lib.rt")):
        values[name] = value_of(expression.replace("Refusal::ALL.len() as u32", highest), values)
    return values


def constant_complaints():
    values = constants()
    header = text_of(ROOT / "include/fabric.h")
    defined = dict(re.findall(r"#define FABRIC_(\w+) (\d+)", header))
    for name, value in defined.items():
        if name in ("IDLE", "WAITING", "ACCESS"):
            continue
        if values.get(name) != int(value):
            yield f"include/fabric.h: FABRIC_{name} is {value}, common_numbers has {values.get(name)}"
    code = text_of(ROOT / "crates/common_numbers/src/lib.rt")
    for name in [n for n in values if n in refusals() or re.search(rf"^pub const {n}: u32", code, re.M)]:
        if name not in defined and name != "LAST_REFUSAL":
            yield f"include/fabric.h: no FABRIC_{name}"


def figure_complaints():
    """Figures that stand in two documents, and decisions that are a version."""
    values = constants()
    figures = {"how long the gate takes": r"\d+ (?:to \d+ )?minutes"}
    figures |= {f"common_numbers::{name}": rf"\b{values[name]} numbers" for name in ("BOARD_NUMBERS", "STATE_NUMBERS")}
    for what, figure in figures.items():
        places = [path for path in documents() if re.search(figure, text_of(path))]
        if len(places) > 1:
            yield f"{what} stands in {' and '.join(str(path.relative_to(ROOT)) for path in places)}"
    for row in re.findall(r"^\|[^|]*\| \d+\.\d+[ ,].*$", text_of(ROOT / "docs/DECISIONS.md"), re.M):
        yield f"docs/DECISIONS.md: a version is decided, which the next change makes wrong: {row}"


def lines_to_read(path):
    """Lines that are neither blank nor an import."""
    return sum(1 for line in text_of(path).split("\n") if line.strip() and not line.startswith(("use ", "pub use ")))


def numbered(part, seen):
    """A part of the page with the present numbers of lines: of each file, and of all files together."""
    counts = []

    def row(found):
        path = ROOT / "crates" / found.group(1) / "specs" / f"{found.group(2)}.antt"
        if not path.exists():
            return found.group(0)
        seen.add(path)
        counts.append(lines_to_read(path))
        return f"| `{found.group(1)}/{found.group(2)}` | {counts[-1]} |"

    part = re.sub(r"\| `(\w+)/(\w+)` \| (\d+) \|", row, part)
    return re.sub(r"\*\*\d+ files, [\d,]+ lines\*\*", lambda _: f"**{len(counts)} files, {sum(counts):,} lines**", part)


def reading_complaints(write):
    page = ROOT / "docs/READING.md"
    text = text_of(page)
    believed = {path for path in (ROOT / "crates").glob("*/specs/*.antt") if path.name not in ("Lib.antt", "Code.antt")}
    seen = set()
    parts = [numbered(part, seen) for part in re.split(r"(?=^## )", text, flags=re.M)]
    new = "".join(parts)
    for path in sorted(believed - seen):
        yield f"docs/READING.md: {path.parent.parent.name}/{path.stem} is not listed"
    if write:
        page.write_text(new)
    elif new != text:
        yield "docs/READING.md: numbers of lines have changed: tests/names.py --write puts them"


def twice(places):
    """What stands in more than one place, with the places."""
    return {what: where for what, where in places.items() if len(where) > 1}


def definition_complaints():
    """Definitions of one name, in the files to be believed but for the programs', whose words are their own."""
    places = {}
    page = text_of(ROOT / "docs/READING.md").split("## Programs")[0]
    for crate, name in re.findall(r"^\| `(\w+)/(\w+)` \| \d+ \|", page, re.M):
        path = ROOT / "crates" / crate / "specs" / f"{name}.antt"
        text = text_of(path) if path.exists() else ""
        for defined in re.findall(r"^(?:(?:abbrev|unfoldable) )?pub (?:record |data )?([^\s:(]+)", text, re.M):
            places.setdefault(defined, []).append(f"{crate}/{name}")
    for defined, where in twice(places).items():
        yield f"{defined} is defined in {' and in '.join(where)}"


def statement(lines):
    """A law's type, with its variables by their order, so that two laws that differ in names are the same."""
    text = re.sub(r"\s+", " ", " ".join(lines)).strip()
    variables = {}
    for group in re.findall(r"[({]([^():{}]+) : ", text):
        for name in group.split():
            variables.setdefault(name, f"v{len(variables)}")
    return re.sub(r"[\w']+", lambda found: variables.get(found.group(0), found.group(0)), text)


def laws_of(path):
    """Name and statement of each public law of a file; parts of a record are none."""
    block = re.compile(r"^( *)((?:(?:abbrev|unfoldable) )?pub )([^\s:(]+) :((?:.*)(?:\n\1 +(?!unfolding).*)*)", re.M)
    text = re.sub(r"^pub record .*\n(?: +.*\n|\n(?= ))*", "", text_of(path), flags=re.M)
    for _, mark, name, type_ in block.findall(text):
        if mark == "pub " and re.search("[≡≤<]", type_):
            yield name, statement(type_.split("\n"))


def law_complaints():
    places = {}
    for path in sorted((ROOT / "crates").glob("*/proofs/**/*.antt")):
        if path.name not in ("Answers.antt", "Invariants.antt", "Proof.antt"):
            for name, said in laws_of(path):
                places.setdefault(said, []).append(f"{name} ({path.relative_to(ROOT / 'crates')})")
    for where in twice(places).values():
        if where != APART:
            yield f"the same law: {' and '.join(where)}"


def sections(text):
    """The parts of a document by their headings of the second order."""
    return {part.split("\n")[0]: part for part in re.split(r"^## ", text, flags=re.M)[1:]}


def public_calls():
    """Crate and name of each call in the first column of the table of public calls; a name alone is of the crate before it."""
    found = []
    part = sections(text_of(ROOT / "docs/PROMISES.md"))["2. The public calls"]
    for row in re.findall(r"^\| `.*$", part, re.M):
        crate = None
        for first, second in re.findall(r"`(\w+)(?:::(\w+))?`", row.split("|")[1]):
            crate = first if second else crate
            found.append((crate, second or first))
    return found


def unlisted_calls(calls):
    """Public functions of the crates that have the calls, and are in no row of the table. `description_check` has inner ones too."""
    for crate in sorted({crate for crate, _ in calls} - {"description_check"}):
        for path in sorted((ROOT / "crates" / crate / "src").glob("*.rt")):
            for name in re.findall(r'^pub (?:extern "C" )?fn (\w+)', text_of(path), re.M):
                if (crate, name) not in calls:
                    yield f"docs/PROMISES.md: {crate}::{name} is not among the public calls"


def head_of(crate, name):
    """The file that has a public function, and the function's text up to its body; None if there is none."""
    for path in sorted((ROOT / "crates" / crate / "src").glob("*.rt")):
        found = re.search(rf'^pub (?:extern "C" )?fn {name}\(.*?^\{{$', text_of(path), re.M | re.S)
        if found:
            return path, found.group(0)
    return None


USE = r"^(?:pub )?(?:ghost )?use Rattle\.(\w+)\.(specs|proofs)\.([\w'.-]+?)(?:\.\{(.*)\}| as ([\w'-]+))?;?$"
# a name in full, outside an import: its last part is the definition
FULL = r"^(?!(?:pub )?(?:ghost )?use |\s*--).*?Rattle\.(\w+)\.(specs|proofs)\.([\w'.-]+)\.[\w'-]+"


def imported(text, among=None):
    """Crate, kind and module of what a file imports from a crate: all of it, or what one of the words `among` names."""
    for crate, kind, module, names, alias in re.findall(USE, text, re.M):
        brought = {re.split(r" as ", name.strip())[-1] for name in names.split(",")} if names else {alias or module.split(".")[-1]}
        if among is None or brought & among:
            yield crate, kind, module


def named_in(text):
    """What a file names of crates: by its imports, and in full."""
    return list(imported(text)) + re.findall(FULL, text, re.M)


def named_by_files(listed):
    """Each listed file, with what it names."""
    for crate, name in sorted(listed):
        path = ROOT / "crates" / crate / "specs" / f"{name}.antt"
        if path.exists():
            yield f"crates/{crate}/specs/{name}.antt", named_in(text_of(path))


def named_by_call(crate, name):
    """What the head of a public call names: its contract, and a record that it answers."""
    path, head = head_of(crate, name)
    found = list(imported(text_of(path), set(re.findall(r"[\w']+", head)))) + re.findall(FULL, head, re.M)
    answer = re.search(r"-> (.*)", head)
    for record in set(re.findall(r"\b[A-Z]\w*", answer.group(1) if answer else "")) - {"Result", "Option"}:
        brought = re.search(rf"^use (\w+)::(?:\{{[^}}]*\b)?{record}\b", text_of(path), re.M)
        found.append((brought.group(1) if brought else crate, "specs", "declared"))
    return found


def call_complaints(calls):
    yield from unlisted_calls(calls)
    for crate, name in calls:
        if head_of(crate, name) is None:
            yield f"docs/PROMISES.md: crate {crate} has no public function {name}"
        elif re.search(r"^ *requires", head_of(crate, name)[1], re.M):
            yield f"{crate}::{name} has a requires"


def believed_complaints():
    page = text_of(ROOT / "docs/READING.md")
    listed = set(re.findall(r"^\| `(\w+)/(\w+)` \| \d+ \|", page, re.M))
    declare = set(re.findall(r"`(\w+)`", re.search(r"\*\*the records and enums\.\*\*.*?\n\n", page, re.S).group(0)))
    own = {path.name for path in (ROOT / "crates").iterdir() if path.is_dir()}
    calls = public_calls()
    yield from call_complaints(calls)
    sources = [(f"{crate}::{name}", named_by_call(crate, name)) for crate, name in calls if head_of(crate, name)]
    for source, modules in sources + list(named_by_files(listed)):
        for crate, kind, module in modules:
            if crate not in own:  # the kit's
                continue
            if kind == "specs" and module.startswith("declared"):
                if crate not in declare:
                    yield f"{source}: docs/READING.md does not name {crate} among the crates that declare records"
            elif kind != "specs" or (crate, module) not in listed:
                yield f"{source}: it names what stands in {crate}/{kind}/{module.replace('.', '/')}, which docs/READING.md does not list"


def main(arguments):
    if arguments not in ([], ["--write"]):
        print(__doc__, end="", file=sys.stderr)
        return 2
    files = tracked()
    complaints = list(reading_complaints(arguments == ["--write"]))
    complaints += list(rule_complaints(files)) + list(order_complaints()) + list(name_complaints(files))
    complaints += list(constant_complaints()) + list(figure_complaints())
    complaints += list(definition_complaints()) + list(law_complaints())
    complaints += list(table_complaints()) + sorted(set(believed_complaints()))
    for complaint in complaints or ["names: all that is cited exists"]:
        print(complaint)
    return 1 if complaints and complaints[0] != "names: all that is cited exists" else 0


if __name__ == "__main__":
    sys.exit(main(sys.argv[1:]))
