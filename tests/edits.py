#!/usr/bin/env python3
"""Holds each must-fail edit to the reason for which it is refused.

usage: tests/edits.py [--said FILE] [CRATE..]
       tests/edits.py --list | --forms | --try

A file crates/CRATE/must-fail/NAME.edit holds one edit, whose label is NAME, or several of different functions of the crate, each
after a line `label: LABEL`. One check refuses them all, so that the kit's word on the file does not say that each is refused. What
each has to break stands in a line of its own, `refused: WHERE`: a function of the crate, a law of its proofs, or a part of a law that
is a record, `refused: LAW PART`.

Each label needs an error in the proof of its function, or in its law, that is the edit's own: not one that follows from another
refusal (a name that was not admitted, a function that calls one that is not proved), nor a goal that the changed code no longer has.
Goals and facts are named after the code, `if-n-eq0` after `n == 0`. Where an edit turns such a name, the function's proof is tried again
with the name that the check has in its place, so that what is refused is a fact.

`rt ci` and `rt must-fail` print of each file the first error alone. --said FILE is what `rt ci` printed: a label that this first error
is about needs nothing more. Each other file is checked once more here, in a copy of its crate outside the repository, where all that
the check says is read. Without --said that is each file, or each of the crates that are named.

  --list   prints each label with its file and what it breaks, and checks nothing
  --forms  says whether each label stands once and names what it breaks, and checks nothing
  --try    puts a harmless edit into a group of a copy of one crate, and finds it

Exit status 0 if every label has such an error, else 1, with a line for each that has none.
"""
import difflib
import os
import re
import shutil
import subprocess
import sys
import tempfile
from concurrent.futures import ThreadPoolExecutor
from pathlib import Path

ROOT = Path(__file__).resolve().parent.parent
# What an error says that follows from another refusal, or from the code's new shape.
FOLLOWS = re.compile(r"was not admitted|was rejected|is not in scope|has no (?:`|field )|is already declared|which is not proved")
# The file and line of an error, the declaration that has it, and what it says.
ERROR = re.compile(r"(?:\./)?((?:specs|proofs)/\S+\.antt):(\d+):\d+: error: `([^`]+)`: (.*)")
PARTS = ("src", "specs", "proofs")
# How often names that an edit turned are followed.
ROUNDS = 4
# The memory in KB that a check may take.
MEMORY = 3_000_000


class Edit:
    """A labelled edit: its crate, the file that holds it, and the function or law that has to fail."""

    def __init__(self, path, label):
        self.crate = path.parent.parent.name
        self.file = path.stem
        self.label = label
        self.where = None
        self.changes = 0

    def __str__(self):
        return f"{self.crate}/{self.label}"


def edits_of(path):
    """The edits of a file, read as the kit reads it: lines that begin otherwise are passed over."""
    found = []
    for line in path.read_text().split("\n"):
        key, _, value = line.partition(": ")
        if key == "label" or not found and key in ("refused", "file"):
            found.append(Edit(path, value if key == "label" else path.stem))
        if key == "refused":
            found[-1].where = value
        if key == "old":
            found[-1].changes += 1
    return found


def all_edits(root):
    paths = sorted((root / "crates").glob("*/must-fail/*.edit"))
    return [edit for path in paths for edit in edits_of(path)]


def form_complaints(edits):
    """Labels that stand twice, change nothing, do not say what they break, or share a group with another of that function."""
    seen, broken = set(), set()
    for edit in edits:
        place = (edit.crate, edit.file, edit.where)
        if str(edit) in seen:
            yield f"{edit}: a label that stands twice"
        if not edit.where or not edit.changes:
            yield f"{edit}: no line `refused: WHERE`, or nothing changed"
        elif place in broken:
            yield f"{edit}: its file has another edit that breaks {edit.where}"
        seen.add(str(edit))
        broken.add(place)


def line_at(path, number):
    lines = path.read_text().split("\n") if path.is_file() else []
    return lines[number - 1] if number <= len(lines) else ""


def function_at(path, number):
    """The function whose text a line of a source file is in."""
    lines = path.read_text().split("\n")[:number] if path.is_file() else []
    heads = [re.match(r'\s*(?:pub(?:\(\w+\))? )?(?:unsafe )?(?:extern "C" )?(?:const )?fn (\w+)', line) for line in lines]
    return next((head.group(1) for head in reversed(heads) if head), None)


def own_errors(said, crate):
    """What fails by itself in what a check of a crate says: functions, laws, and of a law that is a record its parts too, as `rows
    fourteen`. The crate is the folder that was checked: lines are read there."""
    found, changed, opened = set(), set(), set()
    for line in said.split("\n"):
        error = ERROR.match(line)
        if error:
            place, number, name, reason = error.groups()
            proof = re.search(r"proofs/(?:.*/)?([^/]+)/(?:Answers|Invariants|Proof)\.antt$", place)
            if FOLLOWS.search(reason):
                changed |= {proof.group(1)} if proof else set()
                continue
            found.add(proof.group(1) if proof else name)
            part = re.match(r"\s+(\w+) =", line_at(crate / place, int(number)))
            if part:
                found.add(f"{name} {part.group(1)}")
        # a goal that is open, at values that the check knows
        false = re.match(r"note: (?:\./)?(src/\S+\.rt):(\d+):\d+: it is not proved .* allow values at which this goal is false", line)
        if false:
            found.add(function_at(crate / false.group(1), int(false.group(2))))
        # a goal that has no answer, and that the check does not close
        made = re.match(r"fn \w+(?:::\w+)*::(\w+): no proof: .*`search` did not prove", line)
        if made:
            opened.add(made.group(1))
    # Where the edit took away what the function's own files name, a goal without an answer may be another form of one that had it.
    return found | (opened - changed)


def alike(name, others, has):
    """The name among others that is most like one: of the same kind, of the same branch, and not in the files that have this text."""
    def kind(of):
        parts = of.split("-")
        return parts[0], "then" in parts, "else" in parts

    near = [it for it in others if kind(it) == kind(name) and not re.search(rf"(?<![\w'-]){re.escape(it)}(?![\w'-])", has)]
    close = difflib.get_close_matches(name, near, 1, 0.7)
    return close[0] if close else None


def turned_names(said, crate):
    """The names that functions' proofs cite and that the changed code has in another form, by the folder of the proof."""
    asked = {}
    for name, rest in re.findall(r"^help: `\w+` has no `([^`]+)`; rattle asks for ([^;\n]*)", said, re.M):
        asked.setdefault(name, []).extend(re.findall(r"`([^`]+)`", rest))
    found = {}
    for line in said.split("\n"):
        error = ERROR.match(line)
        proof = error and re.search(r"^(proofs/.*)/(?:Answers|Invariants)\.antt$", error.group(1))
        if not proof:
            continue
        goal = re.search(r"has no `([^`]+)` that can be named from here", error.group(4))
        field = re.search(r"has no field `([^`]+)` \(nearest: ([^)]*)\)", error.group(4))
        name = goal or field
        if name:
            others = asked.get(goal.group(1), re.findall(r"`([^`]+)`", error.group(4)[goal.end():])) if goal else re.findall(r"\.([\w'-]+)", field.group(2))
            has = "".join(path.read_text() for path in sorted((crate / proof.group(1)).glob("*.antt"))) if goal else ""
            new = alike(name.group(1), others, has)
            if new:
                found.setdefault(proof.group(1), {})[name.group(1)] = new
    return found


def follow(names, crate):
    """Puts names in the place of others in the proofs of a copy of a crate."""
    for folder, turned in names.items():
        for path in sorted((crate / folder).glob("*.antt")):
            one = re.compile("(?<![\\w'-])(?:" + "|".join(map(re.escape, turned)) + ")(?![\\w'-])")
            path.write_text(one.sub(lambda found: turned[found.group(0)], path.read_text()))


def needed(root, crate):
    """A crate and all that it uses of the repository."""
    lines = [line.partition("#")[0] for line in (root / "crates.txt").read_text().split("\n")]
    uses = {line.split(":")[0].split()[0]: line.partition(":")[2].split() for line in lines if line.strip()}
    found, left = set(), [crate]
    while left:
        name = left.pop()
        if name in uses and name not in found:
            found.add(name)
            left += uses[name]
    return sorted(found)


def copy_of(root, crate, to):
    """A repository of one crate and what it uses, without its edits."""
    (to / ".git").mkdir(parents=True)
    names = needed(root, crate)
    lines = (root / "crates.txt").read_text().split("\n")
    kept = [line for line in lines if line.partition(":")[0].split()[:1] and line.partition(":")[0].split()[0] in names]
    (to / "crates.txt").write_text("\n".join(kept) + "\n")
    for name in names:
        for part in PARTS:
            if (root / "crates" / name / part).is_dir():
                shutil.copytree(root / "crates" / name / part, to / "crates" / name / part)
    return to / "crates" / crate


def apply(path, crate):
    """Makes the changes of an edit's file in a copy of its crate."""
    place = old = None
    for line in path.read_text().split("\n"):
        key, _, value = line.partition(": ")
        if key == "file":
            place = crate / value
        elif key == "old":
            old = value
        elif line.startswith("new:"):
            text = place.read_text()
            if text.count(old) != 1:
                raise ValueError(f"{path.name}: {old!r} stands {text.count(old)} times")
            place.write_text(text.replace(old, line[len("new:"):].removeprefix(" ")))


def refused(copy, wanted):
    """What fails by itself in a changed copy of a crate, and what the last check said."""
    found = set()
    for _ in range(ROUNDS):
        words = ["rt", "check", "--jobs", "1"]
        ran = subprocess.run(words, cwd=copy, stdin=subprocess.DEVNULL, stdout=subprocess.PIPE, stderr=subprocess.STDOUT, text=True, errors="replace")
        found |= own_errors(ran.stdout, copy) if ran.returncode == 1 else set()
        names = turned_names(ran.stdout, copy)
        if wanted <= found or not names:
            break
        follow(names, copy)
    return found, ran.stdout


def checked(root, crate, files):
    """What fails by itself with each of these files of a crate's edits, and what the check said, by the file's name. The files are
    given with what is wanted of each."""
    found = {}
    with tempfile.TemporaryDirectory(prefix="edits-") as folder:
        copy = copy_of(root, crate, Path(folder).resolve() / "copy")
        for file in files:
            for part in PARTS:
                shutil.rmtree(copy / part, ignore_errors=True)
                if (root / "crates" / crate / part).is_dir():
                    shutil.copytree(root / "crates" / crate / part, copy / part)
            try:
                apply(root / "crates" / crate / "must-fail" / f"{file}.edit", copy)
            except (ValueError, OSError) as error:
                found[file] = set(), str(error)
                continue
            found[file] = refused(copy, files[file])
    return found


def at_once():
    """How many checks the machine bears side by side."""
    free = re.search(r"MemAvailable:\s+(\d+)", Path("/proc/meminfo").read_text())
    return max(1, min(len(os.sched_getaffinity(0)), int(free.group(1)) // MEMORY if free else 1))


def settled_by(said, root):
    """What `rt ci` says that each file's first error is about, by crate and file."""
    found = {}
    for crate, file, text in re.findall(r"^(?:rt: )?must-fail (\w+)/(\S+)\.edit: refused, as it must be: (.*)$", said, re.M):
        found[crate, file] = own_errors(text, root / "crates" / crate)
    return found


def reason_complaints(root, edits, said=""):
    """The labels that have no error of their own, and how many files were checked once more."""
    first = settled_by(said, root)
    left = {}
    for edit in edits:
        if edit.where not in first.get((edit.crate, edit.file), ()):
            left.setdefault(edit.crate, []).append(edit)
    tried = {}
    with ThreadPoolExecutor(at_once()) as pool:
        wanted = {crate: {it.file: {its.where for its in edits if (its.crate, its.file) == (crate, it.file)} for it in its} for crate, its in left.items()}
        jobs = {crate: pool.submit(checked, root, crate, files) for crate, files in wanted.items()}
        for crate, job in jobs.items():
            for file, (errors, text) in job.result().items():
                tried[crate, file] = errors, text
    complaints = []
    for edit in [it for its in left.values() for it in its]:
        errors, text = tried[edit.crate, edit.file]
        if edit.where not in errors:
            names = ", ".join(sorted(it for it in errors if it)) or "nothing"
            complaints.append(f"{edit}: {edit.where} is not refused by itself; what is: {names}")
            if not errors:
                complaints += text.rstrip("\n").split("\n")[-8:]
    return complaints, len(tried)


# A change that keeps every promise of `kept`, in a group of the crate.
TRIED = "fabric_arbiter"
HARMLESS = """label: harmless
refused: kept
file: src/lib.rt
old:     if 1 < beats { 0 } else { remaining }
new:     if 2 <= beats { 0 } else { remaining }
"""


def try_harmless():
    with tempfile.TemporaryDirectory(prefix="edits-") as folder:
        copy = Path(folder).resolve() / "tried"
        crate = copy_of(ROOT, TRIED, copy)
        kept = (ROOT / "crates" / TRIED / "must-fail/group-1.edit").read_text().split("\n\n")[0]
        (crate / "must-fail").mkdir()
        (crate / "must-fail/group-1.edit").write_text(f"{kept}\n\n{HARMLESS}")
        said = subprocess.run(["rt", "must-fail", TRIED], cwd=copy, stdin=subprocess.DEVNULL, capture_output=True, text=True)
        edits = all_edits(copy)
        complaints, _ = reason_complaints(copy, edits, said.stdout)
    found = [line for line in complaints if line.startswith(f"{TRIED}/harmless: kept is not refused by itself")]
    if said.returncode == 0 and complaints == found and len(found) == 1 and len(edits) == 2:
        return [f"edits: a harmless edit in a group of {TRIED} is found"], 0
    return [f"edits: a harmless edit in a group of {TRIED} is not found:", said.stdout, said.stderr, *complaints], 1


def judge(arguments):
    said = ""
    if arguments[:1] == ["--said"] and len(arguments) > 1:
        said, arguments = Path(arguments[1]).read_text(errors="replace"), arguments[2:]
    edits = all_edits(ROOT)
    complaints = list(form_complaints(edits))
    edits = [edit for edit in edits if not arguments or edit.crate in arguments]
    files = len({(edit.crate, edit.file) for edit in edits})
    again = 0
    if not complaints:
        complaints, again = reason_complaints(ROOT, edits, said)
    done = f"edits: {len(edits)} labels in {files} files, each refused by an error of its own; {again} files were checked once more"
    return complaints or [done], 1 if complaints else 0


def main(arguments):
    if arguments == ["--list"]:
        lines, status = [f"{edit} {edit.file} {edit.where}" for edit in all_edits(ROOT)], 0
    elif arguments == ["--forms"]:
        complaints = list(form_complaints(all_edits(ROOT)))
        lines, status = complaints or ["edits: each label stands once and names what it breaks"], len(complaints) and 1
    elif arguments == ["--try"]:
        lines, status = try_harmless()
    elif arguments and arguments[0] != "--said" and arguments[0].startswith("-"):
        print(__doc__, end="", file=sys.stderr)
        return 2
    else:
        lines, status = judge(arguments)
    print("\n".join(lines))
    return status


if __name__ == "__main__":
    sys.exit(main(sys.argv[1:]))
