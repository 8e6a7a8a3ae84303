#!/usr/bin/env python3
"""Turns the proofs that answer an older Rattle's goals (proofs/F/Proof.antt) to Invariants.antt and Answers.antt.

usage: tools/port_proofs.py NAMES CRATE..      at the top of the repository, once for each crate

NAMES is a folder that `rt names NAMES` wrote at the top: the old and the new name of each goal, step and place. Answers that say
only `search rules` go, since the check tries that itself. What it cannot turn stays as Proof.antt, and is named.
"""

import glob
import json
import os
import re
import sys

FIELDS = {"taken": "true", "left": "false", "inv": "invariant", "pre": "requires", "type-inv": "type_inv", "post": "ensures"}
TRIVIAL = {"search rules", "tt", "omega arith", "search needs"}


def norm(name):
    name = name.replace("_", "-").lower()
    name = re.sub(r"-lem(?=-|\d|$)", "", name)
    return re.sub(r"^overflow-", "", name)


NAME = r"[^\s(){}\[\].,;@\"«»]+"
STEP = {"ensures", "result", "true", "false", "taken", "left", "new", "auto", "kept", "invariant", "inv", "given", "branch", "requires", "is", "res"}


class Function:
    def __init__(self, names, clauses):
        self.needs = {norm(a): b for a, b in names["needs"]}
        self.steps, self.places, self.parent, self.depth = {}, {}, {}, {}
        self.callee, self.clauses, self.loop_steps = {}, clauses, set()
        for (place, parent, step, callee, *_), new in zip(names["places"], names["places_by_name"]):
            self.steps[norm(step[0])] = step[1]
            self.callee[norm(step[0])] = callee
            self.places[norm(place)] = new
            self.parent[norm(place)] = norm(parent) if parent else None
            if norm(place).startswith("at-loop"):
                self.loop_steps.add(norm(step[0]))
        self.params = names["params"]
        self.arms = {}
        for arm in names["arms"]:
            if arm:
                for field, step, path in arm[2]:
                    if not field.endswith("-own"):
                        self.arms[(norm(step), tuple(path))] = arm[0] + "." + field
        self.loops = []
        for (loop, new), variables in [(l[0], l[1]) for l in names["loops"]]:
            self.loops.append((loop, new, variables, names["changed"][len(self.loops)]))
        self.named, self.helpers, self.hops, self.answers = set(), {}, {}, {}
        self.own = None
        self.looks = []

    # ---- terms that are places

    def expression(self, text, i, env):
        """A term at i that is a place: its place, its root and where it ends, or None."""
        if i < len(text) and text[i] == "(":
            got = self.application(text, i + 1, env)
            if not got:
                return None
            place, root, j = got
            if j >= len(text) or text[j] != ")":
                return None
            j += 1
        else:
            m = re.compile(NAME).match(text, i)
            if not m or m[0] not in env:
                return None
            (place, root), j = env[m[0]], m.end()
        m = re.compile(r"(?:\.before(?![\w'-]))+").match(text, j)
        if m:
            for _ in range(m[0].count(".before")):
                place = self.parent.get(place) if place else None
            j = m.end()
        return place, root, j

    def application(self, text, i, env):
        m = re.compile("(" + NAME + r")\s+").match(text, i)
        if m and m[1] in self.hops:
            got = self.expression(text, m.end(), env)
            return (self.hops[m[1]], got[1], got[2]) if got else None
        return self.expression(text, i, env)

    def fields(self, fields):
        """The new spelling of the fields that follow a context."""
        first = norm(fields[0])
        for n in range(len(fields), 0, -1):
            got = self.arms.get((first, tuple(fields[1 : 1 + n])))
            if got:
                return got.split(".") + fields[1 + n :]
        rest = [FIELDS.get(f, f) for f in fields[1:]]
        if first == "requires" or first == "pre":
            return ["requires"] + self.clause(self.own, "requires", rest)
        if first in self.steps:
            rest = [("requires" if f == "pre" else "auto" if f == "kept" else f) for f in rest]
            if rest and rest[0] in ("new", "auto"):
                rest = [rest[0]] + self.parameter(self.callee.get(first), rest[1:])
            if rest[:1] == ["ensures"]:
                rest = ["ensures"] + self.clause(self.callee.get(first), "ensures", rest[1:])
            return [self.steps[first]] + rest
        return [FIELDS.get(fields[0], fields[0])] + fields[1:]

    def parameter(self, function, rest):
        """A parameter by its name, that was k times 1 and then 0."""
        k = 0
        while k < len(rest) and rest[k] == "1":
            k += 1
        names = self.params.get(function, [])
        if k < len(rest) and rest[k] == "0" and k < len(names):
            return [names[k]] + rest[k + 1 :]
        return rest

    def clause(self, function, kind, rest):
        names = self.clauses.get(function, {}).get(kind, [])
        if len(names) > 1 and rest and rest[0].isdigit() and int(rest[0]) < len(names):
            return [names[int(rest[0])]] + rest[1:]
        return rest

    def term(self, text, env, goal=None):
        """The text with places turned; goal is the goal's new name, or None in a helper."""
        env = dict(env)
        out, i = [], 0
        while i < len(text):
            if text[i - 1 : i].strip() and text[i - 1] not in "([{,;.":
                out.append(text[i])
                i += 1
                continue
            if text[i - 1 : i] == ".":
                out.append(text[i])
                i += 1
                continue
            m = re.compile(r"let (" + NAME + r") =\s+").match(text, i)
            if m:
                got = self.application(text, m.end(), env)
                if got and re.compile(r"\s+in(?=\s)").match(text, got[2]):
                    env[m[1]] = (got[0], got[1])
                    end = re.compile(r"\s+in(?=\s)\s*").match(text, got[2]).end()
                    i = end
                    continue
                if m[1] in env:
                    del env[m[1]]
            got = None if re.compile(NAME + r" = ").match(text, i) and re.search(r"[{;]\s*$", text[:i]) else self.expression(text, i, env)
            if got:
                place, root, j = got
                m = re.compile(r"((?:\." + NAME + r")+)").match(text, j)
                if m:
                    out.append(root + "." + ".".join(self.fields(m[1][1:].split("."))))
                    i = m.end()
                else:
                    out.append(self.argument(place, root, env, goal))
                    i = j
                continue
            m = re.compile(NAME).match(text, i)
            if m:
                if m[0] in self.answers and (i == 0 or text[i - 1] != "."):
                    out.append(self.answers[m[0]])
                elif m[0] == "tie":
                    k = re.compile(r"tie\.(" + NAME + ")").match(text, i)
                    out.append(self.place_name(k[1]))
                    m = k
                else:
                    out.append(m[0])
                i = m.end()
                continue
            out.append(text[i])
            i += 1
        made = re.sub(r" κs\)", ")", "".join(out))
        made = re.sub(r"not-(?:false|true) _ (c\.if-not-[A-Za-z0-9_-]+\.(?:false|true))", r"\1", made)
        made = re.sub(r"\.inv(?![\w'-])", ".invariant", made)
        return re.sub(r"(?: (?:invariant|decreases)-loop\d*)+(?=[\s()]|$)", "", made)

    def argument(self, place, root, env, goal):
        if place is None:
            self.looks.append(f"a place is lost")
            return root
        new = self.places[place]
        at = env["@"]
        if place == at:
            return root
        if goal:
            self.named.add(new)
            return f"(goal.at.{goal} {root}).{new}"
        k, p = 0, at
        while p is not None and p != place:
            p, k = self.parent.get(p), k + 1
        return root + ".before" * k

    def place_name(self, name):
        if name.startswith("Need-"):
            return "goal." + self.needs.get(norm(name[5:]), name)
        new = self.places.get(norm(name), name)
        self.named.add(new)
        return new


def tupled(value, names):
    """The value with its last tuple as a record of these clauses."""
    if len(names) < 2 or not value.rstrip().endswith(")"):
        return value
    v = value.rstrip()
    depth, i = 0, len(v) - 1
    while i >= 0:
        depth += (v[i] in ")]}") - (v[i] in "([{")
        if depth == 0:
            break
        i -= 1
    before = v[:i].rstrip()
    if before and not re.search(r"(?:\bin|=|^)$", before):
        return value
    inner, parts, depth, start = v[i + 1 : -1], [], 0, 0
    for k, ch in enumerate(inner):
        depth += (ch in "([{") - (ch in ")]}")
        if ch == "," and depth == 0:
            parts.append(inner[start:k])
            start = k + 1
    parts.append(inner[start:])
    parts = [x.strip() for x in parts if x.strip()]
    if len(parts) != len(names):
        return value
    return v[:i] + "record {\n      " + "\n      ".join(f"{n} = {x};" for n, x in zip(names, parts)) + "\n    }"


def contract_clauses(root):
    """The names of each function's clauses, by its path, where a kind has several."""
    out = {}
    for path in glob.glob(os.path.join(root, "crates/*/src/**/*.rt"), recursive=True):
        parts = path.split("/src/")
        crate = parts[0].split("/")[-1]
        module = [] if parts[1] in ("lib.rt", "main.rt") else parts[1][:-3].split("/")
        name = None
        for line in open(path):
            m = re.match(r"\s*(?:pub )?(?:extern \"C\" )?fn (\w+)", line)
            if m:
                name = "::".join([crate] + module + [m[1]])
                out[name] = {"requires": [], "ensures": []}
            m = re.match(r"\s+(requires|ensures)(?: (\w+))? \{", line)
            if m and name and m[2]:
                out[name][m[1]].append(m[2])
    return out


def blocks(text):
    """The top-level pieces of a file, each with the comments above it."""
    out, now = [], []
    for line in text.split("\n"):
        if line and not line[0].isspace() and now and not is_open(now, line):
            out.append("\n".join(now).rstrip())
            now = []
        now.append(line)
    if now:
        out.append("\n".join(now).rstrip())
    return [b for b in out if b.strip()]


def is_open(now, line):
    """Whether a line at the margin goes on with the declaration before it."""
    last = next((l for l in reversed(now) if l.strip()), "")
    if all(l.startswith("--") or not l.strip() for l in now):
        return not line.startswith("use ") and bool(now) and now[-1].strip() != ""
    name = declared(now)
    if line.startswith(("unfolding ", ")", "}", "]")):
        return True
    return bool(name) and re.match(re.escape(name) + r"(?=\s|$)", line) is not None and " : " not in line.split("=")[0]


def declared(lines):
    for l in lines:
        if l.startswith("--") or not l.strip():
            continue
        m = re.match(r"(?:(?:abbrev|pub|unfoldable) )*([^\s:]+)", l)
        return m[1] if m else None
    return None


def split(block):
    lines = block.split("\n")
    k = 0
    while k < len(lines) and (lines[k].startswith("--") or not lines[k].strip()):
        k += 1
    return lines[:k], "\n".join(lines[k:])


def substitute(body, table):
    def one(m):
        at, end = m.start(), m.end()
        before, after = body[:at], body[end:]
        if re.match(r"\s*=(?!=)\s", after) and re.search(r"[{;]\s*$", before):
            return m[0]
        return table[m[0]]

    words = "|".join(sorted(map(re.escape, table), key=len, reverse=True))
    for name in table:
        if re.search(r"λ(?: [^\s.()]+)*? " + re.escape(name) + r"(?: [^\s.()]+)*\.|[({]" + re.escape(name) + r"(?: [^:()]+)? : |let " + re.escape(name) + " ", body):
            print(f"  look: {name} is bound again in an invariant")
    return re.sub(r"(?<![^\s(){}\[\],;])(" + words + r")(?=[\s(){}\[\].,;]|$)", one, body)


def turn(path, crate, function, spelled):
    text = open(path).read()
    if "tie.close" not in text:
        return "it walks the code by hand"
    function.own = "::".join([crate] + spelled)
    uses = [l for l in text.split("\n") if l.startswith("use ")]
    rest = re.sub(r"(?:\n+|^)(?:use [^\n]*\n)+", "\n\n", text)
    answers, invariants, header = [], [], []
    inv = r"(?: (?:invariant|decreases)-loop\d*)*"
    for m in re.finditer(r"^abbrev (\S+) : tie\.([A-Z]" + NAME + r")" + inv + r" → tie\.([A-Z]" + NAME + r")" + inv + r"$", rest, re.M):
        function.hops[m[1]] = norm(m[3])
    for m in re.finditer(r"^(?:abbrev )?(\S+) : tie\.Need-(" + NAME + ")", rest, re.M):
        if norm(m[2]) in function.needs:
            function.answers[m[1]] = function.needs[norm(m[2])]
    for b in blocks(rest):
        comments, body = split(b)
        if not body.strip():
            header += comments
            continue
        if re.match(r"pub \S+[-_]spec : ", body):
            continue
        hop = re.match(r"abbrev (\S+) : ", body)
        if hop and hop[1] in function.hops:
            continue
        m = re.match(r"(?:abbrev )?(?:pub )?([^\s:]+) : tie\.(Need-|invariant-|decreases-)([^\s]+)[^\n]*\n(.*)", body, re.S)
        if not m:
            at = re.search(r"\((\S+) : tie\.([A-Z]" + NAME + r")", body) or re.search(r"()\S+ : tie\.([A-Z]" + NAME + r")", body)
            env = {}
            if at:
                place = norm(at[2])
                head = body.split("\n")
                eq = re.search(r"^(\S+) (\S+)(?: \S+)* =", body, re.M)
                root = at[1] or (eq[2] if eq else "c")
                env = {"@": place, root: (place, root)}
            saved, function.answers = function.answers, {}
            answers.append("\n".join(comments + [function.term(body, env)]))
            function.answers = saved
            continue
        name, kind, old, equation = m.groups()
        unfolding = ""
        u = re.match(r"(unfolding [^\n]*\n)(.*)", equation, re.S)
        if u:
            unfolding, equation = u.groups()
        eq = re.match(re.escape(name) + r"((?: [^\s=]+)*) =\s*(.*)", equation, re.S)
        if not eq:
            return f"{name} is not one equation"
        params, value = eq[1].split(), eq[2].rstrip()
        if kind == "Need-":
            new = function.needs.get(norm(old))
            if not new:
                if value in TRIVIAL:
                    continue
                print(f"{path}: look: no goal {old}, left out: {' '.join(value.split())}")
                continue
            if value in TRIVIAL and not unfolding:
                continue
            if new.startswith("shape_of") and (".auto." in value or ".kept." in value):
                continue
            params = [p for p in params if p != "κs"]
            place = function.asked[norm(old)]
            env = {"@": place, params[-1]: (place, params[-1])}
            value = function.term(value, env, new)
            names = function.clauses.get(function.own, {}).get("ensures", []) if new.startswith("returns") else []
            if "-requires" in new:
                k = re.sub(r"-requires.*", "", norm(old))
                called = next((function.callee[s] for s in function.callee if function.callee[s] and re.sub(r"\d+$", "", s) == re.sub(r"\d+$", "", k)), None)
                names = function.clauses.get(called, {}).get("requires", [])
            value = tupled(value, names)
            sep = "\n    " if "\n" in value or len(value) > 90 else " "
            lines = f"pub {new} : goal.{new}\n" + unfolding + " ".join([new] + params) + " =" + sep + value
            answers.append("\n".join(comments + [lines]))
            continue
        k = next((i for i, l in enumerate(function.loops) if norm(l[0]) == norm(old)), None)
        if k is None:
            return f"no loop {old}"
        loop, new, variables, changed = function.loops[k]
        table, names = {}, list(params)
        want = len(variables) + sum(map(bool, changed))
        if len(names) != want:
            return f"{name} has {len(names)} parameters, and the loop {want}"
        for v, c in zip(variables, changed):
            table[names.pop(0)] = f"l.initial.{v}" if c else f"l.{v}"
        for v, c in zip(variables, changed):
            if c:
                table[names.pop(0)] = f"l.{v}"
        table.pop("_", None)
        made = f"{kind}{new}"
        invariants.append("\n".join(comments + [f"abbrev pub {made} : goal.{made}\n{unfolding}{made} l =\n    {substitute(value, table) if table else value}"]))
    folder = os.path.dirname(path)
    module = ".".join(["Rattle", crate, "proofs"] + spelled)
    moved = shared(answers, invariants)
    keep = [u for u in uses if ".Tie as tie" not in u and "Statement.{statement}" not in u]
    if invariants:
        write(os.path.join(folder, "Invariants.antt"), header, keep, f"use {module}.Given as goal", invariants)
    if answers:
        body = "\n".join(answers)
        named = sorted(n for n in function.named if re.search(r"(?:: |\)\.|→ )" + re.escape(n) + r"(?![\w'-])", body))
        if named:
            keep.append(f"use {module}.Goals.{{{', '.join(named)}}}")
        if moved:
            keep.append(f"use {module}.Invariants.{{{', '.join(moved)}}}")
        write(os.path.join(folder, "Answers.antt"), header, keep, f"use {module}.Goals as goal", answers)
    os.remove(path)
    if not invariants and not answers:
        os.rmdir(folder)
    for l in function.looks:
        print(f"{path}: look: {l}")
    return None


def shared(answers, invariants):
    """Moves what the invariants cite from the answers to them, and makes it public."""
    moved, more = [], True
    while more:
        more = False
        for a in list(answers):
            comments, body = split(a)
            name = declared(body.split("\n"))
            cited = re.search(r"(?<![^\s(){}\[\],;])" + re.escape(name or "-") + r"(?![^\s(){}\[\].,;])", "\n".join(invariants))
            if name and not body.startswith("pub ") and cited:
                body = re.sub(r"^((?:abbrev |unfoldable )*)", r"\1pub ", body)
                answers.remove(a)
                invariants.insert(len(moved) - len(moved), "\n".join(comments + [body]))
                moved.append(name)
                more = True
    return moved


def write(path, header, uses, own, parts):
    body = "\n\n".join(parts)
    kept = []
    for u in uses:
        m = re.match(r"use (\S+?)\.\{([^}]*)\}$", u)
        if m:
            leaves = [l.strip() for l in m[2].split(",")]
            leaves = [l for l in leaves if used(l, body)]
            if leaves:
                kept.append(f"use {m[1]}.{{{', '.join(leaves)}}}")
        elif used(u.split()[-1].split(".")[-1], body):
            kept.append(u)
    with open(path, "w") as f:
        f.write("\n".join(header + kept + [own]) + "\n\n" + body + "\n")


def used(leaf, body):
    """Whether a name may be used: operators always."""
    name = leaf.split(" as ")[-1]
    if "◌" in name:
        return all(p in body for p in name.split("◌") if p)
    return re.search(r"(?<![^\s(){}\[\].,;])" + re.escape(name) + r"(?![^\s(){}\[\].,;])", body) is not None


def main(argv):
    names, crates = argv[0], argv[1:]
    clauses = contract_clauses(".")
    for crate in crates:
        table = json.load(open(os.path.join(names, "crates", crate, "names.json")))
        for path in sorted(glob.glob(f"crates/{crate}/proofs/**/Proof.antt", recursive=True)):
            spelled = os.path.dirname(path).split("/")[3:]
            key = f"Rattle-{crate}-proofs." + ".".join(spelled) + ".Lts"
            if key not in table:
                print(f"{path}: left: no names for {key}")
                continue
            function = Function(table[key], clauses)
            function.asked = {norm(a): norm(at[0]) for (a, _), at in zip(table[key]["needs"], table[key]["asked_at"])}
            why = turn(path, crate, function, spelled)
            if why:
                print(f"{path}: left: {why}")
    return 0


if __name__ == "__main__":
    raise SystemExit(main(sys.argv[1:]))
