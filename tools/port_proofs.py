#!/usr/bin/env python3
"""Turns the Proof.antt files of crates into Invariants.antt and Answers.antt.

usage: tools/port_proofs.py CRATE..     at the top of the repository, where the crates below are proved

An answer that only searches the rules goes: the check finds it. Steps and goals get the names that `rt check --generated --old-names` gives.
What is not understood is said on a line that begins 'left:'; the old files stand below the folder of temporary files, in port-proofs/."""
import json
import os
import re
import subprocess
import sys
import tempfile

ROOM = os.path.join(tempfile.gettempdir(), "port-proofs")
WORD = r"[^\s(){}.;,@\"«»\[\]|]+"


def plain(name):
    name = name.lower().replace("_", "-")
    return re.sub(r"-lem(?=\d*$)", "", name)


def blocks(text):
    block = []
    for line in text.split("\n"):
        if not line.strip() and block:
            yield block
            block = []
        elif line.strip():
            block.append(line)
    if block:
        yield block


class Function:
    def __init__(self, rows):
        self.rows = rows
        self.places = {p[0]: p for p in rows["places"]}
        self.needs = rows["needs"]
        self.at = [a[0] for a in rows["asked_at"]]
        self.used = set()

    def need(self, label):
        p = plain(label)
        forms = {p}
        for head in ("overflow-", "bounds-", "slice-", "nonzero-", "slice-bounds-"):
            if p.startswith(head):
                forms.add(p[len(head) :])
        for i, (old, new) in enumerate(self.needs):
            if plain(old) in forms and i not in self.used:
                self.used.add(i)
                return i, new
        for i, (old, new) in enumerate(self.needs):
            if plain(new) in forms and i not in self.used:
                self.used.add(i)
                return i, new
        return None, None

    def step(self, place, befores, field):
        """The new name of a step that is `field` of the place some steps before the one given."""
        here = place
        for _ in range(befores):
            here = self.places[here][1] if here in self.places else None
        first = here
        while here:
            row = self.places.get(here)
            if not row:
                break
            if plain(row[2][0]) == plain(field):
                return row[2][1]
            here = row[1]
        here = place
        while here:
            row = self.places.get(here)
            if not row:
                break
            if plain(row[2][0]) == plain(field) or plain(row[2][1]) == plain(field):
                return row[2][1]
            here = row[1]
        return None


def without_aliases(body):
    """The body with each `let x = c.before.. in` written out."""
    while m := re.search(r"let (\w[\w-]*) = (c(?:\.before)*) in\s*", body):
        body = body[: m.start()] + re.sub(rf"(?<![\w.-]){re.escape(m[1])}(?![\w-])", m[2], body[m.end() :])
    return body


def turn_paths(body, function, place, left):
    body = without_aliases(body)

    def one(m):
        befores = m[1].count(".before")
        rest = m[2]
        if not rest:
            return "c"
        head, *tail = rest[1:].split(".")
        for arm in function.rows["arms"]:
            for field, old, way in arm[2] if arm else []:
                if way and plain(old) == plain(head) and tail[: len(way)] == way:
                    return "c." + ".".join([arm[0], field, *tail[len(way) :]])
        for old, new in function.rows["args"]:
            if f".{head} .{'.'.join(tail[:1])}" == old:
                return "c" + new.replace(" ", "") + "".join("." + t for t in tail[1:])
        if head in ("args", "requires", "ranges", "type_inv"):
            return "c." + ".".join([head, *tail])
        if re.fullmatch(r"t\d+", head):
            left.append(f"path c{m[1]}{rest}")
            return m[0]
        new = function.step(place, befores, head)
        if new is None:
            left.append(f"path c{m[1]}{rest}")
            return m[0]
        return "c." + ".".join([new, *tail])

    return re.sub(r"(?<![\w.-])c((?:\.before)*)((?:\.[\w'-]+)*)(?![\w-])", one, body)


def renamed(term, names):
    """The term with its free names turned; a name that a λ binds stays to the end of that λ."""
    out, at, depth, hidden = [], 0, 0, []
    for m in re.finditer(rf"λ ([^.]*)\.|[()]|{WORD}", term):
        out.append(term[at : m.start()])
        at = m.end()
        word = m[0]
        if m[1] is not None:
            hidden.append((depth, re.findall(WORD, m[1])))
        elif word == "(":
            depth += 1
        elif word == ")":
            depth -= 1
            hidden = [h for h in hidden if h[0] <= depth]
        elif word in names and term[m.start() - 1 : m.start()] != "." and not any(word in h[1] for h in hidden):
            word = names[word]
        out.append(word)
    return "".join(out) + term[at:]


def convert(crate, path, folder, rows, left):
    with open(path, encoding="utf-8") as file:
        text = file.read()
    f = Function(rows)
    uses, answers, invariants, helpers = [], [], [], []
    comments = []
    head = True
    pending = []
    for block in blocks(text):
        lead = [l for l in block if l.startswith("--")]
        code = [l for l in block if not l.startswith("--")]
        while code and code[0].startswith("use "):
            line = code.pop(0)
            if re.search(r"\.(Statement\.\{statement\}|Tie as tie|Tie\.\{)", line) or "borrow.Fn." in line:
                continue
            uses.append(line)
        if not code:
            if lead and not uses:
                comments += lead
            continue
        text_ = "\n".join(code)
        m = re.match(rf"(?:pub )?(?:abbrev )?({WORD}) :", code[0])
        name = m[1] if m else None
        if "tie.close" in text_ or re.search(r": \{M : Type 1\} → statement M", text_):
            continue
        need = re.match(rf"{WORD} : tie\.Need-({WORD})((?: {WORD})*)$", code[0])
        if need:
            i, new = f.need(need[1])
            rest = code[1:]
            unfolding = [l for l in rest if l.startswith("unfolding ")]
            rest = [l for l in rest if not l.startswith("unfolding ")]
            body = "\n".join(rest)
            b = re.match(rf"{re.escape(name)}((?: {WORD})*?) =\s*(.*)$", body, re.S)
            if not b:
                left.append(f"{path}: {name}: not understood")
                continue
            term = b[2].strip()
            if term == "search rules" and not unfolding:
                continue
            if new is None:
                settled = [plain(s) for s in rows["settled"]]
                left.append(f"{path}: {need[1]}: no goal of that name{' (settled)' if plain(need[1]) in settled else ''}: {term[:100]}")
                continue
            said = []
            term = turn_paths(term, f, f.at[i] if i < len(f.at) else None, said)
            for s in said:
                left.append(f"{path}: {new}: {s}")
            if "\n" in term or len(term) > 120:
                term = "\n    " + re.sub(r"\n\s*", "\n    ", term)
            else:
                term = " " + term
            answers.append("\n".join([*lead, f"pub {new} : goal.{new}", *unfolding, f"{new} c ={term}"]))
            continue
        inv = re.match(rf"abbrev ({WORD}) : tie\.(invariant|decreases)-({WORD})$", code[0])
        if inv:
            for (old, new), variables in rows["loops"]:
                if plain(old) == plain(inv[3]):
                    break
            else:
                left.append(f"{path}: {inv[1]}: no loop of that name")
                continue
            at = [i for i, l in enumerate(rows["loops"]) if l[0][0] == old][0]
            changed = rows["changed"][at]
            body = "\n".join(code[1:])
            b = re.match(rf"{re.escape(inv[1])}((?: {WORD})*?) =\s*(.*)$", body, re.S)
            bound = b[1].split()
            term = b[2].strip()
            finals = {}
            olds = [x for x in bound if x.endswith("₀")]
            stay = [x for x in bound if not x.endswith("₀")]
            for x in bound:
                if x.endswith("₀"):
                    base = x[:-1]
                    finals[x] = "l.initial." + base
                else:
                    finals[x] = "l." + x
            if sorted(v for v in variables) != sorted(x for x in stay):
                left.append(f"{path}: {inv[1]}: binds {' '.join(stay)}; the loop has {' '.join(variables)}")
            term = renamed(term, finals)
            kind = inv[2] + "-" + new
            sep = "\n    " if "\n" in term or len(term) > 110 else " "
            invariants.append("\n".join([*lead, f"abbrev pub {kind} : goal.{kind}", f"{kind} l ={sep}{term}"]))
            continue
        helpers.append("\n".join([*lead, *code]))
    out = {}
    module = f"Rattle.{crate}.proofs." + ".".join(folder.split("/"))
    rules = "use borrow.Author.Rules.{rules}"

    def needed(use, body):
        m = re.search(r"\.\{(.*)\}", use)
        if not m:
            m = re.search(r" as (\S+)$", use)
            return not m or re.search(rf"(?<![\w.-]){re.escape(m[1])}\.", body)
        for n in m[1].split(", "):
            n = n.split(" as ")[-1]
            if "◌" in n:
                if all(part in body for part in n.split("◌") if part):
                    return True
            elif re.search(rf"(?<![\w-]){re.escape(n)}(?![\w-])", body):
                return True
        return False

    if invariants:
        body = "\n\n".join([*[h for h in helpers if any(re.search(rf"(?<![\w-]){re.escape(h.split()[1 if h.startswith('abbrev') else 0])}(?![\w-])", i) for i in invariants)], *invariants])
        lines = [u for u in uses if needed(u, body)]
        out["Invariants.antt"] = "\n".join([*lines, f"use {module}.Given as goal", "", body, ""])
    if answers:
        body = "\n\n".join([*helpers, *answers])
        lines = [u for u in uses if needed(u, body)]
        out["Answers.antt"] = "\n".join([*comments, *lines, f"use {module}.Goals as goal", "", body, ""])
    return out


def main():
    for crate in sys.argv[1:]:
        where = os.path.join("crates", crate)
        made = os.path.join(ROOM, "names", crate)
        os.makedirs(made, exist_ok=True)
        said = subprocess.run(["rt", "check", "--generated", made, "--old-names"], cwd=where, capture_output=True, text=True)
        try:
            with open(os.path.join(made, "names.json")) as file:
                rows = json.load(file)
        except OSError:
            print(f"left: {crate}: no names: {said.stdout[-1500:]}{said.stderr[-500:]}")
            continue
        left = []
        for top, _, found in os.walk(os.path.join(where, "proofs")):
            if "Proof.antt" not in found:
                continue
            folder = os.path.relpath(top, os.path.join(where, "proofs"))
            key = f"Rattle-{crate}-proofs.{folder.replace('/', '.')}.Lts"
            path = os.path.join(top, "Proof.antt")
            if key not in rows:
                left.append(f"{path}: not among the names")
                continue
            out = convert(crate, path, folder, rows[key], left)
            keep = os.path.join(ROOM, "old", crate, folder)
            os.makedirs(keep, exist_ok=True)
            os.replace(path, os.path.join(keep, "Proof.antt"))
            for name, text in out.items():
                with open(os.path.join(top, name), "w", encoding="utf-8") as file:
                    file.write(text)
            if not out:
                os.rmdir(top)
        for line in left:
            print("left:", line)


main()
