#!/usr/bin/env python3
"""Spells this repository's own definitions and lemmas as today's Rattle does: words in snake case, an apostrophe for a prime. Run once,
behind the toolchain's port.py, at the top of the repository; a second run changes nothing.

usage: tools/port_names.py [--say]     --say prints the names, old and new, and writes nothing

A name turns where it is a whole word of antt (specs/, proofs/, clauses, `ghost use` lines and the texts of must-fail edits), but for the
names of goals that a function's proof declares. In comments and pages a name turns only where its old spelling is no English.
A lemma whose name would meet that of the definition that it is about gets `_lem` behind it."""
import collections
import os
import re
import sys

WORD = re.compile(r'[^\s(){}.;,@"«»\[\]|⌜⌝]+')
FUNCTION = re.compile(r"/proofs/.+/(Proof|Answers|Invariants)\.antt$")
DECLARED = re.compile(
    r"(?m)^ *(?:(?:pub|abbrev|unfoldable|data|record|ruleset) )*([^\s(){}.;,@\"«»]+)(?: \{[^{}\n]*\}| \([^()\n]*\))* *:(?!:)"
)
# Lemmas that an earlier script gave the spelling of a definition, each with the file that declares it.
LEMMAS = {
    "written_byte": ["seat_laws/specs/laws/Kept"],
    "write_byte": ["register_header/specs/laws/Disjoint"],
    "read_back": ["save_laws/specs/laws/ReadBack", "register_laws/specs/laws/Sizes"],
    "written_back": ["register_header/specs/laws/Restore"],
    "bridge_in": ["rack_laws/specs/laws/Depths", "file_record/proofs/Records"],
    "tree_with": ["save_laws/specs/laws/Decoded"],
    "node_in": ["save_laws/specs/laws/Records"],
    "first_by": [],
    "is_below": ["bus_reset/proofs/Written"],
}
# Names that a definition or the library has in the new spelling.
MET = {"bit-and", "bit-or", "no-node", "is-empty", "is-a", "first-at"}
# The definition of an answer with the images that it leaves: `result` is a word of clauses now.
RESULT = "Rattle.register_image.specs.definitions.Image."


def texts():
    for folder, inner, names in os.walk("crates"):
        inner[:] = sorted(d for d in inner if d != "out")
        for name in sorted(names):
            if name.endswith((".antt", ".rt", ".edit")):
                yield os.path.join(folder, name)


def plain(name):
    new = name.replace("-", "_") if re.search(r"\w-\w", name) else name
    return re.sub(r"(?<=[a-z0-9])[A-Z]", lambda m: "_" + m[0].lower(), new) if new[:1].islower() else new


def table(files):
    """Each name that the specs and the shared lemmas declare and that turns, with its new spelling."""
    old = set()
    for path, text in files.items():
        if path.endswith(".antt") and not FUNCTION.search(path):
            old |= {m[1] for m in DECLARED.finditer(text) if "◌" not in m[1] and re.match(r"\w", m[1])}
    turned = {n: plain(n) for n in old if plain(n) != n}
    by_new = collections.defaultdict(set)
    for n, new in turned.items():
        by_new[new].add(n)
    for n in turned:
        if "-" in n and (n in MET or len(by_new[turned[n]]) > 1):
            turned[n] += "_lem"
    return turned


def path_of(module):
    return "Rattle." + module.replace("/", ".")


def cut(text, comment):
    """The text in pieces, each with whether it is a comment."""
    at = 0
    for m in re.finditer(comment + r"[^\n]*", text):
        yield text[at : m.start()], False
        yield m[0], True
        at = m.end()
    yield text[at:], False


def clauses(text):
    """Turns the clauses that kept their λ: `ensures* { λ r. ⌜ P ⌝ }` is `ensures { P }` with `result` for r."""

    def one(m):
        name, body = m[2], m[3]
        body = re.sub(r"(?<![\w.])result(?=\s)", "result_of", body)
        if name != "_":
            body = re.sub(rf"(?<![\w.-]){re.escape(name)}(?![\w'-])", "result", body)
        return f"ensures{m[1] or ''} {{ {body} }}"

    return re.sub(r"ensures\*( \w+)? \{ λ (\w+)\. ⌜ ([^\n⌜⌝]*) ⌝ \}", one, text)


def turn(path, text, names, files):
    own = {}
    if FUNCTION.search(path):
        skipped = {m[1] for m in DECLARED.finditer(text)}
    else:
        skipped = set()
    for lemma, modules in LEMMAS.items():
        for module in modules:
            if path == f"crates/{module}.antt" or re.search(rf"{re.escape(path_of(module))}\.\{{[^}}]*(?<![\w-]){lemma}(?![\w-])", text):
                own[lemma] = lemma + "_lem"
    if path.endswith(".antt") and re.search(re.escape(RESULT) + r"\{[^}]*\bresult\b", text) or path.endswith("register_image/specs/definitions/Image.antt"):
        own["result"] = "result_of"

    def word(m, comment):
        w = m[0]
        if comment:
            core = w.strip("`'’:")
            return w.replace(core, names[core]) if core in names and "-" not in core else w
        if w in own and not (m.start() and m.string[m.start() - 1] == "." and w == "result"):
            return own[w]
        bare = w.rstrip("'")
        return w if w in skipped or w not in names and bare not in names else names.get(w) or names[bare] + w[len(bare) :]

    if path.endswith(".rt"):
        text = re.sub(re.escape(RESULT) + r"\{([^}]*)\}", lambda m: RESULT + "{" + re.sub(r"\bresult\b", "result_of", m[1]) + "}", clauses(text))
    comment = "//" if path.endswith(".rt") else r"(?<![^\s(){}.;,@])--" if path.endswith(".antt") else r"^#"
    return "".join(WORD.sub(lambda m: word(m, is_comment), piece) for piece, is_comment in cut(text, comment)).replace("′", "'")


def pages():
    for folder, inner, found in os.walk("."):
        inner[:] = [d for d in inner if d not in (".git", "crates", "target", "out")]
        yield from (os.path.join(folder, f) for f in found if f.endswith(".md"))


def main():
    files = {}
    for path in texts():
        with open(path, encoding="utf-8") as file:
            files[path] = file.read()
    names = table(files)
    if "--say" in sys.argv:
        for old, new in sorted(names.items()):
            print(old, new)
        return
    for path, text in files.items():
        new = turn(path, text, names, files)
        if new != text:
            with open(path, "w", encoding="utf-8") as file:
                file.write(new)
    camel = {old: new for old, new in names.items() if re.fullmatch(r"[a-z][a-z0-9]*([A-Z][a-z0-9]*)+", old)}
    for path in pages():
        with open(path, encoding="utf-8") as file:
            text = file.read()
        new = re.sub(r"(?<![\w-])[a-z][A-Za-z0-9]*(?![\w-])", lambda m: camel.get(m[0], m[0]), text)
        if new != text:
            with open(path, "w", encoding="utf-8") as file:
                file.write(new)


main()
