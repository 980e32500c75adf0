#!/usr/bin/env python3
"""Brings the names of this repository's definitions and lemmas to the library's spelling, once, after the kit's port.py.

usage: python3 tools/respell.py [--list]     at the top of the repository; --list prints 'old new' lines and writes nothing

Words, lemmas, fields and constructors become snake case, a type that began in lower case gets a capital; a prime stays an apostrophe.
A name that begins with a type's name keeps the dash behind it, as All-append, and so does one that has an operator's sign.
The names are those that files of specs/ and lemma files of proofs/ declare. They are turned as whole words in .antt files, in ghost items
and clauses of .rt files (Rust's own names are not in camel case), and in must-fail edits; in comments and pages camel case alone, and the
rest where it stands between backquotes. Functions of src/, exported names, strings, inputs and outputs keep theirs.
Where two names would fall together in one file, a lemma gets _lem behind it, and a field _holds.
"""
import os
import re
import subprocess
import sys
from collections import defaultdict

WORD = re.compile(r"[^\s(){}\[\].,;\"`]+")
# types in lower case whose spelling is also that of a word or a field, by the file that declares them: turned where it is meant, below
# lemmas that port.py gave a definition's new name, and where they stand
LEMMAS = {
    "headBytes": ("head_bytes", ("crates/model/", "crates/ceiling/", "crates/rewrite/")),
    "inPlace": ("in_place", ("crates/model/",)),
    "raisedAt": ("raised_at", ("crates/targets/",)),
}
TYPES = {"atHead": "AtHead", "comesOut": "ComesOut", "turnsBack": "TurnsBack"}


# names of the library too
KEPT = {"and-false", "and-true", "not-false", "or-false", "or-true"}


def files(kinds):
    for folder, dirs, names in os.walk("crates"):
        dirs[:] = sorted(d for d in dirs if d != "out")
        for n in sorted(names):
            if n.endswith(kinds):
                yield os.path.join(folder, n)


def read(path):
    with open(path, encoding="utf-8") as f:
        return f.read()


def declared(text):
    """The names that a file declares, each with its kind: type, word, con or field."""
    inside = None
    for line in text.split("\n"):
        m = re.match(r"( *)(?:(?:unfoldable|abbrev|pub|pattern) )*(?:(data|record) (\S+)|([^\s:(){}]+(?: [^\s:(){}]+)*)(?: \{[^}]*\})? :(?:\s|$))", line)
        if not m or line.startswith("use ") or m.group(2) is None and m.group(4).startswith(("--", "let ", "λ ", "→ ")):
            continue
        indent = len(m.group(1))
        if inside and indent <= inside[0]:
            inside = None
        if m.group(2) and m.group(3) != "{":
            inside = indent, m.group(2)
            yield m.group(3), "type"
        elif m.group(4) and inside:
            for n in m.group(4).split():
                yield n, "con" if inside[1] == "data" else "field"
        elif m.group(4) and " " not in m.group(4):
            yield m.group(4), "word"


def snake(name):
    if name in TYPES:
        return TYPES[name]
    if not re.match(r"[a-z][A-Za-z0-9_'₀-₉-]*$", name):
        return name
    s = re.sub(r"(?<=[a-z0-9'])([A-Z])", r"_\1", name)
    s = re.sub(r"(?<=[A-Z])([A-Z][a-z])", r"_\1", s)
    return s.replace("-", "_").lower()


def plan():
    """The map from old names to new ones."""
    kinds = defaultdict(set)
    for p in files(".antt"):
        parts = p.split(os.sep)
        if parts[2] == "specs" or (parts[2] == "proofs" and len(parts) == 4):
            for n, k in declared(read(p)):
                kinds[n].add(k)
    new = {n: snake(n) for n in kinds if snake(n) != n and n not in KEPT}
    # names that would fall together in one file with another word of that file
    clash = set()
    for p in files((".antt", ".rt")):
        if os.path.basename(p) == "Proof.antt":
            continue
        words = words_of(p) - {l for l, _ in LEMMAS.values()}
        for w in words & new.keys():
            others = {v for v in words if v != w and new.get(v, v) == new[w]}
            if others:
                clash.add((w, frozenset(others)))
    out = dict(new)
    for w, others in clash:
        # the name in kebab case gives way to one in camel case, and any of ours to a name that stays
        if "-" in w or not any("-" in o for o in others):
            out[w] = new[w] + ("_holds" if kinds[w] == {"field"} else "_lem")
    return out


def words_of(path):
    """The words of a file without comments; of a .rt file those that its clauses may cite, and the parameters that would hide them."""
    mark = "//" if path.endswith(".rt") else "--"
    text = "\n".join(l for l in read(path).split("\n") if not l.strip().startswith(mark))
    text = re.sub(r"\bRattle(\.[\w+]+)+", "", text)
    if path.endswith(".rt"):
        cited = " ".join(re.findall(r"(?m)^ghost use [^;]*;", text))
        return set(WORD.findall(cited)) | set(re.findall(r"\b([a-z_][a-z0-9_]*): ", re.sub(r"(?m)^ghost .*$", "", text)))
    return set(WORD.findall(text))


def turn_words(text, new):
    return WORD.sub(lambda m: new.get(m.group(0), m.group(0)), text)


def turn_prose(text, new):
    camel = {o: n for o, n in new.items() if re.search(r"[a-z0-9][A-Z]", o)}
    text = turn_words(text, camel)
    return re.sub(r"`[^`\n]*`", lambda m: turn_words(m.group(0), new), text)


def turn(path, text, new):
    if not path.endswith(".rt"):
        new = {l: l + "_lem" for d, (l, where) in LEMMAS.items() if d in new and path.startswith(where)} | new
    if path.endswith(".md"):
        return turn_prose(text, new)
    mark = "//" if path.endswith(".rt") else "--"
    return "\n".join(turn_prose(l, new) if l.strip().startswith(mark) else turn_words(l, new) for l in text.split("\n"))


def main(argv):
    new = plan()
    if argv == ["--list"]:
        for o in sorted(new):
            print(o, new[o])
        return
    pages = ["README.md"] + sorted(os.path.join(d, f) for d, _, fs in os.walk("docs") for f in fs if f.endswith(".md"))
    for p in list(files((".antt", ".rt", ".edit"))) + pages:
        old = read(p)
        text = turn(p, old, new)
        if text != old:
            with open(p, "w", encoding="utf-8") as f:
                f.write(text)
    for crate in sorted(os.listdir("crates")):
        subprocess.run(["rt", "fmt"], cwd=os.path.join("crates", crate), check=True, stdout=subprocess.DEVNULL)


if __name__ == "__main__":
    main(sys.argv[1:])
