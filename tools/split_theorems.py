#!/usr/bin/env python3
"""Moves theorems from specs/ to proofs/, so that a must-fail edit of a definition is refused at a theorem and not read as bad.

usage: python3 tools/split_theorems.py [--list]    at the top of the repository, after tools/respell.py; --list prints what would move

Definitions (data, record, abbrev and unfoldable) stay in specs/, in the file that had them; statements with their proofs go to a file of
the same name below proofs/, word for word, and so does whatever rests on one that moved. Import lines follow, in every crate.
"""
import os
import re
import sys
from collections import defaultdict

# the crates, and the files of specs/ whose theorems move (a folder's name takes all below it)
ROOMS = {
    "integer": ["BigEndian", "Ceiling"],
    "model": ["Theorems"],
    "placement": ["Theorems"],
    "schedule": ["Theorems"],
    "ceiling": ["Theorems"],
    "cursor": ["State", "Passing"],
}
WORD = re.compile(r"[^\s(){}\[\].,;\"`]+")
SIGN = re.compile(r"( *)((?:(?:unfoldable|abbrev|pub|pattern) )*)(?:(data|record) (\S+)|([^\s:(){}]+)(?: \{[^}]*\})? :(?:\s|$))")
USE = re.compile(r"use Rattle\.(\w+)\.specs\.([\w.]+?)(?:\.\{([^}]*)\}| as ([\w']+))$")


def read(path):
    with open(path, encoding="utf-8") as f:
        return f.read()


class Item:
    def __init__(self, lines):
        self.lines = lines
        self.names, self.defs, self.others, fields = set(), set(), set(), set()
        inside, levels = None, {0}
        for l in lines:
            if l.startswith(("--", "infix")):
                continue
            block = re.match(r"( *)module ", l)
            if block:
                levels.add(len(block.group(1)) + 2)
            m = SIGN.match(l)
            # names of a `where` are its own
            if m and len(m.group(1)) not in levels and inside is None and "pub" not in m.group(2).split():
                continue
            if inside is not None and (len(l) - len(l.lstrip()) <= inside and l.strip()):
                inside = None
            if inside is not None:
                c = re.match(r" *(?:pub )?([^\s:(){}→]+(?: [^\s:(){}→]+)*) :(?:\s|$)", l)
                if c:
                    (self.names if is_data else fields).update(c.group(1).split())
                continue
            if not m:
                continue
            if m.group(3) and m.group(4) != "{":
                inside, is_data = len(m.group(1)), m.group(3) == "data"
                self.names.add(m.group(4))
                self.defs.add(m.group(4))
            elif m.group(5) and not m.group(5).startswith("--") and m.group(5) not in ("let", "→"):
                self.names.add(m.group(5))
                marked = "unfoldable" in m.group(2) or "abbrev" in m.group(2)
                (self.defs if marked else self.others).add(m.group(5))
        text = "\n".join(l for l in lines if not l.strip().startswith("--"))
        self.words = set(WORD.findall(text)) - (fields if not self.others else set())

    def is_definition(self):
        return not self.others

    def is_public(self):
        first = next(l for l in self.lines if SIGN.match(l) or l.startswith("module "))
        return first.startswith("module ") or " pub " in " " + SIGN.match(first).group(2)

    def publish(self, words):
        """Gives the definitions among these words, which others now import, the mark pub."""
        inside = None
        for i, l in enumerate(self.lines):
            m = SIGN.match(l)
            if inside is not None and l.strip() and len(l) - len(l.lstrip()) <= inside:
                inside = None
            if inside is not None:
                continue
            if m and m.group(3) and m.group(4) != "{":
                inside = len(m.group(1))
            if m and (m.group(4) if m.group(3) else m.group(5)) in self.names and "pub" not in m.group(2).split():
                if occurs(m.group(4) if m.group(3) else m.group(5), words):
                    self.lines[i] = re.sub(r"^( *(?:(?:unfoldable|abbrev|pattern) )*)", r"\1pub ", l)


def parse(path):
    """The head (comments), the use lines and the items of a file."""
    head, uses, items, comments, current = [], [], [], [], None
    for l in read(path).rstrip("\n").split("\n"):
        if l.startswith("use ") or l.startswith("pub mod ") or l.startswith("mod "):
            head += comments
            comments = []
            uses.append(l)
            current = None
        elif l.startswith("--"):
            comments.append(l)
        elif not l.strip():
            if current is not None:
                current.append(l)
            elif comments:
                comments.append(l)
        elif l[0].isspace() or l.startswith(")"):
            if comments:
                current += comments
                comments = []
            current.append(l)
        elif l.startswith("infix"):
            comments.append(l)
        elif l.startswith("unfolding ") or (current is not None and not re.match(r"module ", l) and not SIGN.match(l)):
            if comments:
                current += comments
                comments = []
            current.append(l)
        else:
            current = comments + [l]
            comments = []
            items.append(current)
    if not uses and not items:
        head = comments
    for i in items:
        while i and not i[-1].strip():
            i.pop()
    return head, uses, [Item(i) for i in items]


def imports(uses):
    """The crate's own imports of a file: [(module, [name..] or None, line)]."""
    out = []
    for l in uses:
        m = USE.match(l)
        if m:
            out.append((m.group(1), m.group(2), [n.strip() for n in m.group(3).split(",")] if m.group(3) is not None else None))
    return out


def main(argv):
    moved = defaultdict(set)
    files = {}
    for crate, rooms in ROOMS.items():
        base = os.path.join("crates", crate, "specs")
        for folder, _, names in os.walk(base):
            for n in sorted(names):
                module = os.path.relpath(os.path.join(folder, n), base)[:-5].replace(os.sep, ".")
                if n.endswith(".antt") and module != "Lib":
                    files[crate, module] = parse(os.path.join(folder, n))
        for (c, module), (_, _, items) in files.items():
            if c == crate and any(module == r or module.startswith(r + ".") for r in rooms):
                moved[c, module] |= {i for i in range(len(items)) if not items[i].is_definition()}
        # what rests on a moved one moves too
        while True:
            before = sum(map(len, moved.values()))
            for (c, module), (_, uses, items) in files.items():
                if c != crate:
                    continue
                gone = set()
                for i in moved[c, module]:
                    gone |= items[i].names
                for other, m, names in imports(uses):
                    if other == crate and names is not None and (crate, m) in files:
                        theirs = set()
                        for i in moved[crate, m]:
                            theirs |= files[crate, m][2][i].names
                        gone |= {n.split(" as ")[-1].strip() for n in names if n.split(" as ")[0].strip() in theirs}
                    elif other == crate and names is None and (crate, m) in files and moved[crate, m]:
                        pass
                for i, it in enumerate(items):
                    if i not in moved[c, module] and any(occurs(n, it.words) for n in gone):
                        moved[c, module].add(i)
            if sum(map(len, moved.values())) == before:
                break
    # a definition of the file's own that only moved items use goes with them; one that both use becomes public
    for (c, module), gone in moved.items():
        items = files[c, module][2]
        while True:
            stay = [i for i in range(len(items)) if i not in gone]
            used = set().union(*(items[i].words for i in stay if items[i].is_public())) if stay else set()
            while True:
                more = {i for i in stay if not items[i].is_public() and items[i].names & used}
                wider = used.union(*(items[i].words for i in more)) if more else used
                if wider == used:
                    break
                used = wider
            alone = {i for i in stay if not items[i].is_public() and not items[i].names & used}
            if not alone:
                break
            gone |= alone
        words = set().union(*(items[i].words for i in gone)) if gone else set()
        for i, it in enumerate(items):
            if gone and i not in gone:
                it.publish(words)
    names_moved = {k: set().union(*(files[k][2][i].names for i in v)) if v else set() for k, v in moved.items()}
    if argv == ["--list"]:
        for (c, module), names in sorted(names_moved.items()):
            if names:
                stay = [i for j, i in enumerate(files[c, module][2]) if j not in moved[c, module]]
                print(f"{c}/{module}: {len(moved[c, module])} items move, {len(stay)} stay;", "definitions that move:",
                      " ".join(sorted(set().union(*(files[c, module][2][i].defs for i in moved[c, module])))))
        return

    def turn_use(line):
        """An import line in today's places: one line, or two."""
        m = USE.match(line)
        if not m or not names_moved.get((m.group(1), m.group(2))):
            return [line]
        c, module = m.group(1), m.group(2)
        if m.group(3) is None:
            return [line.replace(f"Rattle.{c}.specs.", f"Rattle.{c}.proofs.")]
        names = [n.strip() for n in m.group(3).split(",")]
        gone = [n for n in names if n.split(" as ")[0].strip() in names_moved[c, module]]
        stay = [n for n in names if n not in gone]
        out = [f"use Rattle.{c}.specs.{module}.{{{', '.join(stay)}}}"] if stay else []
        return out + ([f"use Rattle.{c}.proofs.{module}.{{{', '.join(gone)}}}"] if gone else [])

    # every other file: import lines
    for folder, dirs, names in os.walk("crates"):
        dirs[:] = sorted(d for d in dirs if d != "out")
        for n in sorted(names):
            p = os.path.join(folder, n)
            if n.endswith(".antt"):
                old = read(p)
                new = "\n".join(x for l in old.split("\n") for x in turn_use(l))
            elif n.endswith(".rt"):
                old = read(p)
                new = "\n".join("ghost " + x + ";" if l.startswith("ghost use ") else x for l in old.split("\n") for x in (turn_use(l[6:-1]) if l.startswith("ghost use ") and l.endswith(";") else [l]))
            else:
                continue
            if new != old:
                with open(p, "w", encoding="utf-8") as f:
                    f.write(new)
    # the files themselves
    nodes = defaultdict(lambda: ([], []))
    for (c, module), gone in moved.items():
        if not gone:
            continue
        head, uses, items = files[c, module]
        path = os.path.join("crates", c, "specs", *module.split(".")) + ".antt"
        there = os.path.join("crates", c, "proofs", *module.split(".")) + ".antt"
        stay = [i for j, i in enumerate(items) if j not in gone]
        go = [i for j, i in enumerate(items) if j in gone]
        words = set().union(*(i.words for i in go))
        own = sorted(n for n in set().union(*(i.names for i in stay)) if occurs(n, words)) if stay else []
        lines = [x for l in uses for x in turn_use(l)]
        if own:
            lines.append(f"use Rattle.{c}.specs.{module}.{{{', '.join(own)}}}")
        os.makedirs(os.path.dirname(there), exist_ok=True)
        write(there, head, lines, go)
        if stay:
            words = set().union(*(i.words for i in stay))
            write(path, head, [x for x in kept_uses(uses, words)], stay)
        else:
            os.remove(path)
    for c in ROOMS:
        base = os.path.join("crates", c)
        if any(v for (d, _), v in moved.items() if d == c):
            make_nodes(base, [m for (d, m), v in moved.items() if d == c and v])


def occurs(name, words):
    """Does a name occur, an operator by its signs?"""
    return name == "[]" or name in words or "◌" in name and set(re.findall(r"[^◌]+", name)) <= words


def kept_uses(uses, words):
    """The import lines of what stays: names that it uses."""
    for l in uses:
        m = re.match(r"(use \S+?)\.\{([^}]*)\}$", l)
        if not m:
            a = re.match(r"use \S+ as (\S+)$", l)
            if not a or a.group(1) in words:
                yield l
            continue
        names = [n.strip() for n in m.group(2).split(",")]
        names = [n for n in names if occurs(n.split(" as ")[-1].strip(), words)]
        if names:
            yield f"{m.group(1)}.{{{', '.join(names)}}}"


def write(path, head, uses, items):
    text = "\n".join(head + uses) + "\n\n" + "\n\n".join("\n".join(i.lines) for i in items) + "\n"
    with open(path, "w", encoding="utf-8") as f:
        f.write(text)


def make_nodes(base, modules):
    """The lines `pub mod` of both folders: those of proofs/ in the order of specs/; those of specs/ that have files left."""
    def order(prefix):
        """The modules below a node, in the order of its file in specs/."""
        p = os.path.join(base, "specs", *(prefix or ["Lib"])) + ".antt"
        return re.findall(r"(?m)^pub mod (\w+)$", read(p)) if os.path.exists(p) else []

    def walk(prefix):
        there = os.path.join(base, "proofs", *(prefix or ["Lib"])) + ".antt"
        here = os.path.join(base, "specs", *(prefix or ["Lib"])) + ".antt"
        names = order(prefix)
        go = [n for n in names if any(m == ".".join(prefix + [n]) or m.startswith(".".join(prefix + [n]) + ".") for m in modules)]
        for n in go:
            walk(prefix + [n])
        if not names:
            return
        stay = [n for n in names if os.path.exists(os.path.join(base, "specs", *prefix, n) + ".antt")]
        head = "\n".join(l for l in read(here).split("\n") if l.startswith("--"))
        old = read(there) if os.path.exists(there) else (head + "\n" if head and prefix else "")
        with open(there, "w", encoding="utf-8") as f:
            f.write(old + "".join(f"pub mod {n}\n" for n in go if f"pub mod {n}\n" not in old))
        if stay:
            text = "\n".join(l for l in read(here).split("\n") if not re.match(r"pub mod (\w+)$", l) or l[8:] in stay)
            with open(here, "w", encoding="utf-8") as f:
                f.write(text)
        else:
            os.remove(here)

    walk([])


if __name__ == "__main__":
    main(sys.argv[1:])
