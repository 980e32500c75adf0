#!/usr/bin/env python3
"""Counts the places of docs/DESIGN-PASS.md in the sources of a commit, or of the working tree.

    python3 tools/design_counts.py [COMMIT] [--list]

A line for each point; --list names each place."""
import collections
import difflib
import re
import subprocess
import sys

listed = '--list' in sys.argv
commits = [a for a in sys.argv[1:] if a != '--list']


def read_all(pattern):
    """The files whose path matches the pattern, with their text."""
    if commits:
        names = subprocess.run(['git', 'ls-tree', '-r', '--name-only', commits[0], 'crates'], capture_output=True, text=True, check=True).stdout.split('\n')
        get = lambda n: subprocess.run(['git', 'show', f'{commits[0]}:{n}'], capture_output=True, text=True, check=True).stdout
    else:
        names = subprocess.run(['git', 'ls-files', 'crates'], capture_output=True, text=True, check=True).stdout.split('\n')
        get = lambda n: open(n).read()
    return {n: get(n) for n in sorted(names) if re.fullmatch(pattern, n)}


def crate(name):
    return name.split('/')[1]


def functions(text):
    """Each function of a file: its name, its parameters, its clauses and its body."""
    for m in re.finditer(r'^( *)(?:#\[[^\n]*\]\n\1)?(?:pub )?(?:extern "C" )?fn (\w+)(?:<[^>(]*>)?\(', text, re.M):
        depth, i = 1, m.end()
        while depth:
            depth += {'(': 1, ')': -1}.get(text[i], 0)
            i += 1
        end = text.find('\n' + m.group(1) + '}', i)
        rest = text[i:end]
        head, _, body = rest.partition('\n' + m.group(1) + '{')
        if not body:
            head, _, body = rest.partition('{')
        yield m.group(2), text[m.end():i - 1], head, body


def split_top(text, at):
    """The pieces of a text between separators outside brackets."""
    pieces, depth, piece = [], 0, ''
    for ch in text:
        depth += {'(': 1, '[': 1, '<': 1, ')': -1, ']': -1, '>': -1}.get(ch, 0)
        if ch == at and depth == 0:
            pieces.append(piece)
            piece = ''
        else:
            piece += ch
    return [p.strip() for p in pieces + [piece] if p.strip()]


def show(point, what, places):
    print(f'{point:3} {what}: {len(places)}')
    if listed:
        for p in places:
            print(f'      {p}')


def lines_with(sources, pattern):
    found = []
    for n, text in sources.items():
        for i, line in enumerate(text.split('\n'), 1):
            if not line.lstrip().startswith('//') and not line.startswith('ghost use') and re.search(pattern, line):
                found.append(f'{n}:{i}: {line.strip()}')
    return found


sources = read_all(r'crates/\w+/src/\w+\.rt')
every = [(crate(n), f) for n, text in sources.items() for f in functions(text)]

show('1', 'enums', lines_with(sources, r'^\s*(pub )?enum '))
show('1', 'refusals by number', lines_with(sources, r'number: \d+|refusal\(\d+|refused\(\d+|\bnumber = \d'))
show('1', 'kinds and comparisons by number', lines_with(sources, r'\b(kind|comparison): (u8|u64|usize)\b'))

tokens = [(f'{c}::{f[0]}', re.findall(r'\w+|[^\w\s]', re.sub(r'\b[iu](8|16|32|64|size)\b|\b0x[0-9A-F]+\b|\b\d+\b', '1', f[3]))) for c, f in every]
tokens = [(n, [('f' if t == n.split('::')[1] else t) for t in ts]) for n, ts in tokens if len(ts) >= 15]
twins = []
for i, (n, a) in enumerate(tokens):
    for o, b in tokens[i + 1:]:
        if abs(len(a) - len(b)) <= 6 and difflib.SequenceMatcher(None, a, b, autojunk=False).ratio() >= 0.9:
            twins.append(f'{n} {o}')
show('2', 'pairs of functions of one shape', twins)

show('3', 'while and loop', lines_with(sources, r'\b(while .*|loop) \{'))
counted = []
for c, (name, params, head, body) in every:
    for m in re.finditer(r'\b(while [^{]*|loop) \{', body):
        inner = body[m.end():]
        for v in set(re.findall(r'\b(\w+) [+-]= 1;', inner)):
            if re.search(rf'\b{v}\b', m.group(1)) or m.group(1) == 'loop':
                counted.append(f'{c}::{name} ({v})')
                break
show('3', 'of them an index counted by hand', counted)
show('3', 'for', lines_with(sources, r'\bfor .* in .*\{'))

by_hand = r'fn (same|less|at_most|larger|larger_count|later|is_zero|order|lies|both|between|add|sub|neg|mul|magnitude|wide|index|byte|copy|copy_row|kind_code|fault_number|truth_byte|at_least_zero|divisor)\('
show('4', 'equality, order, arithmetic, copying, conversion by hand', lines_with(sources, by_hand))
show('4', 'calls of operators written as functions', lines_with(sources, r'\binteger::(add|sub|neg|less|at_most|is_zero|larger|wide|mul|magnitude)\('))

show('5', 'functions that take marks', [f'{c}::{f[0]}' for c, f in every if re.search(r'\bmarks: ', f[1])])
show('5', 'functions of seven parameters or more', [f'{c}::{f[0]} {len(split_top(f[1], ","))}' for c, f in every if len(split_top(f[1], ',')) >= 7])
facts = collections.defaultdict(list)
for c, (name, params, head, body) in every:
    for r in re.findall(r'requires(?: \w+)? \{(.*?)\}\s*(?:requires|ensures|$)', head, re.S):
        for fact in split_top(re.sub(r'\s+', ' ', r), '×'):
            while fact.startswith('(') and fact.endswith(')'):
                fact = fact[1:-1].strip()
            facts[fact.split(' ')[0] if re.match('[A-Z]', fact) else fact].append(f'{c}::{name}')
show('5', 'facts in the requires of three functions or more', [f'{k}: {len(v)}' for k, v in sorted(facts.items()) if len(v) >= 3])

show('6', 'clauses on a length beside a buffer', lines_with(sources, r'\w+ ≤ length \w+\.(now|old)'))
show('7', 'function pointers, dyn, tables of functions', lines_with(sources, r'\bdyn |: fn\(|\[fn\('))

answers = read_all(r'crates/\w+/proofs/.*/Answers\.antt')
show('8', 'files of answers', list(answers))
print(f'8   lines of answers: {sum(t.count(chr(10)) for t in answers.values())}')
show('8', 'answers that say only search rules', lines_with(answers, r' = search rules$'))
