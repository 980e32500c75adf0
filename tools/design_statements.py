#!/usr/bin/env python3
"""Lists the public statements that changed between two commits, old and new side by side, for docs/DESIGN-PASS.md.

    python3 tools/design_statements.py OLD [NEW]      NEW: the working tree, if it is not given

Statements are: of src/ each public function's signature and clauses, each public type; of specs/ each definition; of proofs/ what each public lemma
or theorem says. A statement whose new text is the old one with the answers' new spelling (the table RULES) is listed by its name alone."""
import re
import subprocess
import sys

RULES = [
    (r'\b(read|write|decide|plan|blocking|place|check)\.Refused\b', r'Err'),
    (r'\bwrite\.Written\b', r'Ok'),
    (r'\bblocking\.Nothing\b', r'Ok None'),
    (r'\bblocking\.Blocks (\w+|\([^()]*\))', r'Ok (Some \1)'),
    (r'\b(decide|plan)\.(Plan|NoPlan)((?: (?:[\w₀]+|\([^()]*\)))*)', r'Ok (\1.\2\3)'),
    (r'\bread\.Head (\w+|\([^()]*\)) (\w+|\([^()]*\)) (\w+|\([^()]*\)) (\w+|\([^()]*\))', r'Ok (record { kind = \1; props = \2; vars = \3; moves = \4 })'),
    (r'\bWriteAnswer\b', r'Result ℕ Refusal'),
    (r'\bReadAnswer\b', r'Result Head Refusal'),
    (r'\bDecideAnswer\b', r'Result DecideAnswer Refusal'),
    (r'\bPlanAnswer\b', r'Result PlanAnswer Refusal'),
    (r'\bBlockingAnswer\b', r'Result (Option ℕ) Refusal'),
    (r'\bPlaceAnswer\b', r'Result Placed Refusal'),
    (r'\bCheckAnswer\b', r'Result CheckAnswer Refusal'),
]


def git(*args):
    return subprocess.run(['git', *args], capture_output=True, text=True, check=True).stdout


def tree(commit):
    if commit is None:
        return {n: open(n).read() for n in git('ls-files', 'crates').split('\n') if n and subprocess.run(['test', '-f', n]).returncode == 0}
    names = [n for n in git('ls-tree', '-r', '--name-only', commit, 'crates').split('\n') if n]
    return {n: git('show', f'{commit}:{n}') for n in names if n.endswith(('.rt', '.antt'))}


def flat(text):
    return re.sub(r'\s+', ' ', re.sub(r'(--|//) [^\n]*', '', text)).strip().replace('( ', '(').replace(' )', ')').replace(',)', ')').replace(', )', ')')


def of_source(name, text):
    where = name.split('/')[1]
    found = {}
    owner = ''
    lines = text.split('\n')
    for i, line in enumerate(lines):
        m = re.match(r"impl(?:<[^>]*>)? (?:\w+ for )?(\w+)", line)
        if m:
            owner = m.group(1) + '::'
        elif line == '}':
            owner = ''
        m = re.match(r'( *)(?:#\[.*\] *)?pub (?:extern "C" )?fn (\w+)', line)
        if m:
            j = i
            while lines[j].strip() != '{' and not re.search(r'\) (-> [^{]*)?\{$', lines[j]) and j < len(lines) - 1:
                j += 1
            last = [lines[j][:-1]] if lines[j].strip() != '{' else []
            found[f'{where}::{owner}{m.group(2)}'] = flat('\n'.join(lines[i:j] + last))
        m = re.match(r'pub (struct|enum) (\w+)', line)
        if m:
            j = i
            while not lines[j].startswith('}') and not lines[j].endswith(';'):
                j += 1
            found[f'{where}::{m.group(2)} ({m.group(1)})'] = flat('\n'.join(lines[i:j + 1]))
    return found


def of_antt(name, text):
    where = '.'.join([name.split('/')[1]] + re.sub(r'\.antt$', '', name).split('/')[3 if '/specs/' in name else 2:])
    definitions = '/specs/' in name
    found = {}
    for block in re.split(r'\n(?=(?:  )*(?:abbrev|unfoldable|pub|data|record|mutual)\b)|\n\n', text):
        m = re.match(r'\s*(?:abbrev |unfoldable )?pub (?:record |data )?([^\s:(]+)', block)
        if not m:
            continue
        word = m.group(1)
        if re.match(r'\s*(?:pub )?mod\b|\s*pub mod', block):
            continue
        body = flat(block)
        if not (definitions and re.match(r'\s*(abbrev|unfoldable|pub record|pub data)', block)):
            # a lemma: what it says, without its proof
            body = re.split(rf' (?:unfolding [^=]*? )?{re.escape(word)}(?: [^:]*?)? =', body)[0]
        found[f'{where}.{word}'] = body
    return found


def statements(files):
    found = {}
    for n, text in files.items():
        if re.fullmatch(r'crates/\w+/src/\w+\.rt', n):
            found.update(of_source(n, text))
        elif re.fullmatch(r'crates/\w+/(specs|proofs)/.*\.antt', n) and not re.search(r'/(Answers|Invariants|Proof|Lib)\.antt$', n):
            found.update(of_antt(n, text))
    return found


def respelled(text):
    for a, b in RULES:
        text = re.sub(a, b, text)
    return text


def loose(text):
    return re.sub(r'[\s()]+', ' ', text.replace('ReadHead', 'Head')).strip()


old = statements(tree(sys.argv[1]))
new = statements(tree(sys.argv[2] if len(sys.argv) > 2 else None))
gone = sorted(set(old) - set(new))
added = sorted(set(new) - set(old))
changed = sorted(n for n in old if n in new and old[n] != new[n])
spelled = [n for n in changed if loose(respelled(old[n])) == loose(new[n])]
others = [n for n in changed if n not in spelled]

print(f'{len(old)} statements before, {len(new)} now; the same {len(old) - len(gone) - len(changed)}; in the answers\' new spelling alone {len(spelled)}; changed {len(others)}; gone {len(gone)}; new {len(added)}.\n')
print('## In the answers\' new spelling\n')
for n in spelled:
    print(f'- `{n}`')
print('\n## Changed\n')
for n in others:
    print(f'- `{n}`\n  - old: `{old[n]}`\n  - new: `{new[n]}`')
print('\n## Gone\n')
for n in gone:
    print(f'- `{n}`: `{old[n]}`')
print('\n## New\n')
for n in added:
    print(f'- `{n}`: `{new[n]}`')
