#!/usr/bin/env python3
"""Compares the contracts of public functions with those of an earlier commit: contracts.py COMMIT [FOLDER].

A contract is the signature of a `pub fn`, or of a method of a trait, with its clauses. Those of the earlier commit are compared after TABLE,
which has what was renamed. What is left is printed; status 1 where something is.
"""
import collections, re, subprocess, sys

COMMIT = sys.argv[1]
FOLDER = sys.argv[2] if len(sys.argv) > 2 else '.'
TABLE = [  # crate, what stood there, what stands there
    ('metis_ujson', r'\bReads \(', 'ReadsAs NoMemory ('),
    ('metis_wishes', r'\bReads \(', 'ReadsAs NoMemory ('),
    ('metis_text', r'\bIfFault result', 'IfFault NoMemory result'),
    ('metis_why_text', r'\bIfFault result', 'IfFault NoMemory result'),
    ('metis_place', r'\bIfFault result', 'IfFault NoMemory result'),
    ('metis_place', r'\bline_fault number', 'line_fault Line Number Name number'),
    ('metis_wishes', r'\bline_fault number', 'line_fault Line Number Name number'),
]
MOVED = {'metis_emit': {'action': 'metis_ids'}, 'metis_completion': {'action': 'metis_ids'}}


def texts(commit):
    run = lambda *words: subprocess.run(['git', '-C', FOLDER, *words], capture_output=True, text=True, check=True).stdout
    names = run('ls-tree', '-r', '--name-only', commit, 'crates') if commit else run('ls-files', '-co', '--exclude-standard', 'crates')
    for name in names.split('\n'):
        if re.fullmatch(r'crates/\w+/src/.*\.rt', name):
            try:
                yield name.split('/')[1], run('show', f'{commit}:{name}') if commit else open(f'{FOLDER}/{name}').read()
            except FileNotFoundError:
                pass


def contracts(commit, table):
    found = collections.defaultdict(collections.Counter)
    for crate, text in texts(commit):
        for m in re.finditer(r'^( *)pub fn (\w+)(.*?)(?:\n\1\{|;\n)', text, re.M | re.S):
            body = re.sub(r'//.*', '', m.group(3))
            for of, old, new in table:
                body = re.sub(old, new, body) if of == crate else body
            body = re.sub(r',\s*\)', ')', ' '.join(body.split())).replace('( ', '(')
            home = MOVED.get(crate, {}).get(m.group(2), crate) if table else crate
            found[(home, m.group(2))][body] += 1
    return found


before, now = contracts(COMMIT, TABLE), contracts('', [])
left = 0
for key in sorted(before.keys() | now.keys()):
    gone, new = before[key] - now[key], now[key] - before[key]
    if key[1] == 'action' and not new:
        continue
    for word, texts_ in (('-', gone), ('+', new)):
        for body in texts_:
            left += word == '-'
            print(word, '::'.join(key), body[:400])
print(f'{sum(sum(c.values()) for c in now.values())} contracts now, {left} of before are not there word for word')
sys.exit(bool(left))
