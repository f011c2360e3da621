#!/usr/bin/env python3
"""twins.py [COMMIT]: functions of crates/*/src whose bodies are the same but for names and numbers, in groups. For docs/DESIGN-PASS.md, point 2.

A body counts from 25 tokens on. With COMMIT the files are read from that commit, else from the folder as it stands."""
import re, subprocess, sys, pathlib, collections

def files(commit):
    if commit:
        names = subprocess.run(['git', 'ls-tree', '-r', '--name-only', commit], capture_output=True, text=True, check=True).stdout.split()
        for n in names:
            if re.fullmatch(r'crates/[^/]+/src/.*\.rt', n):
                yield n, subprocess.run(['git', 'show', f'{commit}:{n}'], capture_output=True, text=True, check=True).stdout
    else:
        for p in sorted(pathlib.Path('crates').glob('*/src/**/*.rt')):
            yield str(p), p.read_text()

WORDS = {'if', 'else', 'while', 'for', 'in', 'match', 'return', 'let', 'mut', 'true', 'false', 'as', 'Some', 'None', 'Ok', 'Err', 'loop', 'break'}

def bodies(text):
    lines = text.split('\n')
    i = 0
    while i < len(lines):
        m = re.match(r'\s*(?:pub )?(?:extern "C" )?(?:const )?fn (\w+)', lines[i])
        if m and '#[test]' not in lines[max(0, i - 1)]:
            name = m.group(1)
            indent = len(lines[i]) - len(lines[i].lstrip())
            j = i
            while j < len(lines) and not (lines[j].rstrip() == ' ' * indent + '{' or lines[j].rstrip().endswith(' {') and 'requires' not in lines[j] and 'ensures' not in lines[j]):
                if lines[j].rstrip().endswith(';') and j == i: break
                j += 1
            k = j + 1
            while k < len(lines) and lines[k].rstrip() != ' ' * indent + '}':
                k += 1
            yield name, '\n'.join(lines[j + 1:k])
            i = k
        i += 1

def shape(body):
    body = re.sub(r'//.*', '', body)
    tokens = re.findall(r'[A-Za-z_]\w*|\d\w*|"[^"]*"|\S', body)
    return tuple(t if t in WORDS or not re.match(r'[\w"]', t) else '_' for t in tokens)

commit = sys.argv[1] if len(sys.argv) > 1 else None
groups = collections.defaultdict(list)
for name, text in files(commit):
    for fn, body in bodies(text):
        s = shape(body)
        if len(s) >= 25:
            groups[s].append((name.split('/')[1], fn))
found = sorted((g for g in groups.values() if len(g) > 1), key=lambda g: (-len(g), g))
for g in found:
    print(len(g), ', '.join(f'{c}::{f}' for c, f in g))
print('groups', len(found), 'functions', sum(len(g) for g in found))
