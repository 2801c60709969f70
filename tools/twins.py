#!/usr/bin/env python3
"""Functions whose bodies are the same but for names, numbers and types: python3 tools/twins.py [TOP] [LEAST TOKENS]."""
import re, glob, sys, collections
top = sys.argv[1] if len(sys.argv) > 1 else '.'
least = int(sys.argv[2]) if len(sys.argv) > 2 else 8
KEEP = {'if', 'else', 'while', 'for', 'in', 'return', 'match', 'let', 'mut', 'break', 'continue', 'true', 'false'}
groups = collections.defaultdict(list)
for f in sorted(glob.glob(top + '/crates/*/src/**/*.rt', recursive=True)):
    s = re.sub(r'//.*', '', open(f).read())
    for m in re.finditer(r'\n *(?:pub )?(?:extern "C" )?fn (\w+).*?\n( *)\{\n(.*?)\n\2\}', s, re.S):
        body = re.sub(r'"[^"]*"|b\'.\'', '"', m.group(3))
        tokens = re.findall(r'\w+|"|[^\s\w]', body)
        shape = ' '.join(t if t in KEEP or not re.match(r'\w', t) else ('0' if t[0].isdigit() else 'a') for t in tokens)
        if len(tokens) >= least:
            groups[shape].append(f"{f.split('crates/')[1].replace('/src/', '/')}:{s[:m.start()].count(chr(10)) + 2} {m.group(1)}")
for shape, places in sorted(groups.items(), key=lambda g: -len(g[1])):
    if len(places) > 1:
        print(len(places), ' | '.join(places))
