#!/usr/bin/env python3
"""Lists the functions of crates/*/src that have one shape: alike, token by token, but for names and numbers.

usage: tools/twins.py [FOLDER]     (FOLDER: the top of the repository, else this one)

Two functions count as twins where their signatures without the clauses, and their bodies, differ in identifiers and literals
alone, and the body has five tokens of its own or more. A row is a group: a place to look, and no verdict. The last line counts.
"""
import collections
import pathlib
import re
import sys

TOKEN = re.compile(r"//[^\n]*|[A-Za-z_][A-Za-z_0-9]*|[0-9][0-9_a-z]*|'[a-z_]+|b?\"[^\"]*\"|b?'[^']*'|\S")
KEEP = set('fn let mut if else match return while for in loop break continue pub as self impl struct enum ref &'.split())


def functions(text):
    """Yields (name, line, signature, body) of each function, the clauses left out."""
    for m in re.finditer(r'^[ \t]*(?:pub(?:\(crate\))? )?(?:extern "C" )?fn ([a-z_0-9]+)', text, re.M):
        body = re.compile(r'^[ \t]*\{\n|\{$', re.M).search(text, m.end())
        clause = re.compile(r'^\s+(requires|ensures)\b', re.M).search(text, m.end())
        if not body:
            continue
        depth, k = 0, body.end() - 1
        while text[k] != '{':
            k -= 1
        start = k
        while k < len(text):
            depth += {'{': 1, '}': -1}.get(text[k], 0)
            if depth == 0:
                break
            k += 1
        head_end = min(clause.start() if clause else start, start)
        yield m.group(1), text.count('\n', 0, m.start()) + 1, text[m.end():head_end], text[start:k + 1]


def shape(text):
    out = []
    for t in TOKEN.findall(text):
        if t.startswith('//'):
            continue
        if t in KEEP or not re.match(r"[A-Za-z_0-9'\"b]", t):
            out.append(t)
        else:
            out.append('x')
    return ' '.join(out)


def main():
    top = pathlib.Path(sys.argv[1] if len(sys.argv) > 1 else '.')
    groups = collections.defaultdict(list)
    for path in sorted(top.glob('crates/*/src/**/*.rt')):
        text = path.read_text()
        for name, line, head, body in functions(text):
            s = shape(body)
            if len(s.split()) >= 7:
                groups[shape(head) + ' # ' + s].append(f'{path.relative_to(top)}:{line} {name}')
    twins = {k: v for k, v in groups.items() if len(v) > 1}
    for v in sorted(twins.values(), key=lambda v: (-len(v), v)):
        print(f'{len(v)}: ' + '; '.join(v))
    print(f'groups {len(twins)}, functions {sum(len(v) for v in twins.values())}')


main()
