#!/usr/bin/env python3
"""Brings the repository's own definitions and lemmas to today's spelling: `spell.py`, once, at the top of the repository.

Types are in upper camel case, everything else is in snake case; in a lemma's name a dash stays where it joins
the names of two definitions. Names that Rattle makes (goals, invariants) and names of src/ stay as they are.
"""
import os
import re

SIGNATURE = re.compile(r'^[ \t]*(?:abbrev |unfoldable )?(?:pub )?(?:data |record )?([^\s:(){},;]+) :', re.M)
ALIAS = re.compile(r"[^\s,{]+ as ([^\s,{}();\u25cc]+)(?=[,}])")
SYMBOL = re.compile(r'^[^\w]+$')
# words of std that lemmas are named for
STD = set('length map take drop cond set nth replicate rest'.split())


def files():
    for folder, dirs, names in os.walk('crates'):
        dirs[:] = sorted(d for d in dirs if d != 'out')
        for f in sorted(names):
            if f.endswith(('.rt', '.antt')):
                yield os.path.join(folder, f)


def of_function(path):
    parts = path.split(os.sep)
    return parts[2] == 'proofs' and len(parts) > 4


def snake(name):
    return name.replace('-', '_')


def camel(name):
    return ''.join(p[:1].upper() + p[1:] for p in name.split('-'))


def lemma(name, words):
    parts = name.split('-')
    out = parts[0]
    for before, part in zip(parts, parts[1:]):
        joins = before in words and (part in words or SYMBOL.match(part))
        out += ('-' if joins else '_') + part
    return out


def renaming():
    defined, lemmas = set(), set()
    for path in files():
        if path.endswith('.antt') and of_function(path):
            continue
        with open(path, encoding='utf-8') as f:
            text = f.read()
        names = SIGNATURE.findall(text) + ALIAS.findall(text)
        (lemmas if path.split(os.sep)[2] == 'proofs' else defined).update(names)
    words = STD | {snake(n) for n in defined} | {n for n in defined}
    new = {}
    for n in sorted(defined | lemmas):
        if '-' not in n or SYMBOL.match(n):
            continue
        new[n] = camel(n) if n[0].isupper() else snake(n) if n in defined else lemma(n, words)
    return {n: m for n, m in new.items() if n != m}, defined | lemmas


def main():
    new, known = renaming()
    back = {}
    for n, m in new.items():
        back.setdefault(m, []).append(n)
    for m, ns in back.items():
        if len(ns) > 1 or m in known:
            print('falls together:', m, ns, 'with a name that stands' if m in known else '')
    token = re.compile(r"(?<![\w'\-≢≡])(" + '|'.join(re.escape(n) for n in sorted(new, key=len, reverse=True)) + r")(?![\w'\-+≢≡])")
    changed = 0
    for path in files():
        with open(path, encoding='utf-8') as f:
            text = f.read()
        lines = []
        for line in text.split('\n'):
            mark = '--' if path.endswith('.antt') else '//'
            code, sep, comment = line.partition(mark + ' ') if line.lstrip().startswith(mark) else (line, '', '')
            lines.append(token.sub(lambda m: new[m.group(1)], code) + sep + comment)
        out = '\n'.join(lines)
        if out != text:
            with open(path, 'w', encoding='utf-8') as f:
                f.write(out)
            changed += 1
    print(f'{len(new)} names, {changed} files')


main()
