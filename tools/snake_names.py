#!/usr/bin/env python3
"""Brings the repository's own definitions, laws, fields and constructors to snake case, and its types to upper camel case.

Run at the top, once, after the toolchain's own port.py: `python3 tools/snake_names.py`. It says which names fall together.
A name is the repository's own where a file of specs/ or proofs/ declares it. Names of the library and of generated goals stay.
"""
import glob
import re
import sys

STOP = ' \t\n(){}[];,.:"`'
TOKEN = re.compile('[^' + re.escape(STOP) + ']+')
MODIFIERS = r'(?:unfoldable |abbrev |opaque |pub\(crate\) |pub |record |data )*'
DECLARED = re.compile(r'^(\s*)' + MODIFIERS + r'([^\s(){}:;,."]+)\s*(?=[({:])(.*)$')


def antt_files():
    return sorted(glob.glob('crates/*/specs/**/*.antt', recursive=True) + glob.glob('crates/*/proofs/**/*.antt', recursive=True))


def is_function_file(path):
    parts = path.split('/')
    return parts[2] == 'proofs' and len(parts) > 4


def respelled(name):
    if name[0].isupper():
        return ''.join(p[:1].upper() + p[1:] for p in name.split('-'))
    return name.replace('-', '_')


def has_dash(name):
    return re.search(r'[^\W_\d]', name) and re.search(r'[^-]-[^-]', name) and '◌' not in name


def declared(path, text):
    names = set()
    for line in text.split('\n'):
        if line.strip().startswith('--') or line.startswith('use '):
            continue
        m = DECLARED.match(line)
        if not m or not has_dash(m.group(2)):
            continue
        if is_function_file(path) and re.search(r':\s*tie\.', line):
            continue
        names.add(m.group(2))
    return names


def library(text):
    names = set()
    for m in re.finditer(r'^use ([^\s{]+)\{([^}]*)\}', text, re.M):
        own = re.match(r'Rattle\.(\w+)\.', m.group(1))
        if own and own.group(1) != 'std':
            continue
        names.update(n.strip() for n in m.group(2).split(','))
    return names


def turned(text, table, skip=()):
    def one(m):
        t = m.group(0)
        return t if t in skip else table.get(t, t)
    return TOKEN.sub(one, text)


def main():
    texts = {p: open(p, encoding='utf-8').read() for p in antt_files()}
    names, taken, kept = set(), set(), set()
    for path, text in texts.items():
        names |= declared(path, text)
        taken |= library(text)
    for path, text in texts.items():
        if not is_function_file(path):
            plain_text = '\n'.join(l for l in text.split('\n') if not l.strip().startswith('--'))
            names |= {t for t in TOKEN.findall(plain_text) if has_dash(t) and not t.startswith('-')}
    for n in sorted(names & taken):
        print('of the library, left:', n)
        kept.add(n)
    names -= kept
    table = {n: respelled(n) for n in names}
    plain = set()
    for path, text in texts.items():
        for line in text.split('\n'):
            m = DECLARED.match(line)
            if m:
                plain.add(m.group(2))
    # an operator's words are its name's: ◌else-try◌ is written `a else-try b`
    for old in sorted({t for text in texts.values() for t in TOKEN.findall(text) if '◌' in t and re.search(r'[^-◌]-[^-◌]', t)}):
        if old not in taken:
            table[old] = old.replace('-', '_')
            table.update({w: w.replace('-', '_') for w in old.split('◌') if '-' in w})
    back = {}
    for old, new in sorted(table.items()):
        if new in plain or new in back:
            print('fall together:', old, back.get(new, new))
        back[new] = old
    # names that generated goals are answered by stay where a function's proof declares them
    for path, text in texts.items():
        skip = set()
        if is_function_file(path):
            for line in text.split('\n'):
                m = DECLARED.match(line)
                if m and re.search(r':\s*tie\.', line):
                    skip.add(m.group(2))
        new = turned(text, table, skip)
        if new != text:
            open(path, 'w', encoding='utf-8').write(new)
    for path in sorted(glob.glob('crates/*/src/**/*.rt', recursive=True)):
        text = open(path, encoding='utf-8').read()
        out = []
        for part in re.split(r'("(?:[^"\\\n]|\\.)*"|//[^\n]*)', text):
            out.append(part if part[:1] == '"' or part[:2] == '//' else turned(part, table))
        new = ''.join(out)
        if new != text:
            open(path, 'w', encoding='utf-8').write(new)
    for path in sorted(glob.glob('crates/*/must-fail/*')):
        text = open(path, encoding='utf-8').read()
        new = '\n'.join(turned(l, table) if re.match(r'(old|new): ', l) and '"' not in l else l for l in text.split('\n'))
        if new != text:
            open(path, 'w', encoding='utf-8').write(new)
    for path in ['README.md'] + sorted(glob.glob('docs/*.md')):
        text = open(path, encoding='utf-8').read()
        told = dict(table)
        for t in TOKEN.findall(text):
            if has_dash(t) and respelled(t) in plain:
                told.setdefault(t, respelled(t))
        new = re.sub(r'`[^`\n]+`', lambda m: turned(m.group(0), told), text)
        if new != text:
            open(path, 'w', encoding='utf-8').write(new)
    print(len(table), 'names')


main()
