#!/usr/bin/env python3
"""Gives our choice by a test the name provided◌then◌else◌, since if◌then◌else◌ is a word of the library today.

Run at the top, once, after snake_names.py: `python3 tools/provided.py`. Rust's own `if` stays: only clauses, definitions and proofs are turned,
and the lines of must-fail edits and of papers that quote them.
"""
import glob
import re

WORD = re.compile(r"(?<![\w'`-])if(?= )")


def of_code(text):
    """The text with `if` turned, outside comments."""
    text = text.replace('if◌then◌else◌', 'provided◌then◌else◌')
    text = re.sub(r"(?<![\w'-])if_(true|false)(?![\w'-])", r'provided_\1', text)
    lines = []
    for line in text.split('\n'):
        code, dashes, comment = line.partition('--')
        lines.append(WORD.sub('provided', code) + dashes + comment)
    return '\n'.join(lines)


def of_source(text):
    """A source file with its clauses turned."""
    out, at = [], 0
    for m in re.finditer(r'^\s*(?:requires|ensures)\b[^{\n]*\{', text, re.M):
        if m.start() < at:
            continue
        deep, end = 1, m.end()
        while deep:
            deep += {'{': 1, '}': -1}.get(text[end], 0)
            end += 1
        out.append(text[at:m.end()])
        out.append(of_code(text[m.end():end]))
        at = end
    out.append(text[at:])
    return ''.join(out).replace('if◌then◌else◌', 'provided◌then◌else◌')


def of_quote(line):
    """A line that quotes a definition or a clause."""
    return of_code(line) if re.search(r'\bif\b.*\bthen\b|◌then◌|\bif_(true|false)\b', line) else line


def turn(path, by):
    text = open(path, encoding='utf-8').read()
    new = by(text)
    if new != text:
        open(path, 'w', encoding='utf-8').write(new)


for path in glob.glob('crates/*/specs/**/*.antt', recursive=True) + glob.glob('crates/*/proofs/**/*.antt', recursive=True):
    turn(path, of_code)
for path in glob.glob('crates/*/src/**/*.rt', recursive=True):
    turn(path, of_source)
for path in glob.glob('crates/*/must-fail/*.edit'):
    turn(path, lambda t: '\n'.join(of_quote(l) if re.match('(old|new): ', l) else l for l in t.split('\n')))
for path in ['README.md'] + glob.glob('docs/*.md'):
    turn(path, lambda t: re.sub(r'`[^`\n]*`', lambda m: of_quote(m.group(0)), t))
