#!/usr/bin/env python3
"""Counts the places that the design pass looks at: python3 tools/places.py [POINT..] at the top of the repository.

Each point prints the lines of crates/*/src that its pattern finds, and how many they are; the tests in `cases` are read by eye. A line
is a candidate: docs/DESIGN-PASS.md says which of them are places.
"""
import collections
import glob
import re
import sys

FILES = sorted(f for f in glob.glob('crates/*/src/**/*.rt', recursive=True) if not f.startswith('crates/cases/'))
TEXTS = {f: open(f, encoding='utf-8').read() for f in FILES}

# For each point, what a line has that may be a place of it.
PATTERNS = {
    1: r'^\s+(Nothing|Neither|Open),|\b(good|aborted): bool|\bkind: u32|low_half\(\d|head_word\(\d|0x[0-9A-F]000_0000|=> 1[145],'
       r'|-> Option<(Cause|Fault)>|Result<bool>|fn set\(',
    3: r'^\s*(while|loop)\b|^\s*for \w+ in \S*\d\.\.|\.enumerate\(\)|\[\w+ \* \w+|\.get\(i\)',
    4: r'^\s*(pub(\(\w+\))? )?fn (text|name|number|of_key|key|in_word|from_bound|above|below|cause_of|field_of|field_number|refusal|value_of'
       r'|bits_of|words_in|larger|has_key)\b|impl fmt::Display|\.cmp\(| as (u16|i32|u32|usize)\b|fn write_\w+|fn refuse\b',
    6: r'^\s+(pub )?(count|limit): usize,|: \[\w+; \w+\],|low < high|pairs\[|words\[',
    7: r'\b(layout|meeting): \w+|\b(wanted|makes_way): bool|match (layout|meeting)\b',
}

FN = re.compile(r'^( *)(?:pub(?:\(\w+\))? )?fn (\w+)', re.M)


def functions():
    """Each function as (file, name, text), its contract and body included."""
    for file, text in TEXTS.items():
        for m in FN.finditer(text):
            end = re.compile(r'^%s(\}|.*;$)' % m.group(1), re.M).search(text, m.end())
            yield file, m.group(2), text[m.start():end.end() if end else len(text)]


def shape(text):
    """A function without its contract, with each name and number replaced, so that twins have one shape."""
    lines = [l for l in text.split('\n') if not re.match(r'\s*(ensures|requires|//|≡)', l)]
    if len(lines) < 4:
        return None
    kept = ('fn', 'let', 'mut', 'if', 'else', 'match', 'for', 'in', 'while', 'return', 'self', 'Some', 'None', 'Ok', 'Err')
    code = re.sub(r'\bpub(\(\w+\))? ', '', '\n'.join(lines))
    code = re.sub(r'\b\d[\w]*\b', '0', code)
    code = re.sub(r'\b[A-Za-z_]\w*\b', lambda w: w.group(0) if w.group(0) in kept else 'x', code)
    return re.sub(r'\s+', ' ', code)


def twins():
    groups = collections.defaultdict(list)
    for file, name, text in functions():
        groups[shape(text)].append(f'{file}: {name}')
    groups.pop(None, None)
    return [' ~ '.join(g) for g in groups.values() if len(g) > 1]


def facts():
    """Facts of `requires` that stand in three functions or more, and pairs of parameters that do."""
    clauses, pairs = collections.defaultdict(set), collections.defaultdict(set)
    for file, name, text in functions():
        for clause in re.findall(r'requires(?: \w+)? \{ (.*?) \}', text):
            clauses[re.sub(r'\.(now|old|new)\b', '', clause)].add(f'{file}: {name}')
        head = text.split('{')[0].split(' requires ')[0].split(' ensures ')[0]
        names = re.findall(r'(\w+): (?:u32|u16|i32|usize|&\w+<\w+>|&\[\w+\])', head)
        for i, a in enumerate(names):
            for b in names[i + 1:]:
                pairs[a + ', ' + b].add(f'{file}: {name}')
    out = []
    for what, groups in (('fact', clauses), ('parameters', pairs)):
        for text, where in sorted(groups.items()):
            if len(where) > 2:
                out.append(f'{what} {text}: ' + '; '.join(sorted(where)))
    return out


def proofs():
    answers = sorted(glob.glob('crates/*/proofs/**/Answers.antt', recursive=True))
    lemmas = [f for f in glob.glob('crates/*/proofs/**/*.antt', recursive=True)
              if not f.endswith(('Answers.antt', 'Invariants.antt', 'Lib.antt', 'Given.antt'))]
    given = sum(len(re.findall(r'^(?:pub )?[\w\'-]+ : goal\.', open(f, encoding='utf-8').read(), re.M)) for f in answers)
    lines = sum(open(f, encoding='utf-8').read().count('\n') for f in answers + lemmas)
    return [f'{given} answers in {len(answers)} files; {len(lemmas)} files of lemmas; {lines} lines']


def found(point):
    if point == 2:
        return twins()
    if point == 5:
        return facts()
    if point == 8:
        return proofs()
    pattern = re.compile(PATTERNS[point])
    return [f'{f}:{i}: {line.strip()}' for f in FILES for i, line in enumerate(TEXTS[f].split('\n'), 1) if pattern.search(line)]


for point in [int(a) for a in sys.argv[1:]] or range(1, 9):
    rows = found(point)
    print(f'point {point}: {len(rows)}')
    for row in rows:
        print('  ' + row)
