#!/usr/bin/env python3
"""Counts the places of the design pass in crates/*/src (docs/DESIGN-PASS.md); run by hand, not by the gate.

    design_places.py [--list POINT] [FOLDER]

FOLDER is a checkout, this one if none is named. Each point's line says what is counted; with --list its places are printed as FILE:LINE TEXT.
"""
import glob
import os
import re
import sys

ROOT = os.path.dirname(os.path.dirname(os.path.abspath(__file__)))

# what is counted of each point, by a pattern over the lines of src/
LINES = {
    '1 enums of the shape of Option, Result or Ordering': r'^pub enum (Package|Stage|Part|Num|Past|Digit|Order|Small|Piece|Packaged|Typed|Form|Verdict|Read|Loading|Frame|Own|Missing|Hit|Place|Ask|Next|Parts|Done|Opening)\b',
    '1 numbers for refusals': r'Refused\(\d|Refused\([a-z]+, ?\w+\)|Refused\(n\)',
    '1 numbers for kinds': r'\bkind_number\(|\bkind_in\(|type_word\(rows, \w+, 0\)|\(rows, \w+\) == (SLICE|POINTER|CHAN|TUPLE|FUNC|STRUCT|IFACE|NAMED)',
    '1 numbers for verdicts': r'return [012];|\br == [012]\b|found = 2',
    '4 operators as functions': r'\b(both|or|is|wide)\(',
    '4 fields named twice': r'^\s*(\w+): \1,$|\{ (\w+): \2, ',
    '4 a bool as a number by hand': r'\bif .*\{ 1 \} else \{ 0 \}|flag_number\(',
    '4 keys compared by their numbers': r'\w\.0 [!=]= \w+\.0\b',
    '6 columns of records by numbers': r'\[(TYP|PARENT|PLACE|INDIRECT|MULTIPLES|KEY|LEVEL|FIRST|ROW|HIDDEN)\]',
    '7 a switch on which step to run': r'\btest: Test\b|\ball: bool\b|if all \{',
}

# what is counted over whole files
LOOP = re.compile(r'^[ ]*(?:\'\w+: )?while [^{\n]*\{', re.M)
FN = re.compile(r'^[ ]*(?:pub )?(?:extern "C" )?fn (\w+)[^(]*\(([^{]*?)\)\s*(?:->|\n|\{)', re.M | re.S)
PAIRS = (('text', 'rows'), ('marks', 'labels'), ('walk', 'hits'), ('names', 'q'), ('out', 'at'), ('twins', 'numbers'))


def sources(root):
    return sorted(glob.glob(os.path.join(root, 'crates/*/src/*.rt')))


def by_line(root, pattern):
    for path in sources(root):
        for number, line in enumerate(open(path, encoding='utf-8'), 1):
            code = line.split('//')[0]
            if not line.startswith('ghost') and re.search(pattern, code):
                yield f'{os.path.relpath(path, root)}:{number} {line.strip()}'


def by_text(root, pattern):
    for path in sources(root):
        text = open(path, encoding='utf-8').read()
        for m in pattern.finditer(text):
            yield path, text, m


def loops(root):
    for path, text, m in by_text(root, LOOP):
        number = text.count('\n', 0, m.start()) + 1
        yield f'{os.path.relpath(path, root)}:{number} {m.group(0).strip()}'


def together(root, pair):
    for path, text, m in by_text(root, FN):
        names = re.findall(r'(\w+):', m.group(2))
        if all(n in names for n in pair):
            number = text.count('\n', 0, m.start()) + 1
            yield f'{os.path.relpath(path, root)}:{number} {m.group(1)}'


def measured(root):
    for path, text, m in by_text(root, FN):
        params = m.group(2)
        if re.search(r'&(mut )?\[', params) and re.search(r'\b(n|count|end|top): usize', params):
            number = text.count('\n', 0, m.start()) + 1
            yield f'{os.path.relpath(path, root)}:{number} {m.group(1)}'


def twins(root, shape):
    """Functions alike but for numbers, constants and their own names or, with shape, for all names."""
    groups = {}
    for path in sources(root):
        lines = open(path, encoding='utf-8').read().split('\n')
        for number, line in enumerate(lines):
            m = re.match(r'( *)(?:pub )?fn (\w+)', line)
            if not m:
                continue
            end = next((i for i in range(number, len(lines)) if lines[i] == m.group(1) + '}'), number)
            begin = next((i for i in range(number, end) if re.match(r'.*\{$', lines[i]) and '{ ' not in lines[i]), end)
            body = [re.sub(r'//.*', '', text).strip() for text in lines[begin + 1:end]]
            body = [text for text in body if re.search(r'\w', text)]
            if len(body) < (4 if shape else 2):
                continue
            text = ' '.join(body)
            text = re.sub(r'[A-Za-z_]\w*', 'x', re.sub(r'\d[\d_]*', '0', text)) if shape else re.sub(r'\b(?:\d[\d_]*|[A-Z][A-Z_]+)\b', '0', text)
            groups.setdefault(text, []).append(f'{os.path.relpath(path, root)}:{number + 1} {m.group(2)}')
    for group in groups.values():
        if len(group) > 1:
            yield from group


def answers(root):
    for path in sorted(glob.glob(os.path.join(root, 'crates/*/proofs/**/Answers.antt'), recursive=True)):
        for number, line in enumerate(open(path, encoding='utf-8'), 1):
            if re.match(r'pub \S+ : goal\.', line):
                yield f'{os.path.relpath(path, root)}:{number} {line.strip()}'


def main(args):
    wanted = None
    if args[:1] == ['--list']:
        wanted, args = args[1], args[2:]
    root = args[0] if args else ROOT
    found = {name: list(by_line(root, pattern)) for name, pattern in LINES.items()}
    found['3 loops by while'] = list(loops(root))
    for pair in PAIRS:
        found[f'5 functions with {pair[0]} and {pair[1]}'] = list(together(root, pair))
    found['2 functions alike but for constants'] = list(twins(root, False))
    found['2 functions of one shape'] = list(twins(root, True))
    found['6 a buffer with a length beside it'] = list(measured(root))
    found['8 answers'] = list(answers(root))
    for name in sorted(found):
        if wanted is None:
            print(f'{len(found[name]):5}  {name}')
        elif name.startswith(wanted):
            print(*found[name], sep='\n')


if __name__ == '__main__':
    main(sys.argv[1:])
