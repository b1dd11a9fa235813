#!/usr/bin/env python3
"""Times the loader on its worst cases, and prints microseconds for each.

    load_bench.py PROGRAM [VECTORS]

PROGRAM is crates/load_run/out/load_run. Each table is put COPIES times; the time to read that much text is taken off by a run on texts of the same length whose header
is wrong, so that they are refused at once. The fastest of RUNS runs counts. With VECTORS the longest table of `mixed` that loads is timed too.
With `callgrind` as the last argument it counts instructions instead of time (valgrind). Those that clear the rows fall out with the reading.
"""
import random
import re
import subprocess
import sys
import tempfile
import time

from bounds import MEMBERS, OF_ONE, PACKAGES, TEXT, TYPES
from vectors import disorder

# types, members and bytes: the bounds, and before them those that document 02 moved
SIZES = [(256, 1024, 32768), (TYPES, MEMBERS, TEXT)]
COPIES = 100
RUNS = 40
HEAD = b'typetable\t1\n'


def table(*lines):
    return HEAD + b''.join(line + b'\n' for line in lines)


INT = b'T\tbasic\t2'


def cases():
    alike = [b'F\t' + b'n' * 62 + b'%02x' % i + b'\t-\t0\t0' for i in range(OF_ONE)]
    packages = [b'P\t' + b'p' * 126 + b'%02d' % i for i in range(PACKAGES)]
    rows = [
        (f'{OF_ONE} fields whose names share 62 bytes', table(INT, b'T\tstruct', *alike)),
        (f'{PACKAGES} packages whose paths share 126 bytes', table(*packages)),
        ('the header alone', HEAD),
    ]
    for types, members, text in SIZES:
        elements = (text - len(table(INT, b'T\ttuple'))) // 2
        rows += [
            (f'{members:,} members', table(INT, *full(members))),
            (f'{types} types in one chain by value, each of a smaller number', table(INT, *[b'T\tarray\t1\t%d' % i for i in range(types - 1)])),
            (f'{types} types in one chain by value, each of a greater number', table(*rising(types))),
            (f'{types} types in one chain by value, in random order', table(*shuffled(types))),
            (f'{types - 4} named types of one struct of {OF_ONE} fields', table(*methods(types - 4))),
            (f'{text:,} bytes, nearly all in one tuple line', table(INT, b'T\ttuple' + b'\t0' * elements)),
        ]
    return rows


def full(members):
    """Structs with so many fields in all, as many in each as there may be."""
    fields = [b'F\tX%d\t-\t0\t0' % (i % OF_ONE) for i in range(members)]
    lines = []
    for i in range(0, members, OF_ONE):
        lines += [b'T\tstruct'] + fields[i:i + OF_ONE]
    return lines


def rising(types):
    lines = []
    for i in range(0, types - 2, 2):
        lines += [b'T\tnamed\t%d' % (i + 1), b'T\tstruct', b'F\tX\t-\t%d\t0' % (i + 2)]
    return lines + [b'T\tnamed\t%d' % (types - 1), INT]


def shuffled(types):
    numbers = list(range(types))
    random.Random(5).shuffle(numbers)
    half = types // 2
    named, structs = numbers[:half], numbers[half:]
    lines = [b''] * types
    for i in range(half):
        lines[named[i]] = b'T\tnamed\t%d' % structs[i]
        lines[structs[i]] = b'T\tstruct' + (b'\nF\tX\t-\t%d\t0' % named[i + 1] if i < half - 1 else b'')
    return lines


def methods(types):
    """So many named types of one struct, with three methods each."""
    lines = [INT, b'T\ttuple', b'T\tfunc\t0\t1\t1', b'T\tstruct'] + [b'F\tfieldnumber%03d\t-\t0\t0' % i for i in range(OF_ONE)]
    for _ in range(types):
        lines += [b'T\tnamed\t3'] + [b'M\tMethod%d\t-\t2\t0' % i for i in range(3)]
    return lines


def longest(vectors):
    texts = open(f'{vectors}/mixed.in', 'rb').read().split(b'---\n')
    tables = [t[:t.index(b'\nQ\n') + 1] for t in texts if b'\nQ\n' in t]
    return max((t for t in tables if t.startswith(HEAD) and disorder(t) is None), key=len)


def run(command, text, copies):
    with tempfile.TemporaryFile() as f:
        f.write((b'%05d\n' % len(text) + text) * copies)
        f.seek(0)
        start = time.perf_counter()
        done = subprocess.run(command, stdin=f, capture_output=True, check=True)
        return time.perf_counter() - start, done


def microseconds(program, text):
    return min(run([program], text, COPIES)[0] for _ in range(RUNS)) / COPIES * 1e6


def instructions(program, text):
    def count(copies):
        done = run(['valgrind', '--tool=callgrind', '--callgrind-out-file=/dev/null', program], text, copies)[1]
        return int(re.search(rb'Collected : (\d+)', done.stderr).group(1))
    return (count(6) - count(1)) / 5


def main():
    args = sys.argv[1:]
    measure, unit = microseconds, 'µs'
    if args[-1] == 'callgrind':
        measure, unit = instructions, 'instructions'
        args.pop()
    program = args[0]
    rows = cases()
    if len(args) > 1:
        rows.append(('the longest table of `mixed`', longest(args[1])))
    for name, text in rows:
        said = run([program], text, 1)[1].stdout.decode().strip().replace('\t', ' ')
        took = measure(program, text) - measure(program, b'x' + text[1:])
        print('%-62s %6d bytes %10.1f %s  %s' % (name, len(text), took, unit, said))


main()
