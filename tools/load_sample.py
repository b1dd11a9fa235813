#!/usr/bin/env python3
"""Makes the stdin and stdout of the program load_run: tables, each behind its length, and what loading gives.

    load_sample.py VECTORS VECTORS02 CRATE

VECTORS has the base's small, mixed and damaged (.in and .out), and VECTORS02 the pair 5 of document 02, with points 1 to 5 in force: inputs of typeask with what
it prints. Of the base's a sample is taken that has every refusal from 3 to 10 but 6 and every form of line, and none that a bound refused; those whose packages are
out of order are taken with refusal 14. Of the pair 5 the cases worked out by hand are taken, and every k-th other. The edges of document 01 are added, at the bounds
of document 02, and tables of packages in order and out of it. A table that loads gives `ok` and the counts of its P, T, and F and M lines; a refused one gives
`refused`, the number and the line, as typeask prints it.
"""
import sys

from bounds import MEMBERS, OF_ONE, PACKAGES, TEXT, TYPES, full_structs
from inputs import HEAD, refused, table
from orders import orders
from vectors import BY_HAND, cases, in_order, past_bound, refused_by


def table_of(text):
    """The table: what stands before the first line that is exactly Q."""
    at = 0
    while at < len(text):
        end = text.find(b'\n', at)
        if end < 0:
            return text
        if text[at:end] == b'Q':
            return text[:at]
        at = end + 1
    return text


def counts(table):
    lines = table.split(b'\n')[1:]
    p = sum(l.startswith(b'P\t') for l in lines)
    t = sum(l.startswith(b'T\t') for l in lines)
    m = sum(l.startswith((b'F\t', b'M\t')) for l in lines)
    return b'ok\t%d\t%d\t%d\n' % (p, t, m)


def loading(case, out):
    """The table of a case and what loading it gives, where the input as a whole is not too long."""
    table = table_of(case)
    if refused_by(out, *range(2, 11), 14):
        return table, out
    return table, counts(table)


def sample(vectors, vectors02):
    fifth = cases(vectors02, '5')
    others = fifth[BY_HAND::2]
    for name, step in [('small', 9), ('mixed', 9), ('damaged', 3)]:
        others += [in_order(*case) for case in cases(vectors, name)[::step] if not past_bound(case[1])]
    chosen = fifth[:BY_HAND] + [case for case in others if len(table_of(case[0])) < 9000]
    return [loading(*case) for case in chosen if len(case[0]) <= TEXT]


def order_edges():
    """Tables of packages in order and out of it."""
    tables = [(table(*lines), due) for lines, due in orders()]
    return [(text, refused(*due) if due else counts(text)) for text, due in tables]


def edges():
    """The bounds of document 01, one below or at and one above."""
    int_type = b'T\tbasic\t2'
    fields = [b'F\tX%d\t-\t0\t0' % i for i in range(OF_ONE + 1)]
    packages = [b'P\tp%02d' % i for i in range(PACKAGES + 1)]
    long_name = b'F\t' + b'n' * 65 + b'\t-\t0\t0'
    structs, count = full_structs(fields)
    full = [int_type] + structs
    wide = HEAD + b'P\t' + b'p' * 128 + b'\n'
    comment = b'T\ttuple' + b'\t0' * ((TEXT - len(HEAD) - len(int_type) - 1 - len(b'T\ttuple') - 1) // 2)
    tuple_line = table(int_type, comment)
    tuple_line = tuple_line[:-1] + b'0\n' if len(tuple_line) < TEXT else tuple_line
    return [
        (table(int_type, b'T\tstruct', *fields[:OF_ONE]), b'ok\t0\t2\t%d\n' % OF_ONE),
        (table(int_type, b'T\tstruct', *fields), refused(6, 1 + 2 + OF_ONE + 1)),
        (table(int_type, b'T\tstruct', long_name.replace(b'n' * 65, b'n' * 64)), b'ok\t0\t2\t1\n'),
        (table(int_type, b'T\tstruct', long_name), refused(4, 4)),
        (table(*[int_type] * TYPES), b'ok\t0\t%d\t0\n' % TYPES),
        (table(*[int_type] * (TYPES + 1)), refused(6, 1 + TYPES + 1)),
        (table(*packages[:PACKAGES]), b'ok\t%d\t0\t0\n' % PACKAGES),
        (table(*packages), refused(6, 1 + PACKAGES + 1)),
        (table(*full), b'ok\t0\t%d\t%d\n' % (count + 1, MEMBERS)),
        (table(*full, b'F\tY\t-\t0\t0'), refused(6, 1 + 1 + count + MEMBERS + 1)),
        (wide, b'ok\t1\t0\t0\n'),
        (wide[:-1] + b'p\n', refused(4, 2)),
        (tuple_line, b'ok\t0\t2\t0\n' if len(tuple_line) == TEXT and not tuple_line.endswith(b'00\n') else refused(4, 3)),
        (tuple_line + b'\n' * (TEXT + 1 - len(tuple_line)), refused(2, 0)),
        (HEAD, b'ok\t0\t0\t0\n'),
        (b'', refused(3, 1)),
        (HEAD[:-1], refused(3, 1)),
        (HEAD + int_type, refused(4, 2)),
        (HEAD + int_type + b'\r\n', refused(4, 2)),
        (HEAD + b'\x00\n', refused(4, 2)),
        (HEAD + b'P\t\xff\n', refused(4, 2)),
        (b'x' * TEXT, refused(3, 1)),
        (b'x' * (TEXT + 1), refused(2, 0)),
    ]


def main():
    vectors, vectors02, crate = sys.argv[1:4]
    rows = sample(vectors, vectors02) + edges() + order_edges()
    with open(f'{crate}/stdin', 'wb') as tables, open(f'{crate}/stdout', 'wb') as results:
        for table, result in rows:
            tables.write(b'%05d\n' % len(table) + table)
            results.write(result)
    seen = sorted({r.split(b'\t')[1] if r.startswith(b'refused') else b'ok' for _, r in rows})
    print(len(rows), 'tables;', b' '.join(seen).decode())


main()
