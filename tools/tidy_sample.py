#!/usr/bin/env python3
"""Makes the stdin and stdout of the program tidy_run: small tables, each behind its length, and what each is tidied to.

    tidy_sample.py VECTORS02 CRATE

The first tables stand here, with what is due worked out by hand. VECTORS02 has tools/tidy-6.txt: a case a line, with the table, the room, the number that comes
back and the output, bytes in hexadecimal. Of tables of at most SMALL bytes all cases with room for the output are taken. A tidied table is printed as it is, a refused
one as `refused`, the number and the line.
"""
import sys

SMALL = 700
UNIT = 65536

# lines parted by ` / `, blanks for tabs, without the first line: a table, and the tidied one
HAND = [
    # Byte is Uint8, and so are the structs made of either; an exported field's package does not count; two names stay two
    ('P a / P b / T basic 8 / T basic 26 / T struct / F X 0 1 0 / T struct / F X 1 0 0 / T named 3 / T named 2',
     'P a / P b / T basic 8 / T struct / F X 0 0 0 / T named 1 / T named 1'),
    # two interfaces, each made of its own like
    ('T iface / M X - 4 0 / T iface / M X - 5 0 / T tuple 0 / T tuple 1 / T func 0 2 2 / T func 0 3 3',
     'T iface / M X - 2 0 / T tuple 0 / T func 0 1 1'),
    # a tag, an embedded mark and a package path keep structs apart
    ('P a / P b / T struct / F x 0 8 0 / T struct / F x 1 8 0 / T struct / F x 0 8 0 t / T struct / F x 0 8 1 / T struct / F x 0 8 0 '
     '/ T basic 2 / T pointer 0 / T pointer 4 / T named 5',
     'P a / P b / T struct / F x 0 6 0 / T struct / F x 1 6 0 / T struct / F x 0 6 0 t / T struct / F x 0 6 1 / T basic 2 / T pointer 0 / T named 4'),
    # pointers to named types, twice each; the names may come later
    ('T pointer 4 / T pointer 5 / T pointer 4 / T struct / T named 3 / T named 3 / T pointer 5 / T map 2 6 / T map 0 1',
     'T pointer 3 / T pointer 4 / T struct / T named 2 / T named 2 / T map 0 1'),
    # a chain of pairs, one of them of another length
    ('T basic 1 / T basic 1 / T array 3 0 / T array 3 1 / T slice 2 / T slice 3 / T chan 1 4 / T chan 2 5 / T array 4 1',
     'T basic 1 / T array 3 0 / T slice 1 / T chan 1 2 / T chan 2 2 / T array 4 0'),
]


def unhex(field):
    return b'' if field == '-' else bytes.fromhex(field)


def due(number, output):
    if number >= 0:
        return output
    return b'refused\t%d\t%d\n' % divmod(-number, UNIT)


def cases(path):
    with open(path) as lines:
        for line in lines:
            table, room, number, output = line.split()
            yield unhex(table), int(number), unhex(output)


def text(lines):
    return ('typetable\t1\n' + ''.join(l.replace(' ', '\t') + '\n' for l in lines.split(' / '))).encode()


def taken(path):
    for table, tidied in HAND:
        yield text(table), text(tidied)
    for table, number, output in cases(path):
        if len(table) <= SMALL and -number // UNIT != 13:
            yield table, due(number, output)


def main():
    vectors, crate = sys.argv[1:]
    inputs, outputs = [], []
    for table, output in taken(vectors + '/tools/tidy-6.txt'):
        inputs.append(b'%05d\n' % len(table) + table)
        outputs.append(output)
    with open(crate + '/stdin', 'wb') as f:
        f.write(b''.join(inputs))
    with open(crate + '/stdout', 'wb') as f:
        f.write(b''.join(outputs))
    print(len(inputs), 'tables')


main()
