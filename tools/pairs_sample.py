#!/usr/bin/env python3
"""Makes the stdin and stdout of the program pairs_run: tables, each behind its length, and what comparing the last two types of each gives.

    pairs_sample.py CRATE

What is due is the answer and how many pairs of types are met. It is said here with its reason, and no program is asked. A pair is met where nothing but the
parts of the two can tell them apart, and counts once however often it comes up. A type with itself is no pair. A pair of interfaces that is put off stays so: it
is not met, and taken for identical.
"""
import sys

from bounds import TYPES


class Table:
    """A table text that types are added to. Blanks in its lines stand for tabs."""

    def __init__(self):
        self.lines = ['typetable 1', 'P a', 'P b']
        self.types = 0

    def put(self, kind, *members):
        """Adds a type with the lines of its members and gives its number."""
        self.lines += [f'T {kind}', *members]
        self.types += 1
        return self.types - 1

    def put_func(self, parameter):
        """Adds a func of one parameter and no results."""
        return self.put(f'func 0 {self.put(f"tuple {parameter}")} {NONE}')

    def text(self):
        return ''.join(line.replace(' ', '\t') + '\n' for line in self.lines).encode()


def no(table, pairs):
    return table.text(), b'no\t%d\n' % pairs


def yes(table, pairs):
    return table.text(), b'yes\t%d\n' % pairs


# ---- deep types: the numbers of their levels, the deepest first

POINTERS, INTERFACES = 121, 31


def pointers(table):
    """A struct, a pointer to it, a pointer to that and so on."""
    levels = [table.put('struct')]
    while len(levels) < POINTERS:
        levels.append(table.put(f'pointer {levels[-1]}'))
    return levels


def interfaces(table):
    """An interface without methods, one whose method takes it, one whose method takes that and so on."""
    levels = [table.put('iface')]
    while len(levels) < INTERFACES:
        levels.append(table.put('iface', f'M M - {table.put_func(levels[-1])} 0'))
    return levels


# the pairs that are met in two such types: the interfaces of each level, and of each but the deepest the funcs and their tuples; the results are one tuple
NEST = INTERFACES + 2 * (INTERFACES - 1)

# the first types of each table with deep types
NONE, INT, STRING = range(3)


def twins(deep):
    """A table with a deep type and its twin, which is another type at each level, and identical."""
    table = Table()
    for kind in ['tuple', 'basic 2', 'basic 17']:
        table.put(kind)
    return table, [deep(table), deep(table)]


def structs(deep, *sides, at=254):
    """A table of two structs, and their numbers. Each has 254 fields, whose types are the levels of one twin in turn. Among them, at a place, are the lines of
    its side, where {} is the deepest level."""
    table, both = twins(deep)
    numbers = []
    for levels, lines in zip(both, sides):
        fields = [f'F F{k} - {levels[k % len(levels)]} 0' for k in range(254)]
        fields[at:at] = [line.format(levels[0]) for line in lines]
        numbers.append(table.put('struct', *fields))
    return table, numbers


FIELD = 'F X - {} 0'
OTHER_TAG = [FIELD], [FIELD + ' json']


def told_at_once():
    """Two structs that differ in the last field, and not in its type: they are told apart before their pair is met and before the type of any field is looked
    at."""
    differ = [
        OTHER_TAG,
        ([FIELD + ' json'], [FIELD + ' JSON']),
        # the name
        ([FIELD], ['F Y - {} 0']),
        # the package of a name that is not exported
        (['F x 0 {} 0'], ['F x 1 {} 0']),
        # the embedded mark
        ([FIELD], ['F X - {} 1']),
        # 255 fields and 254
        ([FIELD], []),
        ([], [FIELD]),
    ]
    over_pointers = [no(structs(pointers, *sides)[0], 0) for sides in differ]
    return over_pointers + [no(structs(interfaces, *OTHER_TAG)[0], 0)]


def told_below():
    """Two such structs as parts of the types that are compared: the pairs above them are met, and none below."""
    # the pair of pointers
    pointed, parts = structs(pointers, *OTHER_TAG)
    for part in parts:
        pointed.put(f'pointer {part}')
    # the pair of funcs and the pair of tuples
    taken, parts = structs(pointers, *OTHER_TAG)
    tuples = [taken.put(f'tuple {part}') for part in parts]
    for part in tuples:
        taken.put(f'func 0 {part} {NONE}')
    # the pair of structs with one field
    held, parts = structs(pointers, *OTHER_TAG)
    for part in parts:
        held.put('struct', FIELD.format(part))
    return [no(pointed, 1), no(taken, 2), no(held, 1)]


def told_by_types():
    """Two structs that differ in nothing, or in the type of one field: their pair is met, and what the fields before that one lead to. Each level comes up twice
    or more often, and is met at the first."""
    tagged, same, other = [FIELD + ' json'], [f'F X - {INT} 0'], [f'F X - {STRING} 0']
    return [
        yes(structs(pointers, tagged, tagged)[0], 1 + POINTERS),
        yes(structs(interfaces, tagged, tagged)[0], 1 + NEST),
        no(structs(interfaces, same, other)[0], 1 + NEST),
        no(structs(interfaces, same, other, at=0)[0], 1),
        # the fields before have the three deepest levels: as many interfaces, and the funcs and tuples of two of them
        no(structs(interfaces, same, other, at=3)[0], 1 + 3 + 2 * 2),
    ]


def told_by_methods():
    """Two interfaces of four methods, which take the four highest levels of a deep type, the highest first. If the last names differ no pair is met, and
    behind pointers that of the pointers alone. If none does, the two are, the funcs and tuples of the four, and all that the first leads to."""
    apart, _ = ifaces('D', 'E')
    pointed, parts = ifaces('D', 'E')
    for part in parts:
        pointed.put(f'pointer {part}')
    same, _ = ifaces('D', 'D')
    return [no(apart, 0), no(pointed, 1), yes(same, 1 + 4 * 2 + NEST)]


def ifaces(*last_names):
    """A table of the two with these names of the last method, and their numbers."""
    table, both = twins(interfaces)
    methods = []
    for levels, last in zip(both, last_names):
        funcs = [table.put_func(level) for level in levels[:-5:-1]]
        methods.append([f'M {name} - {func} 0' for name, func in zip(['A', 'B', 'C', last], funcs)])
    return table, [table.put('iface', *lines) for lines in methods]


# so many levels are nested before a pair of interfaces is put off
OPEN_LEVELS = 250


def far_below():
    """What tells two types apart many levels below them; they are at level 0."""
    # two structs that differ in a tag, below as many pointers to each as there are types for
    table = Table()
    number = table.put('basic 2')
    x, y = [table.put('struct', line.format(number)) for line, in OTHER_TAG]
    depth = (TYPES - 3) // 2
    for _ in range(depth):
        x, y = table.put(f'pointer {x}'), table.put(f'pointer {y}')
    rows = [no(table, depth)]
    # At the level that puts pairs of interfaces off and as far below as there are types for, below one pair of each level. No pair of structs is put off: without
    # the tag the two are one pair more, and their fields, an int and a pointer, tell them apart.
    for levels in OPEN_LEVELS, TYPES - 6:
        rows += [no(chain(levels, ' json'), levels), no(chain(levels, ''), levels + 1)]
    return rows + put_off()


def chain(levels, tag):
    """An int and three types more than there are levels, each made of the type before: every third is a struct of one field, with this tag in the first of them,
    and the others are pointers. The last two types are pointers to the last of these and to the one three before. So each level below has two of them that stand
    three apart, and the lowest level the first and the fourth."""
    table = Table()
    types = [table.put('basic 2')]
    for k in range(levels + 3):
        struct = k % 3 == 0
        below = types[-1]
        types.append(table.put('struct', FIELD.format(below) + tag * (k == 0)) if struct else table.put(f'pointer {below}'))
    for part in types[levels], types[levels + 3]:
        table.put(f'pointer {part}')
    return table


def put_off():
    """Two interfaces of one method each, below pointers. At the last level that opens them their pair is met, and so are the pairs of funcs and of tuples below it,
    whose parameters are one type, or tell them apart. A level deeper the pair is put off: it is not met, and nothing below it is looked at."""
    opened, deeper = OPEN_LEVELS - 1, OPEN_LEVELS
    same, other = [INT, INT], [INT, STRING]
    return [
        yes(over_interfaces(opened, same), opened + 3),
        no(over_interfaces(opened, other), opened + 3),
        yes(over_interfaces(deeper, same), deeper),
        yes(over_interfaces(deeper, other), deeper),
    ]


def over_interfaces(levels, parameters):
    """So many pointers down to each of two interfaces, whose methods take these."""
    table = Table()
    for kind in ['tuple', 'basic 2', 'basic 17']:
        table.put(kind)
    types = [table.put('iface', f'M M - {table.put_func(parameter)} 0') for parameter in parameters]
    for _ in range(levels):
        types = [table.put(f'pointer {part}') for part in types]
    return table


def plain():
    """Types without parts; a refused table; and too few types."""
    rows = []
    for kinds, result in [
        (['basic 8', 'basic 26'], b'yes\t1\n'),
        (['basic 8', 'basic 2'], b'no\t0\n'),
        (['basic 8', 'named 0', 'named 0'], b'no\t0\n'),
        (['slice 1', 'basic 2'], b'refused\n'),
        (['basic 2'], b'none\n'),
        ([], b'none\n'),
    ]:
        table = Table()
        for kind in kinds:
            table.put(kind)
        rows.append((table.text(), result))
    return rows + [(b'', b'refused\n')]


def main():
    crate = sys.argv[1]
    rows = told_at_once() + told_below() + told_by_types() + told_by_methods() + far_below() + plain()
    with open(f'{crate}/stdin', 'wb') as tables, open(f'{crate}/stdout', 'wb') as results:
        for table, result in rows:
            tables.write(b'%05d\n' % len(table) + table)
            results.write(result)
    print(len(rows), 'tables')


main()
