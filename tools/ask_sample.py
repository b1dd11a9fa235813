#!/usr/bin/env python3
"""Makes the stdin and stdout of the programs typeask_run and typeask: inputs of typeask, and what it prints.

    host/compare/target/release/random_inputs 1 3000 > RANDOM
    ask_sample.py VECTORS VECTORS02 RANDOM CRATES

VECTORS has the base's small, mixed and damaged (.in and .out): inputs of typeask with what it prints. Every k-th is taken of those that document 02 leaves as
they are or refuses by 14; what a bound refused is not among them. VECTORS02 has the pairs 1, 2, 4 and 5, with points 1 to that number in force: the first cases of
5, worked out by hand, are all taken, then every k-th and those with two ways of all four, where points after their own leave them as they are or refuse them by 14.
Every k-th short case of both that 14 refuses is also taken with its packages put in order, where the points before 5 leave it as it is. The edges of document 01 are
added, at the bounds of document 02, and tables of packages in order and out of it; what is due for them is said here, with the sentence of document 01 or 02 that
decides it, and no program is asked. RANDOM has random and damaged tables with one question each, and what goscript's answers without the two departures of a method
set and the papers' refusals give for them, none of it `ambiguous`. CRATES/typeask_run gets all of it, each input behind its length and each print behind its number;
CRATES/typeask gets the example of document 01 alone.
"""
import sys

from bounds import MEMBERS, OF_ONE, PACKAGES, QUESTION, TEXT, TYPES, full_structs
from inputs import HEAD, asked, lines, refused, table
from ordered import ordered
from orders import orders
from sets import set_edges, set_of
from vectors import BY_HAND, base, of_points, read

INT = b'T\tbasic\t2'


def sample(vectors, vectors02):
    chosen = []
    for name, step in [('small', 5), ('mixed', 3), ('damaged', 10)]:
        chosen += base(vectors, name)[::step]
    for k, case in enumerate(of_points(vectors02)):
        if k < BY_HAND or k % 4 == 0 or b'\nand\t' in case[1]:
            chosen.append(case)
    # no more than a byte above the bound of an input is read
    return [(text[:TEXT + 1], print_) for text, print_ in chosen]


def put_in_order(vectors, vectors02):
    """Some short cases that 14 refuses as they are stored."""
    return [case for case in ordered(vectors, vectors02) if len(case[0]) <= 900][::3]


def random(path):
    parts, data = [], read(path)
    while data:
        n = int(data[:5])
        parts.append(data[6:6 + n])
        data = data[6 + n:]
    return list(zip(parts[::2], parts[1::2]))


def tabs(text):
    """A text of document 01: "Spaces below stand for tabs"."""
    return text.strip().replace(' ', '\t').encode() + b'\n'


def tabbed(ls):
    """Lines with blanks for tabs."""
    return [l.replace(' ', '\t').encode() for l in ls]


EXAMPLE = tabs('''
typetable 1
P office/cat
T basic 2
T tuple
T func 0 1 1
T named 4
M Close 0 2 1
T struct
F Len 0 0 0
T pointer 3
T struct
F Block 0 5 1
T named 6
Q
S 7 0 0 Close
S 7 0 0 Len
S 3 0 0 Close
S 7 0 0 Open
M 3
M 5
M 7
C 2
''')
EXAMPLE_PRINT = tabs('''
entry 0 1 0 0
entry 1 1 0 0
badreceiver
notfound
set 0
set 1
sel 0 1 0
set 1
sel 0 1 0 0
no
''')
EXAMPLE_TABLE = EXAMPLE[:EXAMPLE.index(b'Q\n')]
# its P, T, and F and M lines
EXAMPLE_COUNTS = b'ok\t1\t8\t3\n'


def input_edges():
    """Where the table ends and what a question is."""
    wrong = refused(11, 0)
    lines_before = EXAMPLE_TABLE.count(b'\n')
    return [
        (EXAMPLE, EXAMPLE_PRINT),
        # "The last question may lack its newline"
        (EXAMPLE[:-1], EXAMPLE_PRINT),
        # "a last `Q` without one is table text": its last line has no newline, 4
        (EXAMPLE_TABLE + b'Q', refused(4, lines_before + 1)),
        # "without `Q`, one V"
        (EXAMPLE_TABLE, EXAMPLE_COUNTS),
        # `Q` is there, so no V; there are no questions and so no answers
        (EXAMPLE_TABLE + b'Q\n', b''),
        # the first line is not the header: 3, "also for empty text"; "once and alone for a refused table, even without questions"
        (b'', refused(3, 1)),
        (b'Q\n', refused(3, 1)),
        (b'Q', refused(3, 1)),
        (b'\n', refused(3, 1)),
        (b'Q\nV\nV\n', refused(3, 1)),
        (HEAD[:-1] + b'\r\n' + b'Q\nV\n', refused(3, 1)),
        # the header alone is a table; without its newline it is no header
        (HEAD, b'ok\t0\t0\t0\n'),
        (HEAD[:-1], refused(3, 1)),
        # an empty line is a question of wrong form, and the questions behind it are answered
        (EXAMPLE_TABLE + b'Q\n\n', wrong),
        (EXAMPLE_TABLE + b'Q\n\nV\n\n\nV', wrong + EXAMPLE_COUNTS + wrong + wrong + EXAMPLE_COUNTS),
        # only the first line `Q` ends the table: a later one is a question of wrong form
        (EXAMPLE_TABLE + b'Q\nQ\nV\nQ\nQ', wrong + EXAMPLE_COUNTS + wrong + wrong),
        # a line that is not exactly `Q` is table text: 4
        (EXAMPLE_TABLE + b'Q\r\nQ\nV\n', refused(4, lines_before + 1)),
        (EXAMPLE_TABLE + b'Q\t\nQ\nV\n', refused(4, lines_before + 1)),
        (EXAMPLE_TABLE + b'QQ\nQ\nV\n', refused(4, lines_before + 1)),
        (EXAMPLE_TABLE + b'q\nQ\nV\n', refused(4, lines_before + 1)),
        (EXAMPLE_TABLE + b'\nQ\nV\n', refused(4, lines_before + 1)),
        # more bytes in all than the bound are refusal 2; a question that is too long is 11
        (EXAMPLE + b'x' * (TEXT - len(EXAMPLE)), EXAMPLE_PRINT + wrong),
        (EXAMPLE + b'x' * (TEXT + 1 - len(EXAMPLE)), refused(2, 0)),
        (EXAMPLE_TABLE + b'Q\n' + b'\n' * 3000 + b'V', wrong * 3000 + EXAMPLE_COUNTS),
        (b'x' * TEXT, refused(3, 1)),
        (b'x' * (TEXT + 1), refused(2, 0)),
        (b'\n' * (TEXT + 1), refused(2, 0)),
    ]


def bound_edges():
    """The bounds of members, names, types, packages and paths: the last that there is room for and the next."""
    fields = [b'F\tX%d\t-\t0\t0' % i for i in range(OF_ONE + 1)]
    packages = [b'P\tp%02d' % i for i in range(PACKAGES + 1)]
    name = b'n' * 64
    structs, count = full_structs(fields)
    full, last = [INT] + structs, MEMBERS % OF_ONE - 1
    return [
        # the field X254 is member 254, at place 254; X255 is not there
        (asked(table(INT, b'T\tstruct', *fields[:OF_ONE]), b'V', b'S\t1\t0\t-\tX%d' % (OF_ONE - 1), b'S\t1\t0\t-\tX%d' % OF_ONE),
         b'ok\t0\t2\t%d\nentry\t%d\t0\t%d\nnotfound\n' % (OF_ONE, OF_ONE - 1, OF_ONE - 1)),
        # 6: a member more of one type stands behind the header and two T lines
        (asked(table(INT, b'T\tstruct', *fields), b'V', b'S\t1\t0\t-\tX0'), refused(6, 1 + 2 + OF_ONE + 1)),
        # "Names: 1 to 64": the name of 64 bytes is found; of 65 it is no name, in a question (11) and in the table (4)
        (asked(table(INT, b'T\tstruct', b'F\t' + name + b'\t-\t0\t0'), b'S\t1\t0\t-\t' + name, b'S\t1\t0\t-\t' + name[1:], b'S\t1\t0\t-\t' + name + b'n', b'V'),
         b'entry\t0\t0\t0\nnotfound\n' + refused(11, 0) + b'ok\t0\t2\t1\n'),
        (asked(table(INT, b'T\tstruct', b'F\t' + name + b'n\t-\t0\t0'), b'V'), refused(4, 4)),
        # the last type; the number behind it is one that the table lacks (11); a type more is 6
        (asked(table(*[INT] * TYPES), b'V', b'C\t%d' % (TYPES - 1), b'C\t%d' % TYPES, b'I\t0\t%d' % (TYPES - 1), b'M\t%d' % (TYPES - 1)),
         b'ok\t0\t%d\t0\nyes\n' % TYPES + refused(11, 0) + b'yes\nset\t0\n'),
        (asked(table(*[INT] * (TYPES + 1)), b'V', b'C\t0'), refused(6, 1 + TYPES + 1)),
        (asked(table(*packages[:PACKAGES], INT), b'V', b'S\t0\t0\t%d\tx' % (PACKAGES - 1), b'S\t0\t0\t%d\tx' % PACKAGES),
         b'ok\t%d\t1\t0\nnotfound\n' % PACKAGES + refused(11, 0)),
        (asked(table(*packages), b'V'), refused(6, 1 + PACKAGES + 1)),
        # the last member stands in the last struct, the highest type
        (asked(table(*full), b'V', b'S\t%d\t1\t-\tX%d' % (count, last)), b'ok\t0\t%d\t%d\nentry\t%d\t0\t%d\n' % (count + 1, MEMBERS, MEMBERS - 1, last)),
        # a member more stands behind the header, the T lines and all members
        (asked(table(*full, b'F\tY\t-\t0\t0'), b'V'), refused(6, 1 + 1 + count + MEMBERS + 1)),
        (asked(table(b'P\t' + b'p' * 128), b'V'), b'ok\t1\t0\t0\n'),
        (asked(table(b'P\t' + b'p' * 129), b'V'), refused(4, 2)),
    ]


def chain(structs):
    """An int and so many structs, each embedded in the next, with a field X in the first: the last has the number of structs, and the way from it to X has a
    place for each."""
    above = [b'T\tstruct\nF\tE\t-\t%d\t1' % below for below in range(1, structs)]
    return table(INT, b'T\tstruct', b'F\tX\t-\t0\t0', *above)


def way_edges():
    """"a way may have 512 places": a shortest one has a place less than there are types, since each is in another struct, and X has a type too."""
    most = TYPES - 1
    rows = []
    for last in most - 1, most:
        questions = [f'S {last} 0 - X', f'S {last - 1} 1 - X', f'S {last} 0 - Y', f'M {last}', f'C {last}']
        # X is member 0, and no pointer is passed; a struct less has a place less
        due = ['entry 0 0' + ' 0' * last, 'entry 0 0' + ' 0' * (last - 1), 'notfound', 'set 0', 'yes']
        rows.append((asked(chain(last), *tabbed(questions)), lines(*tabbed(due))))
    # the last struct embeds the one below it twice: two ways, which part at their first place
    twice = chain(most) + b'F\tD\t-\t%d\t1\n' % (most - 1)
    rest = b'\t0' * (most - 1)
    rows.append((asked(twice, b'S\t%d\t0\t-\tX' % most), b'ambiguous\t0' + rest + b'\nand\t1' + rest + b'\n'))
    # a method instead: its named type is 4, below as many structs as there are types for
    text, question, due = set_of(1, TYPES - 5, 0)
    rows.append((asked(text, question, b'V'), due + b'ok\t0\t%d\t%d\n' % (TYPES, 1 + TYPES - 5)))
    # a struct more is a type too many: before its T line stand the header, the int, and two lines for each other struct
    return rows + [(asked(chain(TYPES), b'S\t1\t0\t-\tX'), refused(6, 1 + 1 + 2 * most + 1))]


def number_edges():
    """"A type number no longer fits one byte anywhere": types that differ in nothing but a number, by 256. Types 0 to 255 are int and 256 and 257 string: of three
    types of a kind, made of 0, of 256 and of 257, the last two are identical, and the first is another one."""
    ls, questions, due = ['T basic 2'] * 256 + ['T basic 17'] * 2, ['I 0 255', 'I 0 256', 'I 256 257'], ['yes', 'no', 'yes']
    for kind in 'array 3 {}', 'slice {}', 'pointer {}', 'map 0 {}', 'map {} 0', 'chan 0 {}', 'tuple {}', 'struct\nF X - {} 0':
        at = len(ls)
        ls += ['T ' + kind.format(part) for part in (0, 256, 257)]
        questions += [f'I {at} {at + 1}', f'I {at + 1} {at + 2}']
        due += ['no', 'yes']
    return [(asked(table(*tabbed(ls)), *tabbed(questions)), lines(*tabbed(due))), far_members()]


def far_members():
    """Numbers that differ by 256: struct 300 has a field X and struct 44 a field Y; 301 is a func and 45 an int. The last type embeds a pointer to a named type of
    300, whose method has the func 301: so it has X and the method, and lacks Y."""
    last = TYPES - 1
    kinds = {44: ['T struct', 'F Y - 0 0'], 298: ['T tuple'], 300: ['T struct', 'F X - 0 0'], 301: ['T func 0 298 298'], 302: ['T named 300', 'M Get - 301 1'],
             303: ['T pointer 302'], last: ['T struct', 'F E - 303 1']}
    ls = [line for t in range(TYPES) for line in kinds.get(t, ['T basic 2'])]
    # the members in order: Y of 44, X of 300, Get of 302, E of the last
    rows = [
        (f'S {last} 0 - X', 'entry 1 1 0 0'),
        (f'S {last} 0 - Y', 'notfound'),
        (f'S {last} 0 - Get', 'entry 2 1 0 0'),
        (f'M {last}', 'set 1\nsel 2 1 0 0'),
        ('M 302', 'set 0'),
        ('S 44 0 - Y', 'entry 0 0 0'),
        ('S 300 0 - Y', 'notfound'),
        ('C 301', 'no'),
        ('C 45', 'yes'),
        ('V', f'ok 0 {TYPES} 4'),
    ]
    questions, due = zip(*rows)
    return asked(table(*tabbed(ls)), *tabbed(questions)), lines(*tabbed(due))


# so many levels are nested before a pair of interfaces is put off
OPEN_LEVELS = 250


def put_off_edges():
    """Two chains of pointers, each down to an interface of its own, so deep that the pair of interfaces is put off. Each has a method, whose func takes an int; or
    the one an int and the other a string; or the highest pointer of its own chain, so that nothing tells the two apart."""
    # int, string and the tuple of results stand before the pointers, which take turns; behind them interfaces, tuples and funcs
    first = TYPES - 7
    tops = first - 2, first - 1
    assert (first - 3) // 2 > OPEN_LEVELS
    rows = []
    for parts, due in [((0, 0), b'yes\n'), ((0, 1), b'no\n'), (tops, b'yes\n')]:
        ls = ['T basic 2', 'T basic 17', 'T tuple', f'T pointer {first}', f'T pointer {first + 1}']
        ls += [f'T pointer {k - 2}' for k in range(5, first)]
        ls += [f'T iface\nM M - {first + 4 + k} 0' for k in (0, 1)]
        ls += [f'T tuple {part}' for part in parts]
        ls += [f'T func 0 {first + 2 + k} 2' for k in (0, 1)]
        questions = [f'I {tops[0]} {tops[1]}', f'I {first} {first + 1}', f'C {tops[0]}']
        rows.append((asked(table(*tabbed(ls)), *tabbed(questions)), due * 2 + b'yes\n'))
    return rows


def refusal_edges():
    """Each refusal of a table with its line, and of a question; the questions behind a refused one are answered."""
    func = [b'T\ttuple', b'T\tfunc\t0\t0\t0']

    def bad(number, line, *ls):
        return asked(table(*ls), b'V', b'C\t0'), refused(number, line)

    return [
        # 4: letter, field count, value outside its range, no newline
        bad(4, 2, b'X'),
        bad(4, 2, b'T\tbasic'),
        bad(4, 2, b'T\tbasic\t2\t3'),
        bad(4, 2, b'T\tbasic\t28'),
        bad(4, 2, b'T\tbasic\t02'),
        bad(4, 3, INT, b'T\tslice\t10000'),
        bad(4, 2, b'P\t_'),
        (HEAD + INT, refused(4, 2)),
        # 5: "P after T, F not under a struct, M not under a named type or interface"
        bad(5, 3, INT, b'P\tp'),
        bad(5, 3, INT, b'F\tX\t-\t0\t0'),
        bad(5, 5, *func, b'T\tstruct', b'M\tX\t-\t1\t0'),
        # "4 to 6 are tried in turn on each line": a 5 on line 3 comes before a 4 on line 4
        bad(5, 3, INT, b'P\tp', b'X'),
        # 7 over the whole text before 8
        bad(7, 2, b'T\tslice\t9'),
        bad(7, 4, INT, b'T\tstruct', b'F\tX\t0\t0\t0'),
        bad(7, 4, b'T\ttuple', b'T\tslice\t0', b'T\tslice\t9'),
        # 8: only func refers to a tuple; only a named type or interface may come later; a named type's u is not named
        bad(8, 3, b'T\ttuple', b'T\tslice\t0'),
        bad(8, 2, b'T\tslice\t1', INT),
        bad(8, 4, INT, b'T\tnamed\t0', b'T\tnamed\t1'),
        # 9: the later of two members of one identity; an interface's methods that do not ascend; a method that equals a field
        bad(9, 5, INT, b'T\tstruct', b'F\tX\t-\t0\t0', b'F\tX\t-\t0\t0'),
        bad(9, 6, *func, b'T\tiface', b'M\tB\t-\t1\t0', b'M\tA\t-\t1\t0'),
        bad(9, 7, *func, b'T\tstruct', b'F\tX\t-\t1\t0', b'T\tnamed\t2', b'M\tX\t-\t1\t0'),
        # 10: the T line of the least number on the cycle: struct 1 holds named 2, which is struct 1
        bad(10, 3, INT, b'T\tstruct', b'F\tX\t-\t2\t0', b'T\tnamed\t1'),
        # 11: letter, field count, values, numbers that the table lacks
        (asked(table(INT), b'X', b'C', b'C\t0\t0', b'C\t00', b'C\t1', b'S\t0\t2\t-\tX', b'S\t0\t0\t0\tX', b'S\t0\t0\t-\t1X', b'N\t0\t1\t0', b'v', b' V', b'V\t', b'V'),
         refused(11, 0) * 12 + b'ok\t0\t1\t0\n'),
        (asked(table(INT), b'V' * QUESTION, b'V' * (QUESTION + 1), b'C\t0'), refused(11, 0) * 2 + b'yes\n'),
        # 12: the second type is not itself of kind iface, also where it is a name of one; an interface without methods is satisfied
        (asked(table(INT, b'T\tiface', b'T\tnamed\t1'), b'N\t0\t0\t0', b'N\t0\t2\t0', b'N\t0\t1\t0', b'N\t0\t3\t0'), refused(12, 0) * 2 + b'satisfied\n' + refused(11, 0)),
    ]


def order_edges():
    """Packages in order and out of it; a refused table gets its refusal "once and alone"."""
    rows = []
    for ls, due in orders():
        text = table(*ls)
        if due:
            rows.append((asked(text, b'V', b'C\t0', b'x'), refused(*due)))
            continue
        count = sum(l.startswith(b'P\t') for l in ls)
        types, members = (sum(l[:1] in letters for l in ls) for letters in (b'T', b'FM'))
        # a package of the table may ask; the number behind the last is one that it lacks, and so is type 0 of a table without types
        rows.append((asked(text, b'V', b'C\t0', b'S\t0\t0\t%d\tx' % count),
                     b'ok\t%d\t%d\t%d\n' % (count, types, members) + (b'yes\n' if types else refused(11, 0)) + refused(11, 0)))
    # "an old package is then known by its path": x of 0 is not the x that 1 asks for, in whatever package the struct's fields are
    named = table(b'P\ta', b'P\tb', INT, b'T\tstruct', b'F\tx\t0\t0\t0', b'F\tx\t1\t0\t0', b'F\tX\t1\t0\t0')
    questions = [b'S\t1\t0\t%b\t%b' % (pkg, name) for name in (b'x', b'X') for pkg in (b'0', b'1', b'-')]
    return rows + [(asked(named, *questions), b'entry\t0\t0\t0\nentry\t1\t0\t1\nnotfound\n' + b'entry\t2\t0\t2\n' * 3)]


def more_edges():
    """"More": what document 01 says of Byte, document 02 of two ways of one length and of a method set, and one answer of each word of N."""
    embeds = lambda *ts: [b'T\tstruct'] + [b'F\tE%d\t-\t%d\t1' % (t, t) for t in ts]
    owns = [b'T\tstruct', b'F\tX\t-\t0\t0']
    return [
        # "carries the first shortest way, and a second line, `and`, carries the next one in the order of places": D embeds A then B, both embed C with field X, and
        # C is 2, A 4, B 6, D 8. "This holds too where both ways end in identical types"
        (asked(table(INT, *owns, b'T\tnamed\t1', *embeds(2), b'T\tnamed\t3', *embeds(2), b'T\tnamed\t5', *embeds(4, 6), b'T\tnamed\t7'), b'S\t8\t0\t-\tX'), b'ambiguous\t0\t0\t0\nand\t1\t0\t0\n'),
        # A and B each own X instead: A is 2, B 4, D 6
        (asked(table(INT, *owns, b'T\tnamed\t1', *owns, b'T\tnamed\t3', *embeds(2, 4), b'T\tnamed\t5'), b'S\t6\t0\t-\tX'), b'ambiguous\t0\t0\nand\t1\t0\n'),
        # "A script had a field `Flush` above an embedded writer with a method `Flush`": 5 has the field, member 1, and embeds 4; "selecting `Flush` gives the field"
        (asked(table(INT, b'T\ttuple', b'T\tfunc\t0\t1\t1', b'T\tstruct', b'T\tnamed\t3', b'M\tFlush\t-\t2\t0', b'T\tstruct', b'F\tFlush\t-\t0\t0', b'F\tW\t-\t4\t1', b'T\tpointer\t5'),
               b'M\t5', b'S\t5\t0\t-\tFlush', b'M\t6', b'M\t4'), b'set\t0\nentry\t1\t0\t0\nset\t0\nset\t1\nsel\t0\t0\t0\n'),
        # "a pointer to any type with an interface under it has an empty set": 3 is a name of the interface 2, 4 and 5 point to them
        (asked(table(b'T\ttuple', b'T\tfunc\t0\t0\t0', b'T\tiface', b'M\tX\t-\t1\t0', b'T\tnamed\t2', b'T\tpointer\t3', b'T\tpointer\t2'), b'M\t2', b'M\t3', b'M\t4', b'M\t5'),
         b'set\t1\nsel\t0\t1\t0\n' * 2 + b'set\t0\n' * 2),
        # "Basic 26 and 8: `yes`"
        (asked(table(b'T\tbasic\t26', b'T\tbasic\t8', INT), b'I\t0\t1', b'I\t0\t2'), b'yes\nno\n'),
        # named type 4 has Close with the signature 1, named type 5 with 3; interface 6 wants it with 1: the methods are members 0, 1 and 2
        (asked(table(b'T\ttuple', b'T\tfunc\t0\t0\t0', b'T\ttuple\t5', b'T\tfunc\t0\t0\t2', b'T\tnamed\t7', b'M\tClose\t-\t1\t0', b'T\tnamed\t7', b'M\tClose\t-\t3\t0', b'T\tiface', b'M\tClose\t-\t1\t0', b'T\tstruct'),
               b'N\t4\t6\t0', b'N\t5\t6\t0', b'N\t7\t6\t0', b'N\t6\t6\t1'), b'satisfied\nmissing\t2\t1\nmissing\t2\t0\nsatisfied\n'),
    ]


def words(rows):
    """How often each letter is asked and each word is answered."""
    seen = {}
    for text, print_ in rows:
        if b'Q\n' in text:
            for q in text[text.index(b'Q\n') + 2:].split(b'\n'):
                if q[:1] in b'SMNICV' and q[:1]:
                    seen[q[:1]] = seen.get(q[:1], 0) + 1
        for l in print_.split(b'\n')[:-1]:
            word = b' '.join(l.split(b'\t')[:2]) if l.startswith(b'refused') else l.split(b'\t')[0]
            seen[word] = seen.get(word, 0) + 1
    return ', '.join(f'{w.decode()} {n}' for w, n in sorted(seen.items()))


def main():
    vectors, vectors02, stored, crates = sys.argv[1:5]
    edges = input_edges() + bound_edges() + set_edges() + way_edges() + number_edges() + put_off_edges() + refusal_edges() + order_edges() + more_edges()
    rows = edges + sample(vectors, vectors02) + random(stored) + put_in_order(vectors, vectors02)
    with open(f'{crates}/typeask_run/stdin', 'wb') as inputs, open(f'{crates}/typeask_run/stdout', 'wb') as prints:
        for k, (text, print_) in enumerate(rows):
            inputs.write(b'%05d\n' % len(text) + text)
            prints.write(b'== %d\n' % k + print_)
    open(f'{crates}/typeask/stdin', 'wb').write(EXAMPLE)
    open(f'{crates}/typeask/stdout', 'wb').write(EXAMPLE_PRINT)
    print(len(rows), 'inputs;', words(rows))


main()
