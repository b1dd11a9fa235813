"""Tables of packages in order and out of it: "P lines must come in strictly ascending order of the bytes of their paths". 14 is tried "after refusal 6 and before 7, at
the first line that fails to ascend"; package p, from 0, is on line p + 2."""
from bounds import PACKAGES, TYPES


def orders():
    """The lines of each table behind its first, and the refusal that is due with its line, or None for a table that loads."""
    return [([b'P\t' + path for path in paths], due) for paths, due in by_paths()] + among_refusals()


# short paths, and what is due for a table that has packages of these paths alone
SHORT = [
    ('b a', (14, 3)),
    # "strictly": "a path no longer recurs"
    ('a a', (14, 3)),
    ('a b a', (14, 4)),
    # a longer path comes after its prefix
    ('a a/b ab', None),
    ('ab a', (14, 3)),
    # capitals come before small letters, and `_` between the two
    ('B _a a', None),
    ('a B', (14, 3)),
    ('_a B', (14, 3)),
    ('! + - . / 0 A _a a ~', None),
    # bytes, and not numbers: p10 comes before p9, and p9 behind p11
    ('p1 p10 p9', None),
    ('p10 p9 p11', (14, 4)),
    # each is compared with the one just before, and not with the first; the first that fails is named
    ('b c a', (14, 4)),
    ('a c b', (14, 4)),
    ('b c a d d', (14, 4)),
    ('a b c d d/x d/', (14, 7)),
]


def by_paths():
    """Paths of packages, and what is due for a table that has these alone."""
    ascending = [b'p%02d' % k for k in range(PACKAGES + 1)]
    counted = [b'p%d' % k for k in range(PACKAGES + 1)]
    long = b'p' * 127
    return [(paths.encode().split(b' '), due) for paths, due in SHORT] + [
        (ascending[:PACKAGES], None),
        (ascending[:PACKAGES - 1] + ascending[:1], (14, 1 + PACKAGES)),
        # p10, package 10, does not come after p9
        (counted[:PACKAGES], (14, 12)),
        # a package too many is 6, whatever the order of those before it
        (ascending, (6, 1 + PACKAGES + 1)),
        (counted, (6, 1 + PACKAGES + 1)),
        # the last of 128 bytes decides
        ([long, long + b'a', long + b'b'], None),
        ([long + b'b', long + b'a'], (14, 3)),
        ([long + b'a', long + b'a'], (14, 3)),
        ([long + b'a', long], (14, 3)),
    ]


def among_refusals():
    """Lines behind two packages in order and out of it: "refused after refusal 6 and before 7"."""
    rows = []
    for behind, due in [
        # a later line's 4, 5 or 6 comes before 14
        ('x', (4, 4)),
        ('T struct/P c', (5, 5)),
        ('F X - 0 0', (5, 4)),
        ('/'.join(['T struct'] * (TYPES + 1)), (6, 3 + TYPES + 1)),
        # 7, 8, 9 and 10 come behind it: a type and a package that are lacking, a tuple in a slice, a field that recurs, a type in itself
        ('T slice 9', (7, 4)),
        ('T basic 2/T struct/F x 2 0 0', (7, 6)),
        ('T tuple/T slice 0', (8, 5)),
        ('T basic 2/T struct/F x 0 0 0/F x 0 0 0', (9, 7)),
        ('T named 1/T array 1 0', (10, 4)),
    ]:
        behind = behind.replace(' ', '\t').encode().split(b'/')
        rows.append(([b'P\ta', b'P\tb'] + behind, due))
        rows.append(([b'P\tb', b'P\ta'] + behind, due if due[0] <= 6 else (14, 3)))
    # identities that differ in nothing but the package load, and so do those of one exported name
    both = [b'T\tbasic\t2', b'T\tstruct', b'F\tx\t0\t0\t0', b'F\tx\t1\t0\t0']
    return rows + [([b'P\ta', b'P\tb'] + both, None), ([b'P\ta', b'P\ta'] + both, (14, 3))]
