"""Stored inputs of typeask with what it prints: pairs of files .in and .out. A line BATCH stands before the inputs, and a line --- ends each of both. Each pair was
stored with the first points of document 02 in force, or none; what is due with those behind them is told from it here, where it can be."""
from itertools import takewhile


def cases(folder, name):
    inputs = read(f'{folder}/{name}.in').removeprefix(b'BATCH\n').split(b'---\n')[:-1]
    prints = read(f'{folder}/{name}.out').split(b'---\n')[:-1]
    assert len(inputs) == len(prints)
    return list(zip(inputs, prints))


def lists(print_):
    """Whether a method set that lists something is printed: point 2 of document 02 may take some of it away."""
    return b'\nsel\t' in print_


def refused_by(print_, *numbers):
    """Whether the table, or the input as a whole, was refused by one of these."""
    return print_.startswith(tuple(b'refused\t%d\t' % number for number in numbers))


def past_bound(print_):
    """Whether it was refused by 2 or 6: point 4 of document 02 moves these bounds."""
    return refused_by(print_, 2, 6)


def packages(text):
    """The P lines right behind the first line."""
    return list(takewhile(lambda line: line.startswith(b'P\t'), text.split(b'\n')[1:]))


def disorder(text):
    """The first of these whose path is not above the one before, by its line; None if there is none."""
    lines = packages(text)
    return next((k + 2 for k in range(1, len(lines)) if lines[k] <= lines[k - 1]), None)


def in_order(text, print_):
    """A case with what is due with point 5 in force: a table whose lines have all passed 4, 5 and 6 is refused by 14 where its packages are out of order, whatever
    was printed for it before."""
    line = disorder(text)
    if line is None or refused_by(print_, 2, 3, 4, 5, 6):
        return text, print_
    return text, b'refused\t14\t%d\n' % line


def left_as_is(print_):
    """Whether points 1 to 4 leave as it is what the base gave: no answer `ambiguous`, which point 1 changes, no method set that lists something, and no table that a
    bound refused, also where that bound is one that stays."""
    return b'\nambiguous\t' not in b'\n' + print_ and not lists(print_) and not past_bound(print_)


def stays(name, print_):
    """Whether points up to 4, of those after a pair's own, leave as it is what the pair has."""
    if name not in ('1', '2', '4'):
        return left_as_is(print_)
    return name == '4' or not past_bound(print_) and (name == '2' or not lists(print_))


def base(vectors, name):
    """The base's cases with what is due for them, where that can be told."""
    ordered = [in_order(*case) for case in cases(vectors, name)]
    return [case for case in ordered if left_as_is(case[1])]


# the first cases of the pair 5, which were worked out by hand
BY_HAND = 44


def of_points(vectors02):
    """The cases of the pair 5, with points 1 to 5 in force, those worked out by hand first; then those of the pairs 4, 2 and 1 with what is due for them, where that
    can be told."""
    chosen = dict(cases(vectors02, '5'))
    for name in '4', '2', '1':
        for text, print_ in cases(vectors02, name):
            text, print_ = in_order(text, print_)
            if stays(name, print_):
                chosen.setdefault(text, print_)
    return list(chosen.items())


def write(folder, name, cases):
    for extension, head, part in ('in', b'BATCH\n', 0), ('out', b'', 1):
        with open(f'{folder}/{name}.{extension}', 'wb') as file:
            file.write(head + b''.join(case[part] + b'---\n' for case in cases))


def read(path):
    with open(path, 'rb') as file:
        return file.read()
