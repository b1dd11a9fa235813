"""Stored cases that point 5 of document 02 refuses, put in order: the P lines ascend, each path stands once, and every package number is carried. A package is known
by its path: so what was printed before point 5 is due, but V counts the paths, and the line of a refused table is less by the P lines that are gone."""
from vectors import cases, in_order, packages, refused_by, stays


def changed(line, places, change):
    """A line with a field changed: the one at the place that is given for its first."""
    fields = line.split(b'\t')
    at = places.get(fields[0], len(fields))
    return b'\t'.join(change(field) if k == at else field for k, field in enumerate(fields))


def carried(text):
    """An input put in order. A package number that its table lacks is lacking then too, and stays."""
    old = packages(text)
    new = sorted(set(old))
    numbers = {b'%d' % k: b'%d' % new.index(line) for k, line in enumerate(old)}
    head, *behind = text.split(b'\n')
    lines = [head] + new
    # F name pkg .., M name pkg ..; behind the line Q: S t a pkg name
    places = {b'F': 2, b'M': 2}
    for line in behind[len(old):]:
        lines.append(changed(line, places, lambda field: numbers.get(field, field)))
        if line == b'Q':
            places = {b'S': 3}
    return b'\n'.join(lines)


def due(text, print_):
    """What is due for the input put in order."""
    gone = len(packages(text)) - len(set(packages(text)))
    places = {b'ok': 1, b'refused': 2} if refused_by(print_, 7, 8, 9, 10) else {b'ok': 1}
    return b'\n'.join(changed(line, places, lambda field: b'%d' % (int(field) - gone)) for line in print_.split(b'\n'))


def ordered(vectors, vectors02):
    """The base's cases and those of the pairs 1, 2 and 4 that point 5 refuses, put in order, with what is due for them, where that can be told."""
    chosen = {}
    for folder, names in (vectors, ('small', 'mixed', 'damaged')), (vectors02, ('4', '2', '1')):
        for name in names:
            for text, print_ in cases(folder, name):
                if in_order(text, print_)[1] != print_ and stays(name, print_):
                    chosen.setdefault(carried(text), due(text, print_))
    return list(chosen.items())
