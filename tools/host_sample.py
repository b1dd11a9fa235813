#!/usr/bin/env python3
"""Makes the samples that the tests of the host and of the comparison run everywhere, and alone where the vectors are not at hand.

    host_sample.py VECTORS VECTORS02 HOST

VECTORS has the base's vectors: small, mixed and damaged (.in and .out), and calls (entry.txt); VECTORS02 those of document 02, of which the pairs 1, 2, 4 and 5 have
the points up to their number in force. What later points leave as it is or refuse by 14 is taken, and nothing that an old bound refused. Sample by sample:

HOST/testdata/sample: some cases with each word that is printed, and with each refusal; a method set that is longer than the answer buffer, of which the vectors
have none in a table that loads.
HOST/testdata/entry.txt: some calls with each refusal and each word of an answer, and the questions of the first cases of 5 in buffers that have just the room
for the answer, a byte less, room for its first line alone, and none.
HOST/testdata/tidy.txt: of the calls that tidy a table the first, which were worked out by hand, and some with each refusal, with each kind of type that goes, with
tags, and with just the room or a byte less.
HOST/compare/testdata/sample: document 01's example, the first cases of 5 and every k-th other case, of tables that load, and that method set.
"""
import sys
from collections import Counter

from bounds import ANSWER
from sets import set_edges
from vectors import BY_HAND, base, in_order, left_as_is, of_points, read, refused_by, write

NO_ROOM = -13 * 65536


def of_each(items, size, words, short, most):
    """Of the short items those with a word that fewer than `most` before them have; of the long ones, those with a word that none has."""
    seen, taken = Counter(), []

    def take(chosen, most):
        for item in chosen:
            if any(seen[word] < most for word in words(item)):
                taken.append(item)
                seen.update(words(item))

    take([item for item in items if size(item) <= short], most)
    take([item for item in items if size(item) > short], 1)
    return taken


def word(line):
    fields = line.split(b'\t')
    return b' '.join(fields[:2]) if fields[0] == b'refused' else fields[0]


def printed_words(case):
    return {word(line) for line in case[1].splitlines()}


def call_words(call):
    return {word(printed(call).split(b'\n')[0])}


def printed(call):
    """What comes back from a call, as typeask prints it."""
    number, answer = int(call.split(b' ')[3]), call.split(b' ')[4].decode()
    return bytes.fromhex(answer) if number >= 0 else b'refused\t%d\t%d\n' % divmod(-number, 65536)


def answers_of(print_):
    """What was printed, answer by answer: the lines `and` and `sel` belong to the line before them."""
    answers = []
    for line in print_.splitlines(keepends=True):
        if line.startswith((b'and\t', b'sel\t')):
            answers[-1] += line
        else:
            answers.append(line)
    return answers


def call(table, question, room, number, answer):
    return f'{table.hex()} {question.hex()} {room} {number} {answer.hex() or "-"}'.encode()


def calls_of(case):
    """Calls on a case whose questions are all answered: "the answer is longer than the answer buffer" is refusal 13."""
    table, questions = case[0].split(b'Q\n')
    calls = []
    for question, answer in zip(questions.splitlines(), answers_of(case[1]), strict=True):
        for room in ANSWER, len(answer), len(answer) - 1, answer.index(b'\n') + 1, 0:
            fits = len(answer) <= room
            calls.append(call(table, question, room, len(answer), answer) if fits else call(table, question, room, NO_ROOM, b''))
    return calls


def returned(print_):
    """What comes back for a refusal that typeask prints: "minus (refusal × 65,536 + line)"."""
    number, line = map(int, print_.split(b'\t')[1:])
    return -(number * 65536 + line)


def refused_call(case):
    """A call on a case with one question, whose table is refused."""
    table, question = case[0].split(b'Q\n')
    return call(table, question.rstrip(b'\n'), ANSWER, returned(case[1]), b'')


def call_in_order(stored):
    """A call of the base with what is due with point 5 in force."""
    table, question, room = stored.split(b' ')[:3]
    due = in_order(bytes.fromhex(table.decode().strip('-')), printed(stored))[1]
    if due == printed(stored):
        return stored
    return b' '.join([table, question, room, b'%d' % returned(due), b'-'])


def kinds(table):
    """How often each kind has a T line."""
    return Counter(line.split(b'\t')[1] for line in table.splitlines() if line.startswith(b'T\t'))


def tidy_words(call):
    """What a call that tidies shows: its refusal, or the kinds of which types go, whether fields with a tag or packages stay, and the bytes of room to spare, if few."""
    table, room, number, output = call.split(b' ')
    if int(number) < 0:
        return {b'refused %d' % (-int(number) // 65536)}
    table, output = (bytes.fromhex(text.decode().strip('-')) for text in (table, output))
    shown = {b'without ' + kind for kind in kinds(table) - kinds(output)}
    shown.update(word for word, field in ((b'tag', (b'F', 6)), (b'package', (b'P', 2))) if any(
        (line.split(b'\t')[0], line.count(b'\t') + 1) == field for line in output.splitlines()))
    spare = int(room) - len(output)
    return shown | ({b'spare %d' % spare} if spare < 2 else set())


# the first calls that tidy, which were worked out by hand
TIDY_BY_HAND = 18


def tidy_sample(vectors02):
    calls = read(f'{vectors02}/tools/tidy-6.txt').splitlines()
    by_hand, others = calls[:TIDY_BY_HAND], calls[TIDY_BY_HAND:]
    return by_hand + of_each(others, len, tidy_words, 3000, 3)


def loads(case, most):
    """Whether a table of at most so many bytes loads, and its first question is answered."""
    return not case[1].startswith(b'refused') and len(case[0]) <= most


def main():
    vectors, vectors02, host = sys.argv[1:4]
    points = of_points(vectors02)
    small, mixed, damaged = (base(vectors, name) for name in ('small', 'mixed', 'damaged'))
    # a byte longer than the buffer
    long_set = set_edges()[2]
    library = of_each(points + damaged + small + mixed, lambda case: len(case[0]), printed_words, 2000, 8) + [long_set]
    write(f'{host}/testdata', 'sample', library)
    calls = map(call_in_order, read(f'{vectors}/entry.txt').splitlines())
    stored = of_each([call for call in calls if left_as_is(printed(call))], len, call_words, 4000, 6)
    by_hand = points[:BY_HAND]
    for case in by_hand[:9]:
        stored += calls_of(case)
    stored += [refused_call(case) for case in by_hand if refused_by(case[1], 2, 6, 14) and len(case[0]) < 5000]
    with open(f'{host}/testdata/entry.txt', 'wb') as file:
        file.write(b''.join(call + b'\n' for call in stored))
    example = tuple(read(f'{host}/../crates/typeask/{name}') for name in ('stdin', 'stdout'))
    loading = [case for case in points[BY_HAND:] if loads(case, 6000)]
    small, mixed = ([case for case in cases if not refused_by(case[1], 14)] for cases in (small, mixed))
    goscript = [example] + [case for case in by_hand if loads(case, 11000)] + loading[::4] + small[::3] + mixed[::3] + [long_set]
    write(f'{host}/compare/testdata', 'sample', goscript)
    tidied = tidy_sample(vectors02)
    with open(f'{host}/testdata/tidy.txt', 'wb') as file:
        file.write(b''.join(call + b'\n' for call in tidied))
    print(len(library), 'cases for the library,', len(stored), 'calls,', len(tidied), 'that tidy,', len(goscript), 'cases for goscript')


main()
