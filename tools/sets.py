"""Method sets about as long as the answer buffer of typeask, each with what it prints."""
from bounds import ANSWER, OF_ONE
from inputs import asked, refused, table


def set_of(count, depth, before):
    """A table whose last type embeds, `depth` structs deep, a named type of `count` methods, behind a struct of `before` fields; the question M of it; and
    the set that is due: each method with flag 0 (no pointer is removed), places 0 .. 0 and its own. The names ascend as they come, so the members do."""
    fields = [b'F\tF%d\t-\t1\t0' % k for k in range(before)]
    methods = [b'M\tM%03d\t-\t1\t0' % k for k in range(count)]
    structs = []
    for k in range(depth):
        structs += [b'T\tstruct', b'F\tE\t-\t%d\t1' % (4 + k)]
    text = table(b'T\ttuple', b'T\tfunc\t0\t0\t0', b'T\tstruct', *fields, b'T\tstruct', b'T\tnamed\t3', *methods, *structs)
    due = b'set\t%d\n' % count + b''.join(b'sel\t%d\t0' % (before + k) + b'\t0' * depth + b'\t%d\n' % k for k in range(count))
    return text, b'M\t%d' % (4 + depth), due


def set_edges():
    """"with a 16,384-byte answer buffer": a set that fills it is given; one that has a byte more is 13, and the questions behind it are answered."""
    rows = []
    for length in range(ANSWER - 1, ANSWER + 3):
        # 251 methods 26 structs deep and no field before: 16,354 bytes; each field before, up to 100, makes a member's number longer
        before = next(b for b in range(100) if len(set_of(251, 26, b)[2]) == length)
        text, question, due = set_of(251, 26, before)
        counts = b'ok\t0\t31\t%d\n' % (before + 251 + 26)
        rows.append((asked(text, question, b'V', question), (due + counts + due if length <= ANSWER else refused(13, 0) + counts + refused(13, 0))))
    text, question, due = set_of(OF_ONE, 30, 0)
    return rows + [(asked(text, question, b'M\t4', question), refused(13, 0) + set_of(OF_ONE, 0, 0)[2] + refused(13, 0))]
