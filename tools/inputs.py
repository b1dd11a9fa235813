"""Tables, inputs of typeask and refusals, as they are written."""

HEAD = b'typetable\t1\n'


def lines(*ls):
    return b''.join(l + b'\n' for l in ls)


def table(*ls):
    return HEAD + lines(*ls)


def asked(text, *questions):
    return text + b'Q\n' + lines(*questions)


def refused(number, line):
    return b'refused\t%d\t%d\n' % (number, line)
