"""The papers' bounds. The samples have them from here, and not from the code that they test."""

PACKAGES, TYPES, MEMBERS = 64, 512, 2048

# the members of one type
OF_ONE = 255

# the bytes of a table, and of all that typeask reads; those of a question, and of an answer of typeask
TEXT, QUESTION, ANSWER = 65536, 256, 16384


def full_structs(fields):
    """T lines of structs with as many of these fields as one type may have and one struct with the rest, so that a table of them has as many members as it may;
    and how many structs there are."""
    whole, rest = divmod(MEMBERS, OF_ONE)
    return ([b'T\tstruct'] + fields[:OF_ONE]) * whole + [b'T\tstruct'] + fields[:rest], whole + 1
