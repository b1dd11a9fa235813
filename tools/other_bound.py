#!/usr/bin/env python3
"""Tries another bound of types; run by hand, not by the gate.

    other_bound.py NUMBER COPY

In a copy of the repository, which is made in the folder COPY, the number is put into the two files that have it, and every crate must be proved with no other
line edited. The programs are not run: the stored edges are those of the bound in force. Ends with the status of `rt all check`.
"""
import re
import subprocess
import sys
from pathlib import Path

ROOT = Path(__file__).resolve().parent.parent
PLACES = [
    ('crates/objects/specs/Bounds.antt', r'(?m)^(max_types = )[\d_]+$'),
    ('crates/objects/src/bounds.rt', r'(?m)^(pub const MAX_TYPES: usize = )[\d_]+(?=;$)'),
]


def main():
    number, copy = int(sys.argv[1]), Path(sys.argv[2])
    subprocess.run(['git', 'clone', '--quiet', ROOT, copy], check=True)
    for name, pattern in PLACES:
        text, count = re.subn(pattern, rf'\g<1>{number}', (copy / name).read_text())
        assert count == 1, f'{name} has the bound {count} times'
        (copy / name).write_text(text)
    sys.exit(subprocess.run(['rt', 'all', 'check'], cwd=copy).returncode)


main()
