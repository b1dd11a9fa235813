#!/usr/bin/env python3
"""Counts the instructions of each stage of loading, by tables that are refused at its end.

    stage_profile.py ARCHIVE TABLE..

ARCHIVE is target/staticlib/libyifgrun.a; each TABLE is a file with a table that loads. Of each table variants are made that differ in one field of
one of the last lines, or of the last P line, and are refused there by 4, 14, 7, 8 or 9: all that is done up to that refusal is counted (valgrind), and what
lies between two of them is the stage. A stage that no variant ends is counted with the next one. Prints instructions and shares: `clear` is a text refused at its
header, the last stage also holds the answer to V.
"""
import ctypes
import os
import subprocess
import sys
import tempfile

from bounds import ANSWER, TEXT, TYPES

LAST_LINES = 12
CALL = r'''
#include <stdio.h>
#include <stdlib.h>
#include "yifgrun.h"
static uint8_t table[TEXT], answer[ANSWER];
int main(int count, char **arguments) {
    FILE *file = fopen(arguments[1], "rb");
    size_t length = fread(table, 1, sizeof table, file);
    fclose(file);
    size_t words = yifgrun_work_words();
    uint32_t *work = calloc(words, sizeof *work);
    return yifgrun_ask(table, length, (const uint8_t *)"V", 1, answer, sizeof answer, work, words) < -20000000;
}
'''


class Library:
    def __init__(self, archive, room):
        self.room = room
        shared, source, self.program = (os.path.join(room, n) for n in ('yifgrun.so', 'call.c', 'call'))
        include = os.path.join(os.path.dirname(__file__), '..', 'host', 'include')
        subprocess.run(['gcc', '-shared', '-o', shared, '-Wl,--whole-archive', archive, '-Wl,--no-whole-archive'], check=True)
        with open(source, 'w') as out:
            out.write(CALL)
        subprocess.run(['gcc', '-O2', f'-DTEXT={TEXT}', f'-DANSWER={ANSWER}', '-I', include, '-o', self.program, source, archive], check=True)
        library = ctypes.CDLL(shared)
        self.ask = library.yifgrun_ask
        self.ask.restype = ctypes.c_int64
        library.yifgrun_work_words.restype = ctypes.c_size_t
        self.words = library.yifgrun_work_words()
        self.answer = ctypes.create_string_buffer(ANSWER)
        self.work = (ctypes.c_uint32 * self.words)()

    def refusal(self, table):
        size = ctypes.c_size_t
        number = self.ask(table, size(len(table)), b'V', size(1), self.answer, size(ANSWER), self.work, size(self.words))
        return divmod(-number, 65536) if number < 0 else (0, 0)

    def instructions(self, table):
        path, out = os.path.join(self.room, 'table'), os.path.join(self.room, 'out')
        with open(path, 'wb') as file:
            file.write(table)
        # the C library's own way of clearing memory counts each byte as an instruction
        env = dict(os.environ, GLIBC_TUNABLES='glibc.cpu.x86_rep_stosb_threshold=1000000000')
        said = subprocess.run(['valgrind', '--tool=callgrind', '--toggle-collect=yifgrun_ask', f'--callgrind-out-file={out}', self.program, path],
                              env=env, capture_output=True, text=True).stderr
        return int(said.split('Collected :')[1].split()[0])


def variants(table):
    """The table with one field of one of its last lines, or of its last P line, replaced by a number, or by that field of the line above."""
    lines = table.split(b'\n')[:-1]
    numbers = [b'x', b'9999', b'9'] + [b'%d' % n for n in range(0, TYPES, 5)]
    last_package = [at for at in range(len(lines)) if lines[at].startswith(b'P\t')][-1:]
    for at in [*range(len(lines) - 1, max(0, len(lines) - LAST_LINES), -1), *last_package]:
        fields = lines[at].split(b'\t')
        above = lines[at - 1].split(b'\t')
        for i in range(len(fields) - 1, max(0, len(fields) - 6), -1):
            for new in numbers + (above[i:i + 1] if len(above) == len(fields) else []):
                line = b'\t'.join(fields[:i] + [new] + fields[i + 1:])
                yield b'\n'.join(lines[:at] + [line] + lines[at + 1:]) + b'\n'


def profile(library, table):
    found = {3: b'T' + table[1:]}
    lines = {}
    for variant in variants(table):
        number, line = library.refusal(variant)
        if number in (4, 14, 7, 8, 9) and line > lines.get(number, 0):
            found[number], lines[number] = variant, line
    total = library.instructions(table)
    last, names, rows = 0, [], []
    for number, name in ((3, 'clear'), (4, 'read'), (14, '14'), (7, '7'), (8, '8'), (9, '9'), (10, '10')):
        names.append(name)
        upto = library.instructions(found[number]) if number in found else total
        # a variant that costs more than the table itself, as where a name is compared with many, ends no stage
        if upto < total or number == 10:
            rows.append((' and '.join(names), upto - last))
            last, names = upto, []
    return total, rows


def main():
    archive, tables = os.path.abspath(sys.argv[1]), sys.argv[2:]
    with tempfile.TemporaryDirectory() as room:
        library = Library(archive, room)
        for path in tables:
            with open(path, 'rb') as file:
                table = file.read()
            total, rows = profile(library, table)
            shares = ', '.join(f'{name} {count:,} ({100 * count / total:.0f}%)' for name, count in rows)
            print(f'{path}: {len(table):,} bytes, {total:,} instructions, {total / len(table):.1f} a byte: {shares}')


if __name__ == '__main__':
    main()
