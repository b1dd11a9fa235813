#!/usr/bin/env python3
"""Tries the twins of the must-fail edits; run by hand, not by the gate.

    twins.py [--edits] [NAME | NAME/X ..]

A must-fail edit shows something only if the prover refuses what it means. crates/NAME/twins/X.twin, in the format of must-fail/X.edit, changes the same texts
to others of the same shape that mean what they meant before: where even that is refused, the edit fails by the shape of a proof. Each twin is applied to
a copy of its crate, which must still be proved. With --edits the edits are tried in the same way, and must be refused: one crate's alone, without those of
all crates below it. Ends with status 1 if a twin is refused, missing or bad, or an edit survives.
"""
import os
import re
import shutil
import subprocess
import sys
import tempfile
import time

ROOT = os.path.dirname(os.path.dirname(os.path.abspath(__file__)))
CRATES = os.path.join(ROOT, 'crates')
PARTS = ('src/', 'specs/', 'proofs/')
# where a crate has its edits and their twins
FOLDERS = {'.edit': 'must-fail', '.twin': 'twins'}


class Bad(Exception):
    """An edit or twin that cannot be applied."""


def path_of(name, label, ending):
    return os.path.join(CRATES, name, FOLDERS[ending], label + ending)


def labels_of(name, ending):
    folder = os.path.join(CRATES, name, FOLDERS[ending])
    files = sorted(os.listdir(folder)) if os.path.isdir(folder) else []
    return [f[:-len(ending)] for f in files if f.endswith(ending)]


def pairs_of(path):
    """The (file, old, new) of each replacement, read as rt reads them."""
    pairs, file, old = [], '', ''
    with open(path) as lines:
        for line in lines.read().splitlines():
            if line.startswith('file: '):
                file = line[len('file: '):]
            elif line.startswith('old: '):
                old = line[len('old: '):]
            elif line.startswith('new:'):
                pairs.append((file, old, line[len('new:'):].removeprefix(' ')))
                old = ''
    if not pairs:
        raise Bad("it has no 'old:' and 'new:' pair")
    return pairs


def apply(pairs, crate):
    for file, old, new in pairs:
        path = os.path.join(crate, file)
        if '..' in file.split('/') or not file.startswith(PARTS) or not os.path.isfile(path):
            raise Bad("a 'file:' line names no file of the crate")
        with open(path) as source:
            text = source.read()
        if old == '' or text.count(old) != 1:
            raise Bad("an 'old:' text is in %s %d times" % (file, text.count(old) if old else 0))
        with open(path, 'w') as out:
            out.write(text.replace(old, new))


def check(name, where):
    return subprocess.run(['rt', 'check'], cwd=os.path.join(where, 'crates', name), capture_output=True, text=True)


def furnish(room):
    """Makes a copy of the repository's crates in an empty folder. What checks of them kept on this machine is used there."""
    shutil.copy(os.path.join(ROOT, 'crates.txt'), room)
    shutil.copytree(CRATES, os.path.join(room, 'crates'), ignore=shutil.ignore_patterns('out'))


def verdict(room, name, pairs):
    """proved or refused, seconds, and the first error."""
    crate = os.path.join(room, 'crates', name)
    for part in PARTS:
        shutil.rmtree(os.path.join(crate, part), ignore_errors=True)
        if os.path.isdir(os.path.join(CRATES, name, part)):
            shutil.copytree(os.path.join(CRATES, name, part), os.path.join(crate, part))
    apply(pairs, crate)
    began = time.time()
    done = check(name, room)
    took = time.time() - began
    if done.returncode == 0:
        return 'proved', took, ''
    said = done.stdout + done.stderr
    if not re.search('^logic=not-proved', said, re.M):
        raise Bad('it did not reach the prover:\n' + said[-2000:])
    first = re.search('^([^ \n]*): error.*', said, re.M) or re.search('^note: .*', said, re.M)
    return 'refused', took, first.group(0).replace(crate + '/', '')[:300] if first else ''


def attempt(room, name, label, edits):
    """Tries one edit or twin, says how it went, and whether well."""
    try:
        edit = pairs_of(path_of(name, label, '.edit'))
        pairs = edit if edits else pairs_of(path_of(name, label, '.twin'))
        if [p[:2] for p in pairs] != [p[:2] for p in edit]:
            raise Bad("its 'file:' and 'old:' lines are not those of the edit")
        result, took, first = verdict(room, name, pairs)
    except FileNotFoundError as missing:
        print('%s/%s: missing %s' % (name, label, os.path.basename(missing.filename)), flush=True)
        return False
    except Bad as bad:
        print('%s/%s: BAD: %s' % (name, label, bad), flush=True)
        return False
    well = result == ('refused' if edits else 'proved')
    if edits and not well:
        result = 'SURVIVED'
    print('%s/%s: %s (%.0f s) %s' % (name, label, result, took, first), flush=True)
    return well


def chosen(words):
    """The labels asked for, by crate; all if none is named."""
    asked = {}
    for word in words or sorted(os.listdir(CRATES)):
        name, _, label = word.partition('/')
        if not os.path.isdir(os.path.join(CRATES, name)):
            sys.exit('there is no crate ' + name)
        labels = [label] if label else sorted(set(labels_of(name, '.edit') + labels_of(name, '.twin')))
        asked.setdefault(name, []).extend(labels)
    return asked


def main():
    words = [w for w in sys.argv[1:] if w != '--edits']
    edits = len(words) < len(sys.argv) - 1
    began, well = time.time(), []
    for name, labels in chosen(words).items():
        if not labels:
            continue
        if check(name, ROOT).returncode != 0:
            sys.exit('%s is not proved as it stands' % name)
        with tempfile.TemporaryDirectory(prefix='twins.') as room:
            furnish(room)
            well += [attempt(room, name, label, edits) for label in labels]
    print('%d %s, %d not (%.0f s)' % (sum(well), 'refused' if edits else 'proved', len(well) - sum(well), time.time() - began))
    sys.exit(0 if all(well) else 1)


main()
