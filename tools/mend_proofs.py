#!/usr/bin/env python3
"""Mends what a check says of the proofs of one crate, where the mending is a matter of form.

usage: tools/mend_proofs.py CRATE_FOLDER LOG     LOG is what `rt check` printed there

- a lemma lacks clauses for cases that can't be: the clauses that the check prints are written before its first clause
- `.auto.0` where the record's one field has a name now
- an answer that is a tuple where a record by the names of clauses is asked
"""

import re
import sys

NAME = r"[^\s(){}\[\],;.=]+"


def lines_of(path):
    with open(path, encoding="utf-8") as f:
        return f.read().split("\n")


def write(path, lines):
    with open(path, "w", encoding="utf-8") as f:
        f.write("\n".join(lines))


def split(term):
    """The parts of a tuple at its top level, or None."""
    term = term.strip()
    if not (term.startswith("(") and term.endswith(")")):
        return None
    parts, depth, at = [], 0, 1
    for i, ch in enumerate(term):
        if ch in "([{":
            depth += 1
        elif ch in ")]}":
            depth -= 1
            if depth == 0 and i < len(term) - 1:
                return None
        elif ch == "," and depth == 1:
            parts.append(term[at:i].strip())
            at = i + 1
    last = term[at:-1].strip()
    if last:
        parts.append(last)
    return parts if len(parts) > 1 else None


def record_of(term, fields):
    """`(a, b)` as `record { x = a; y = b }`, behind its lets."""
    m = re.match(r"(?s)((?:\s*let .*? in\s)*)(.*)$", term)
    lets, body = m.groups()
    # the last `in` at depth 0 ends the lets
    depth, cut = 0, 0
    for w in re.finditer(r"[(\[{]|[)\]}]|\bin\b(?=\s)", term):
        if w.group() in "([{":
            depth += 1
        elif w.group() in ")]}":
            depth -= 1
        elif depth == 0:
            cut = w.end()
    lets, body = term[:cut], term[cut:].strip()
    r = re.match(r"(?s)(rw (?:\([^()]*\)|\S+) )(\(.*\))$", body)
    before = ""
    if r and split(r.group(2)):
        before, body = r.groups()
    parts = split(body)
    while parts and len(parts) < len(fields) and split(parts[-1]):
        parts = parts[:-1] + split(parts[-1])
    if parts and len(parts) >= len(fields):
        parts = parts[: len(fields) - 1] + ["(" + ", ".join(parts[len(fields) - 1 :]) + ")" if len(parts) > len(fields) else parts[len(fields) - 1]]
    elif not parts:
        parts = [f"({body}).{k}" if re.search(r"\s", body) else f"{body}.{k}" for k in range(len(fields))]
    else:
        return None
    made = "record {\n" + "".join(f"      {f} = {p};\n" for f, p in zip(fields, parts)) + "    }"
    return lets + "\n    " + (f"{before}({made})" if before else made)


def main():
    folder, log = sys.argv[1:3]
    with open(log, encoding="utf-8") as f:
        text = f.read()
    text = re.sub(r"(?m)^so far: ", "", text)
    seen = set()
    # An error that stands twice is one.
    text = "\n".join(x for x in text.split("\n") if not (re.match(r"\S+\.antt:\d+:\d+: error", x) and (x in seen or seen.add(x))))
    edits = {}
    done = 0
    # missing clauses
    for m in re.finditer(r"(?m)^(\S+\.antt):(\d+):\d+: error: `([^`]+)`: write the clauses? ?(?:`([^`\n]+)`)?.*\n((?:  .*\n)*)", text + "\n"):
        path, line, name, one, more = m.groups()
        clauses = [one] if one else [x.strip() for x in more.split("\n") if re.match(r"\s+\S+ .* = elim ", x)]
        if clauses:
            name = clauses[0].split()[0]
            edits.setdefault(f"{folder}/{path}", {}).setdefault((int(line), name), clauses)
    for path, by in edits.items():
        lines = lines_of(path)
        for (at, name), clauses in sorted(by.items(), reverse=True):
            k = at - 1
            while k < len(lines) - 1 and not re.match(rf"\s*{re.escape(name)}(?:\s+\S.*)? =|\s*{re.escape(name)} ", lines[k]) or re.match(rf"\s*(?:pub )?{re.escape(name)} :", lines[k]):
                k += 1
            indent = re.match(r"\s*", lines[k]).group()
            have = {re.sub(r"\s*=.*", "", x.strip()) for x in lines[k : k + 40]}
            new = [indent + c for c in clauses if re.sub(r"\s*=.*", "", c) not in have]
            lines[k:k] = new
            done += len(new)
        write(path, lines)
    # a name that an import lacks
    for m in re.finditer(r"(?m)^(\S+\.antt):\d+:\d+: error: .*is not in scope: add `use ([^`{]+)\.\{([^`}]+)\}`", text):
        path, module, name = m.groups()
        path = f"{folder}/{path}"
        lines = lines_of(path)
        for k, line in enumerate(lines):
            g = re.match(rf"use {re.escape(module)}\.\{{(.*)\}}$", line)
            if g:
                have = [x.strip() for x in g.group(1).split(",")]
                if name not in have:
                    lines[k] = f"use {module}.{{{', '.join(have + [name])}}}"
                    done += 1
                break
        else:
            k = next(i for i, line in enumerate(lines) if line.startswith("use "))
            lines.insert(k, f"use {module}.{{{name}}}")
            done += 1
        write(path, lines)
    # .auto.0 and the like
    for m in re.finditer(r"(?m)^(\S+\.antt):(\d+):(\d+): error: .*has no field `(\d)`[^\n]*?(?:\n  | — )the fields that can be named here are ([^\n]*)", text):
        path, line, col, field, names = m.groups()
        fields = re.findall(r"`([^`]+)`", names)
        if int(field) < len(fields):
            path = f"{folder}/{path}"
            lines = lines_of(path)
            row = lines[int(line) - 1]
            found = [x for x in re.finditer(rf"(?:(?<=\.auto)|(?<=\.new))\.{field}(?!\w)", row)]
            near = sorted(found, key=lambda x: abs(x.start() - int(col) + 1))
            if near:
                x = near[0]
                lines[int(line) - 1] = row[: x.start()] + f".{fields[int(field)]}" + row[x.end() :]
                done += 1
                write(path, lines)
    # a test of `!b` says what b is, and a lemma wants `not b`
    for m in re.finditer(r"(?m)^(\S+/Answers\.antt):(\d+):(\d+): error: [^\n]*(?:has `\(mathlib\.Core\.Bool\.not|expected type `mathlib\.Core\.Bool\.not)", text):
        path, line, col = m.groups()
        path = f"{folder}/{path}"
        lines = lines_of(path)
        row = lines[int(line) - 1]
        x = re.compile(r"c\.[\w.-]+\.(?:true|false)(?![\w.])").match(row, int(col) - 1)
        if x:
            lines[int(line) - 1] = row[: x.start()] + f"(ap not {x.group()})" + row[x.end() :]
            done += 1
            if not any(line.startswith("use Rattle.std.proofs.Common.{ap, not}") for line in lines):
                has_ap = any(re.match(r"use .*\{(?:.*, )?ap[,}]", line) for line in lines)
                k = next(i for i, line in enumerate(lines) if line.startswith("use "))
                lines.insert(k, "use Rattle.std.proofs.Common.{not}" if has_ap else "use Rattle.std.proofs.Common.{ap, not}")
            write(path, lines)
    # tuples for records
    for m in re.finditer(r"(?m)^(\S+/Answers\.antt):(\d+):\d+: error: `([^`]+)`: a value of .*\n.*is built with `record \{ ([^`]*) \}`, not as a tuple", text):
        path, line, name, shown = m.groups()
        fields = [x.split("=")[0].strip() for x in shown.split(";") if "=" in x]
        path = f"{folder}/{path}"
        with open(path, encoding="utf-8") as f:
            t = f.read()
        d = re.search(rf"(?ms)^{re.escape(name)}((?: {NAME})*) =\s*(.*?)(?=\n\n|\Z)", t)
        if d:
            new = record_of(d.group(2).rstrip("\n"), fields)
            if new:
                t = t[: d.start(2)] + new.lstrip("\n") + t[d.end(2) :].rstrip("\n") + "\n" if d.end(2) >= len(t.rstrip("\n")) else t[: d.start(2)] + new + t[d.end(2) :]
                with open(path, "w", encoding="utf-8") as f:
                    f.write(t)
                done += 1
    print(f"{done} mended")


if __name__ == "__main__":
    main()
