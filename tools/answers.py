#!/usr/bin/env python3
"""Turns the proofs of an older Rattle (proofs/F/Proof.antt, closed by a Tie) to Invariants.antt and Answers.antt.

usage: tools/answers.py NAMES CRATE..     at the top of the repository

NAMES is the names.json that `rt check --generated DIR --old-names` writes for the crate, or a folder of such files by crate (CRATE.json). An answer that only said what
the check now tries by itself goes. What the script can't turn it leaves in Answers.antt as it was and says so: 'left: FILE: ..'.
"""

import json
import os
import re
import sys

TRIVIAL = re.compile(r"^(?:search rules|omega arith|[\s(),]|refl|tt)*$")
NAME = r"[^\s(){}\[\],;.=]+"


def norm(name):
    return re.sub(r"[«»]", "", name).replace("_", "-").replace("·", "-").lower()


def read(path):
    with open(path, encoding="utf-8") as f:
        return f.read()


def sources(crate, cache={}):
    """The text of each file of a crate, by its module path."""
    if crate not in cache:
        found = {}
        top = f"crates/{crate}/src"
        for folder, _, files in os.walk(top):
            for f in sorted(files):
                path = os.path.relpath(os.path.join(folder, f), top)[: -len(".rt")]
                mods = tuple(x for x in path.split(os.sep) if x not in ("lib", "main", "mod"))
                found[mods] = read(os.path.join(folder, f))
        cache[crate] = found
    return cache[crate]


def clauses_of(function, kind, cache={}):
    """The names of a function's clauses of a kind, by its path crate::module::name or crate::Type::name."""
    if function not in cache:
        name = function.split("::")[-1]
        text = text_of(function)
        m = re.search(rf"\bfn {re.escape(name)}\b", text)
        found = {"requires": [], "ensures": []}
        if m:
            rest = text[m.start() :]
            end = re.search(r"\n[ ]*\{(?:\n|\})", rest)
            head = rest[: end.start()] if end else rest[:4000]
            for k, n in re.findall(r"\b(requires|ensures)\s*(\w*)\s*\{", head):
                found[k].append(n)
        cache[function] = found
    return cache[function][kind]


def text_of(function):
    """The file of a function, from where it stands or from its type's impl on."""
    parts = function.split("::")
    crate, mods = parts[0], tuple(parts[1:-1])
    texts = sources(crate)
    if mods in texts:
        return texts[mods]
    found = [x for x in [texts.get(mods[:-1], ""), *texts.values()] if mods and f"impl {mods[-1]}" in x]
    return found[0][found[0].index(f"impl {mods[-1]}") :] if found else ""


def params_of(function):
    """The names of a function's parameters."""
    parts = function.split("::")
    text = text_of(function)
    m = re.search(rf"\bfn {re.escape(parts[-1])}\b[^(]*\((.*?)\)(?:\s*->|\s*\n|\s*\{{)", text, re.S)
    return re.findall(r"\bself\b|\w+(?=\s*:(?!:))", m.group(1)) if m else []


def split(term):
    """The parts of a tuple at its top level, or None."""
    term = term.strip()
    if not (term.startswith("(") and term.endswith(")")):
        return None
    parts, depth, at = [], 0, 1
    for i, ch in enumerate(term):
        if ch in "([{":
            depth += 1
        elif ch in ")]}":
            depth -= 1
            if depth == 0 and i < len(term) - 1:
                return None
        elif ch == "," and depth == 1:
            parts.append(term[at:i].strip())
            at = i + 1
    last = term[at:-1].strip()
    if last:
        parts.append(last)
    return parts if len(parts) > 1 else None


def as_record(term, fields):
    """A tuple of what several clauses ask, as a record by their names; another term by its parts."""
    depth, cut = 0, 0
    for w in re.finditer(r"[(\[{]|[)\]}]|\bin\b(?=\s)", term):
        if w.group() in "([{":
            depth += 1
        elif w.group() in ")]}":
            depth -= 1
        elif depth == 0:
            cut = w.end()
    lets, body = term[:cut], term[cut:].strip()
    r = re.match(r"(?s)(rw (?:\([^()]*\)|\S+) )(\(.*\))$", body)
    if r and split(r.group(2)):
        return lets + ("\n    " if lets else "") + r.group(1) + "(" + as_record(r.group(2), fields) + ")"
    if re.match(r"(record|search|grind|omega|absurd|elim|⊎_elim|rw|simp|λ)\b", body) or "?" in body:
        return term
    parts = split(body)
    while parts and len(parts) < len(fields) and split(parts[-1]):
        parts = parts[:-1] + split(parts[-1])
    if parts and len(parts) >= len(fields):
        last = parts[len(fields) - 1 :]
        parts = parts[: len(fields) - 1] + [last[0] if len(last) == 1 else "(" + ", ".join(last) + ")"]
    elif not parts:
        one = f"({body})" if re.search(r"\s", body) else body
        parts = [f"{one}.{k}" for k in range(len(fields))]
    else:
        return term
    return lets + ("\n    " if lets else "") + "record { " + "; ".join(f"{f} = {p}" for f, p in zip(fields, parts)) + " }"


class Function:
    def __init__(self, entry, path):
        self.entry = entry
        self.path = path  # crate::module::f
        self.needs = {norm(a): b for a, b in entry["needs"]}
        self.settled = set(entry.get("settled", []))
        self.steps = {}
        self.callee = {}
        for place in entry["places"]:
            name, parent, (old, new), fn, _ = place
            self.steps.setdefault(norm(old), [])
            if new not in self.steps[norm(old)]:
                self.steps[norm(old)].append(new)
            if fn:
                self.callee[new] = fn
        self.loops = {norm(names[0]): (names[1], vars, was) for (names, vars), was in zip(entry["loops"], entry["changed"])}
        self.arms = {}
        for arm in entry["arms"]:
            if arm:
                name, count, fields = arm
                for field, step, path in fields:
                    if path:
                        self.arms.setdefault((norm(step), tuple(path)), f"{name}.{field}")

    def callee_of(self, goal):
        """What the call is of whose `requires` a goal asks."""
        base = goal.split("-requires")[0]
        for new, fn in self.callee.items():
            if new == base or new.startswith(base):
                return fn
        return None

    def index(self, kind, function, rest):
        """`.0.x` of several clauses by name."""
        names = clauses_of(function, kind)
        if len(names) < 2:
            return rest
        way = rest.split(".")[1:]
        if not way or not way[0].isdigit():
            return rest
        # Several clauses were pairs in pairs.
        at, left = 0, list(way)
        while left and at < len(names) - 1 and left[0] == "1" and (len(left) > 1 or at == len(names) - 2):
            at, left = at + 1, left[1:]
        if at < len(names) - 1:
            if left and left[0] == "0":
                left = left[1:]
            else:
                at, left = int(way[0]), way[1:]
        if at < len(names) and names[at]:
            return "".join("." + x for x in [names[at]] + left)
        return rest

    def turned(self, path, left):
        """A path of an old context, with its first name and the steps back gone."""
        parts = path.split(".")
        head = parts[0]
        rest = "".join("." + p for p in parts[1:])
        if head == "requires":
            return "c.requires" + self.index("requires", self.path, rest)
        t = re.match(r"t(\d+)$", parts[1]) if head == "args" and len(parts) > 1 else None
        if t:
            # a parameter that a pattern takes apart had only a number
            names = params_of(self.path)
            if int(t.group(1)) <= len(names):
                return "c.args." + ".".join([names[int(t.group(1)) - 1]] + parts[2:])
        if head in ("args", "ranges", "lifetimes", "utf8"):
            return f"c.{head}{rest}"
        for n in range(len(parts), 1, -1):
            key = (norm(head), tuple(parts[1:n]))
            if key in self.arms:
                return f"c.{self.arms[key]}" + "".join("." + p for p in parts[n:])
        if head.startswith("match") and parts[1:2] == ["rest"]:
            return "(search rules)"
        new = self.steps.get(norm(head))
        if not new and head.endswith("_lem"):
            new = self.steps.get(norm(head[: -len("_lem")]))
        if not new and head == "type-inv":
            # port.py took a call of a function `typed` for a field of that name
            new = self.steps.get("typed")
        if not new:
            left.append(path)
            return f"c.{path}"
        step = new[0]
        if len(parts) > 2 and parts[1] in ("new", "auto") and parts[2] in ("0", "1") and step in self.callee:
            # what a call left in its parameters, as pairs in pairs
            names = params_of(self.callee[step])
            at, left = 0, parts[2:]
            while left and left[0] == "1" and at < len(names) - 1:
                at, left = at + 1, left[1:]
            if left and left[0] == "0":
                left = left[1:]
            if at < len(names):
                return ".".join(["c", step, parts[1], names[at], *left])
        if parts[1:2] == ["type-inv"]:
            parts[1] = "type_inv"
            rest = "".join("." + p for p in parts[1:])
        if parts[1:2] == ["ensures"] and step in self.callee:
            return f"c.{step}.ensures" + self.index("ensures", self.callee[step], "".join("." + p for p in parts[2:]))
        return f"c.{step}{rest}"


def blocks_of(text):
    """Declarations with what stands above them, in order."""
    out, now = [], []
    for line in text.split("\n"):
        if re.match(rf"(?:pub |abbrev |unfoldable )*{NAME}", line) and not line.startswith("--") and now and not now[-1].startswith("--"):
            head = re.match(rf"(?:pub |abbrev |unfoldable )*({NAME})", line).group(1)
            first = next((x for x in now if x and not x.startswith("--")), "")
            same = re.match(rf"(?:pub |abbrev |unfoldable )*({NAME})", first)
            if not (same and same.group(1) == head) and not line.startswith("unfolding"):
                if not (first.startswith("unfolding") or (now and now[-1].startswith("unfolding"))):
                    out.append("\n".join(now).strip("\n"))
                    now = []
        elif line.startswith("--") and now and any(x and not x.startswith("--") for x in now) and now[-1] == "":
            out.append("\n".join(now).strip("\n"))
            now = []
        now.append(line)
    out.append("\n".join(now).strip("\n"))
    return [b for b in out if b.strip()]


def turn_term(fn, term, left):
    """The term over today's context: aliases of contexts go, paths are by name."""
    aliases = {"c"}
    changed = True
    while changed:
        changed = False
        for m in re.finditer(rf"let ({NAME}) = ({NAME})((?:\.before)*) in\s*", term):
            name, base, _ = m.groups()
            if base in aliases and m.group(0).split("=")[1].strip().split(" in")[0].strip().replace(".before", "") == base:
                aliases.add(name)
                term = term[: m.start()] + term[m.end() :]
                changed = True
                break
    # a name for a path is that path
    again = True
    while again:
        again = False
        for m in re.finditer(rf"let ({NAME}) = ({NAME}(?:\.{NAME})+) in\s*", term):
            name, to = m.groups()
            if to.split(".")[0] in aliases:
                rest = re.sub(rf"(?<![\w.'·₀-₉-]){re.escape(name)}(?![\w'·₀-₉-])", to, term[m.end() :])
                term = term[: m.start()] + rest
                again = True
                break
    names = "|".join(sorted((re.escape(a) for a in aliases), key=len, reverse=True))
    pattern = re.compile(rf"(?<![\w.'·₀-₉-])(?:{names})((?:\.before)*)((?:\.{NAME})+)")

    def path(m):
        p = m.group(2)[1:]
        return fn.turned(p, left)

    term = pattern.sub(path, term)
    # Today a test of `!b` says that b is false.
    term = re.sub(r"\((?:not-true|not-false|not_yes|not-yes|un_not|un-not) (?:_|c\.[\w.-]+) (c\.[\w.-]+\.(?:true|false))\)", r"\1", term)
    term = re.sub(r"(?<![\w-])(?:not-true|not-false|not_yes|not-yes|un_not|un-not) (?:_|c\.[\w.-]+) (c\.[\w.-]+\.(?:true|false))(?![\w.])", r"\1", term)
    # What is known of a slice's items.
    typed = {new: var for at in fn.entry["typed"] for var, old in at for new in fn.steps.get(norm(old), [])}
    term = re.sub(r"\(c\.([\w-]+)\.given (\w+|\([^()]*\)|c\.[\w.-]+)\)\.fits", lambda m: f"(c.type_inv.{typed[m.group(1)]} {m.group(2)}).fits" if m.group(1) in typed else m.group(), term)
    if re.search(rf"(?<![\w.'·₀-₉-])(?:{names})(?:\.before)+(?![\w.])", term):
        left.append("a bare context")
    return term


def turn(proof, fn, module, report):
    text = read(proof)
    uses, body = [], []
    for line in text.split("\n"):
        (uses if line.startswith("use ") else body).append(line)
    head = []
    while body and (body[0].startswith("--") or not body[0]):
        line = body.pop(0)
        if line:
            head.append(line)
    uses = [u for u in uses if not re.search(r"\.(Statement\.|Tie\b)", u) and "Author.Rules" not in u]
    invariants, answers = [], []
    for block in blocks_of("\n".join(body)):
        if re.search(r"^pub \S+[-_]spec\s*:", block, re.M):
            continue
        m = re.search(rf"^(?:pub )?(?:abbrev )?(?:pub )?({NAME}) : tie\.(\S+)(.*)$", block, re.M)
        if not m:
            answers.append(block)
            continue
        own, need = m.group(1), m.group(2)
        if need.startswith(("invariant", "decreases")):
            invariants.append(block)
            continue
        need = need[len("Need-") :]
        rest = block[m.end() :].lstrip("\n")
        above = block[: m.start()].strip("\n")
        unfolding = ""
        u = re.match(r"unfolding (.*)\n", rest)
        if u:
            unfolding = u.group(0)
            rest = rest[u.end() :]
        d = re.match(rf"{re.escape(own)}((?: {NAME})*) =\s*", rest)
        if not d:
            answers.append(block)
            report(f"no clause: {own}")
            continue
        term = rest[d.end() :].rstrip()
        short = re.sub(r"^overflow-", "", need)
        goal = fn.needs.get(norm(need)) or fn.needs.get(norm(short)) or next((x for x in fn.settled if norm(x) in (norm(need), norm(short))), None)
        if TRIVIAL.match(term) and not unfolding:
            continue
        if not goal and need.startswith("slice-bounds-"):
            # such a goal is not among the names: its words are those of the source
            ids = {x for text in sources(fn.path.split("::")[0]).values() for x in re.findall(r"\b\w*_\w*\b", text)}
            goal = "slice_bounds-" + need[len("slice-bounds-") :]
            for x in sorted(ids, key=len, reverse=True):
                goal = re.sub(rf"(?<=-){re.escape(x.replace('_', '-'))}(?=-|$)", x, goal)
        left = []
        turned = turn_term(fn, term, left)
        if not goal:
            if norm(need) in map(norm, fn.settled) or TRIVIAL.match(term):
                continue
            report(f"no goal for {need}: {turned[:100]!r}")
            answers.append("-- LEFT " + need + "\n" + "\n".join("-- " + x for x in turned.split("\n")))
            continue
        for x in left:
            report(f"{goal}: {x}")
        fields = []
        if goal.startswith("returns"):
            fields = clauses_of(fn.path, "ensures")
        elif "-requires" in goal:
            step = next((new for new in fn.callee if re.sub(r"-\d+$", "", goal.replace("-requires", "")) == new or goal == f"{new}-requires"), None)
            callee = fn.callee.get(step) or fn.callee_of(goal)
            fields = clauses_of(callee, "requires") if callee else []
        if len(fields) > 1 and len(d.group(1).split()) <= 1 + ("κs" in d.group(1).split()):
            turned = as_record(turned, fields)
            # the parts of what a callee ensures have names too
            turned = re.sub(
                r"(c\.([\w-]+)\.ensures)\.(\d)(?=[ ;}])",
                lambda m: m.group(1) + fn.index("ensures", fn.callee[m.group(2)], "." + m.group(3)) if m.group(2) in fn.callee else m.group(),
                turned,
            )
        sep = "\n    " if turned.lstrip().startswith("let ") or "\n" in term or len(turned) > 100 else " "
        above = above + "\n" if above else ""
        binders = "".join(" " + x for x in d.group(1).split()[1:] if x != "κs")
        answers.append(f"{above}pub {goal} : goal.{goal}\n{unfolding}{goal} c{binders} ={sep}{turned}")
    # a definition that an invariant uses stands with it
    shared = []
    for block in list(answers):
        m = re.search(rf"^(?:pub )?(?:abbrev |unfoldable )?(?:pub )?({NAME}) :", block, re.M)
        if m and not re.search(r": goal\.", block) and any(re.search(rf"(?<![\w.'-]){re.escape(m.group(1))}(?![\w'-])", b) for b in invariants):
            answers.remove(block)
            shared.append(m.group(1))
            invariants.insert(len(shared) - 1, re.sub(r"(?m)^(abbrev |unfoldable )?(?!pub )(?=\S+ :)", lambda x: (x.group(1) or "") + "pub ", block, count=1))
    if shared and answers:
        uses.append(f"use {module}.Invariants.{{{', '.join(shared)}}}")
    folder = os.path.dirname(proof)
    own = "\n".join(head)
    own = own + "\n" if own else ""
    if invariants:
        turned = [turn_invariant(fn, b, report) if re.search(r": tie\.", b) else b for b in invariants]
        out = own + "\n".join(u for u in uses if f"{module}.Invariants" not in u) + f"\nuse {module}.Given as goal\n\n" + "\n\n".join(turned) + "\n"
        with open(f"{folder}/Invariants.antt", "w", encoding="utf-8") as f:
            f.write(out)
    if answers:
        u = list(uses)
        joined = "\n".join(answers)
        if re.search(r"\brules\b", joined):
            u.insert(0, "use Rattle.std.proofs.Common.{rules}")
        out = own + "\n".join(u) + f"\nuse {module}.Goals as goal\n\n" + "\n\n".join(answers) + "\n"
        with open(f"{folder}/Answers.antt", "w", encoding="utf-8") as f:
            f.write(out)
    os.remove(proof)


def turn_invariant(fn, block, report):
    m = re.search(rf"^(?:pub )?abbrev (?:pub )?({NAME}) : tie\.({NAME})(.*)$", block, re.M)
    own, kind = m.group(1), m.group(2)
    rest = block[m.end() :].lstrip("\n")
    above = block[: m.start()].strip("\n")
    unfolding = ""
    u = re.match(r"unfolding (.*)\n", rest)
    if u:
        unfolding = u.group(0)
        rest = rest[u.end() :]
    d = re.match(rf"{re.escape(own)}((?:\s+{NAME})*)\s*=\s*", rest)
    names = d.group(1).split()
    term = rest[d.end() :].rstrip()
    word, loop = re.match(r"(invariant|decreases)-(.*)", kind).groups()
    new = fn.steps.get(norm(loop), [loop])[0]
    if norm(loop) in fn.loops:
        new, vars, was = fn.loops[norm(loop)]
        meant = [f"l.initial.{v}" if w else f"l.{v}" for v, w in zip(vars, was)] + [f"l.{v}" for v, w in zip(vars, was) if w]
    else:
        meant = []
    if len(meant) != len(names):
        if meant:
            report(f"{word}-{new}: {names} for {meant}")
        meant = []
        for n in names:
            base = n.rstrip("₀₁₂")
            meant.append(f"l.initial.{base}" if n != base and base in names else f"l.{base}")
    for n, to in sorted(zip(names, meant), key=lambda x: len(x[0]), reverse=True):
        if n == "_":
            continue
        term = re.sub(rf"(?<![\w.'·₀-₉-]){re.escape(n)}(?![\w'·₀-₉-])", to, term)
    above = above + "\n" if above else ""
    sep = "\n    " if "\n" in term or len(term) > 100 else " "
    return f"{above}abbrev pub {word}-{new} : goal.{word}-{new}\n{unfolding}{word}-{new} l ={sep}{term}"


def main():
    names, crates = sys.argv[1], sys.argv[2:]
    for crate in crates:
        path = f"{names}/{crate}.json" if os.path.isdir(names) else names
        entries = json.loads(read(path))
        top = f"crates/{crate}/proofs"
        for folder, _, files in sorted(os.walk(top)):
            if "Proof.antt" not in files:
                continue
            parts = os.path.relpath(folder, top).split(os.sep)
            key = f"Rattle-{crate}-proofs.{'.'.join(parts)}.Lts"
            proof = f"{folder}/Proof.antt"
            if key not in entries:
                print(f"left: {proof}: no names")
                continue
            fn = Function(entries[key], "::".join([crate, *parts]))
            turn(proof, fn, f"Rattle.{crate}.proofs.{'.'.join(parts)}", lambda s: print(f"left: {proof}: {s}"))


if __name__ == "__main__":
    main()
