#!/usr/bin/env python3
"""Spells the names that this repository declares in specs/ and proofs/ as the toolchain spells its own: in snake case.

usage: tools/spell.py [--check]        at the top of the repository, once; --check writes nothing

A declared name turns where it has a capital letter behind a small one and does not begin with a capital, or a dash: goalsSize is goals_size and
left-of-visits is left_of_visits. Types and modules keep their names, as all of them are in camel case already. It turns in the text of
specs/, proofs/, the clauses of src/ and the edits; in comments and documents a name with a capital inside turns, and one with a dash within
backticks. A name that a file has from a library keeps its spelling there, and so does what the toolchain makes and what stands behind a dot,
but for the fields of declared records. In edits and documents a name turns also where specs/ or proofs/ have it in snake case already. Where a name with a dash would fall together with another, it ends in _lem.
"""

import collections
import os
import re
import sys

WORD = re.compile(r'[^\s(){}.;,@"«»`\[\]|∣]+')
SIGNATURE = re.compile(r"(\s*)(?:(?:abbrev|unfoldable) )?(?:pub )?([^\s:(){}.,]+)(?: \{[^{}\n]*\})* :(?:\s|$)")
SHAPE = re.compile(r"\s*(?:pub )?(?:record|data) (?:pub )?\S+.* where$")
IMPORT = re.compile(r"\buse ([^\s;{]+)\.\{([^{}]*)\}")
MADE = re.compile(r"(?:tie|goal|Tie|Goals|Given|Statement)$")


def snake(name):
    words = re.sub(r"(?<=[a-z0-9₀-₉])[A-Z]", lambda m: "_" + m[0].lower(), name)
    return words.replace("-", "_")


def turns(name):
    if name[0].isupper() or name.startswith("-") or name.endswith("-") or "◌" in name.strip("◌"):
        return False
    return snake(name) != name


def files(root, endings):
    for top in ("crates", "tests", "docs", "test"):
        for folder, dirs, names in os.walk(os.path.join(root, top)):
            dirs[:] = sorted(d for d in dirs if d not in ("out", "target", ".git"))
            for n in sorted(names):
                if n.endswith(endings):
                    yield os.path.join(folder, n)


def text(path):
    with open(path, encoding="utf-8") as f:
        return f.read()


def of_function(path):
    """Whether the file belongs to the proof of one function of src/."""
    steps = path.split(os.sep)
    return path.endswith(".antt") and "proofs" in steps and len(steps) - steps.index("proofs") > 2


def declared(path):
    """The names that a file of antt declares, and which of them are fields of records."""
    names, fields, inside = set(), set(), None
    for line in text(path).split("\n"):
        if line.lstrip().startswith("--"):
            continue
        indent = len(line) - len(line.lstrip())
        if SHAPE.match(line):
            inside = indent
            continue
        if inside is not None and line.strip() and indent <= inside:
            inside = None
        m = SIGNATURE.match(line)
        if m:
            names.add(m[2])
            if inside is not None:
                fields.add(m[2])
    return names, fields


def imported(t, crates):
    """The names that a text has from libraries, and those it has from this repository."""
    library, own = set(), set()
    for m in IMPORT.finditer(t):
        steps = m[1].split(".")
        to = own if steps[0] == "Rattle" and len(steps) > 1 and steps[1] in crates else library
        for item in m[2].split(","):
            words = item.split()
            if words:
                to.add(words[0])
                if len(words) == 3:
                    own.add(words[2])
    return library, own


def turn_code(t, table, fields, locals_, keep, spelled=frozenset()):
    def word(m):
        w = m[0]
        behind = m.start() > 0 and t[m.start() - 1] == "." and m.start() > 1 and not t[m.start() - 2].isspace()
        if behind:
            before = re.search(r'[^\s(){}.;,@"«»`\[\]|∣]+$', t[: m.start() - 1])
            if before and MADE.search(before[0]):
                return w
            return table[w] if w in table and w in fields else w
        if w in keep:
            return w
        return table.get(w) or locals_.get(w) or (snake(w) if turns(w) and snake(w) in spelled else w)

    return WORD.sub(word, t)


def turn_prose(t, table, spelled):
    def word(m):
        w = m[0]
        return table.get(w) or (snake(w) if turns(w) and snake(w) in spelled else w)

    t = re.sub(r"`[^`\n]*`", lambda m: WORD.sub(word, m[0]), t)
    return re.sub(r"(?<![\w-])[a-z]+[A-Z]\w*'*(?![\w-])", word, t)


def pieces(t, ending):
    """The text cut into (is code, piece): comments are no code."""
    mark = r"--(?= |$)[^\n]*" if ending == ".antt" else r"//[^\n]*"
    at = 0
    for m in re.finditer(r'"(?:[^"\\\n]|\\.)*"|' + mark, t):
        yield True, t[at : m.start()]
        yield (None if m[0].startswith('"') else False), m[0]
        at = m.end()
    yield True, t[at:]


def main(argv):
    root = os.getcwd()
    crates = set(os.listdir(os.path.join(root, "crates")))
    antt = [p for p in files(root, ".antt")]
    table, fields, own_of, seen = {}, set(), {}, collections.defaultdict(set)
    for p in antt:
        names, fs = declared(p)
        if of_function(p):
            own_of[p] = {n: snake(n) for n in names if turns(n)}
            continue
        for n in names:
            if turns(n):
                table[n] = snake(n)
        fields |= {n for n in fs if turns(n)}
        for n in names:
            if n.startswith("◌") and n.endswith("◌") and snake(n.strip("◌")) != n.strip("◌"):
                table[n] = snake(n)
                table[n.strip("◌")] = snake(n.strip("◌"))
    taken = collections.Counter(snake(n) for p in antt if not of_function(p) for n in declared(p)[0] if "-" not in n)
    taken.update({w for p in antt for w in imported(text(p), crates)[0]})
    for n in sorted(table):
        if "-" in n and n.strip("◌") == n and table[n] in taken:
            table[n] += "_lem"
    # A name in snake case that a definition's new name would meet
    for p in antt:
        if not of_function(p):
            for n in declared(p)[0]:
                if n in set(table.values()) and n not in table and taken[n] > 1 and any(table[o] == n and "-" not in o for o in table):
                    table[n] = n + "_lem"
    spelled = {n for p in antt for n in declared(p)[0]} | set(table.values())
    bad = 0
    changed = 0
    for p in list(files(root, (".antt", ".rt", ".edit"))):
        t = text(p)
        ending = os.path.splitext(p)[1]
        library, own = imported(t, crates)
        keep = {w for w in library if w in table and w not in own}
        if keep:
            print(f"left: {os.path.relpath(p, root)}: from a library: {' '.join(sorted(keep))}")
        locals_ = own_of.get(p, {})
        code = [s for k, s in pieces(t, ending) if k]
        before = {w for s in code for w in WORD.findall(s)}
        bare = {table.get(w, w) for s in code for w in re.findall(r'(?<![^\s(){};,@"«»`|∣])' + WORD.pattern, s)}
        for n in locals_:
            if locals_[n] in bare:
                locals_[n] += "_lem"
        out = ""
        for kind, s in pieces(t, ending):
            out += s if kind is None else turn_code(s, table, fields, locals_, keep, spelled if ending == ".edit" else ()) if kind else turn_prose(s, table, spelled)
        for w in before:
            for x in (table, locals_):
                if p.endswith(".antt") and w in x and x[w] in before and w not in keep:
                    print(f"together: {os.path.relpath(p, root)}: {w} and {x[w]}")
                    bad += 1
        if out != t:
            changed += 1
            if "--check" not in argv:
                with open(p, "w", encoding="utf-8") as f:
                    f.write(out)
    for p in list(files(root, ".md")) + [os.path.join(root, "README.md")]:
        t = text(p)
        out = turn_prose(t, table, spelled)
        if out != t:
            changed += 1
            if "--check" not in argv:
                with open(p, "w", encoding="utf-8") as f:
                    f.write(out)
    both = collections.defaultdict(set)
    for old, new in table.items():
        both[new].add(old)
    for new, olds in sorted(both.items()):
        if len(olds) > 1:
            print(f"together: {new} of {' '.join(sorted(olds))}")
            bad += 1
    print(f"spell: {len(table)} names, {sum(map(len, own_of.values()))} names within proofs of functions, {changed} files")
    return 1 if bad else 0


if __name__ == "__main__":
    raise SystemExit(main(sys.argv[1:]))
