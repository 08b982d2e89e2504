#!/usr/bin/env python3
"""Counts the places of the eight points of docs/DESIGN-PASS.md in crates/*/src, those of point 8 in crates/*/proofs.

usage, at the top of the repository:
    python3 tools/places.py           a line for each point and pattern: how many places
    python3 tools/places.py N         every place of point N: crate/file:line  text
    python3 tools/places.py table     crate by point, in Markdown
    python3 tools/places.py kept      for each point how many places there are and how many a comment `Kept: ..` explains, then those that none does

A pattern whose name begins with ~ is listed and counted apart: a person has to say which of its places are places of the point.
"""

import collections
import difflib
import glob
import os
import re
import shutil
import sys

Place = collections.namedtuple("Place", "part path line text")
Fn = collections.namedtuple("Fn", "path line name params result clauses body body_line comment")
Type = collections.namedtuple("Type", "path line kind name derives members")
Loop = collections.namedtuple("Loop", "fn line kind var range body")
Lemma = collections.namedtuple("Lemma", "path line name key")

NUMBER = r"(?:u8|u16|u32|u64|usize|i8|i16|i32|i64|isize)"
KEYWORDS = set("let mut if else for in while loop match return break continue as true false self Self move ref Ok Err Some None".split())

# READING THE CODE


def text_of(path):
    with open(path, encoding="utf-8") as f:
        return f.read()


def bare(text):
    """The text without comments and without what stands in strings, each character at its place."""
    def blank(m):
        s = re.sub(r"[^\n]", " ", m[0])
        return s if m[0].startswith("//") else '"' + s[1:-1] + '"'
    return re.sub(r"//[^\n]*|b?\"(?:[^\"\\]|\\.)*\"|b?'(?:[^'\\]|\\.)'", blank, text)


def closing(text, at):
    """The place after the bracket that closes the one at `at`."""
    pairs, depth = {"(": ")", "[": "]", "{": "}"}, 0
    for i in range(at, len(text)):
        if text[i] in pairs:
            depth += 1
        elif text[i] in pairs.values():
            depth -= 1
            if depth == 0:
                return i + 1
    return len(text)


def split_top(text, separator):
    """The parts between separators that stand outside all brackets."""
    parts, depth, start, i = [], 0, 0, 0
    while i < len(text):
        depth += text[i] in "([{"
        depth -= text[i] in ")]}"
        if depth == 0 and text.startswith(separator, i):
            parts.append(text[start:i])
            i += len(separator)
            start = i
        else:
            i += 1
    return [p.strip() for p in parts + [text[start:]] if p.strip()]


def line_at(text, at):
    return text.count("\n", 0, at) + 1


def comment_above(lines, line):
    above = []
    for k in range(line - 2, -1, -1):
        if lines[k].strip().startswith("//"):
            above.append(lines[k].strip(" /"))
        elif not lines[k].strip().startswith("#["):
            break
    return " ".join(reversed(above))


def after_generics(text, at):
    if text[at:at + 1] != "<":
        return at
    depth = 0
    for i in range(at, len(text)):
        depth += text[i] == "<"
        depth -= text[i] == ">" and text[i - 1] != "-"
        if depth == 0:
            return i + 1
    return len(text)


def function(path, text, lines, m):
    start = text.index("(", after_generics(text, m.end()))
    end = closing(text, start)
    params = tuple(tuple(x.strip() for x in p.split(":", 1)) for p in split_top(text[start + 1:end - 1], ",") if ":" in p)
    clauses, i = [], end
    while i < len(text) and text[i] not in "{;":
        c = re.compile(r"\b(requires|ensures)\b\s*(\w*)\s*(?=\{)").match(text, i)
        if c:
            i = closing(text, c.end())
            clauses.append((c[1], " ".join(text[c.end() + 1:i - 1].split())))
        else:
            i = closing(text, i) if text[i] in "([" else i + 1
    result = re.match(r"\s*->\s*([^{]*?)\s*(?=requires|ensures|where|\{|;|$)", text[end:i + 1] + " ")
    stop = closing(text, i) if text[i:i + 1] == "{" else i
    line = line_at(text, m.start())
    return Fn(path, line, m[1], params, result[1] if result else "", tuple(clauses), text[i + 1:stop - 1], line_at(text, i),
              comment_above(lines, line))


def members(text):
    """Fields or variants: name and what follows it."""
    found = []
    for p in split_top(text, ","):
        p = re.sub(r"#\[[^\]]*\]|\bpub\b", "", p).strip()
        if not p.startswith("ghost"):
            name = re.match(r"\w*", p)[0]
            found.append((name, " ".join(p[len(name):].lstrip(" :").split())))
    return found


def types_of(path, text):
    for m in re.finditer(r"((?:#\[[^\]]*\]\s*)*)(?:pub )?\b(struct|enum) (\w+)[^({;]*([({])", text):
        end = closing(text, m.end() - 1)
        yield Type(path, line_at(text, m.start(3)), m[2], m[3], m[1], members(text[m.end():end - 1]) if m[4] == "{" else [])


class Code:
    def __init__(self):
        self.order = [l.split(":")[0].split()[0] for l in text_of("crates.txt").splitlines() if l.strip() and l[0] != "#"]
        self.fns, self.types, self.raw, self.bare = [], [], {}, {}
        for path in sorted(glob.glob("crates/*/src/**/*.rt", recursive=True)):
            raw = text_of(path)
            text, lines = bare(raw), raw.split("\n")
            self.raw[path], self.bare[path] = lines, text.split("\n")
            self.types += types_of(path, text)
            self.fns += [function(path, text, lines, m) for m in re.finditer(r"\bfn (\w+)\s*(?=[<(])", text)]

    def lines(self, pattern, part, flags=0):
        """A place for each line of code that has the pattern."""
        for path, lines in self.bare.items():
            for k, line in enumerate(lines):
                if not line.strip().startswith(("ghost", "requires", "ensures", "use ")) and re.search(pattern, line, flags):
                    yield Place(part, path, k + 1, self.raw[path][k].strip())


def crate_of(path):
    return path.split("/")[1]


def of_fn(part, f, more=""):
    return Place(part, f.path, f.line, f.name + (": " + more if more else ""))


def is_list(t):
    return bool(re.match(r"&(?:'\w+ )?(?:mut )?\[|\[", t))


def is_array(t):
    return is_list(t) and ";" in t


# 1. OWN ENUMS OF THE SHAPE OF OPTION OR RESULT, FLAGS, NUMBERS FOR KINDS


def like_option(t):
    """A variant without data beside one with data, two variants of one value each, or names that say what Option and Result say."""
    if t.kind != "enum":
        return False
    without = [n for n, d in t.members if not d]
    named = [n for n, _ in t.members if re.match(r"(Refused|Found|Nothing|None|No[A-Z]\w*|No|Unknown|Failed)$", n)]
    single = len(t.members) == 2 and all(re.match(r"\([^,]*\)$", d) for _, d in t.members)
    return bool(named) or single or 0 < len(without) < len(t.members)


def shape(t):
    return "%s %s { %s }" % (t.kind, t.name, ", ".join((n + " " + d).strip() for n, d in t.members))


def point_1(code):
    own = {t.name for t in code.types if like_option(t)}
    for t in code.types:
        if t.name in own:
            yield Place("enums of the shape of Option or Result", t.path, t.line, shape(t))
        if t.kind == "struct" and any(d == "bool" or n in ("cause", "kind") and re.match(NUMBER, d) for n, d in t.members):
            yield Place("structs with a flag or a cause's number beside values", t.path, t.line, shape(t))
        if t.kind == "struct" and any(d in own for _, d in t.members):
            yield Place("structs with such an enum beside values", t.path, t.line, shape(t))
    for f in code.fns:
        said = (f.comment + " " + f.name).lower()
        if re.match(NUMBER + "$", f.result) and re.search(r"\bcause|refusal", said):
            yield of_fn("functions that hand back a cause as a number", f, f.result)
        if f.result == "bool" and any("&mut" in t for _, t in f.params):
            yield of_fn("functions that hand back a flag beside what they write", f)
    yield from code.lines(r"(==|!=) (255|65535|96|12)\b|\b12 <= |\[(255|65535|12)(u\d+|usize)?; ?\d+\]|\bBARRED\b", "numbers that mean none, in code")
    yield from code.lines(r"\b(cause|link|kind|own|c) (==|!=) 0\b|\bcause: 0,|\b(word\(\w+, \w+, 0\)|f\[0\]) (==|!=) 0\b", "0 for no cause, no link or a kind, in code")
    yield from code.lines(r"const \w+: u8 = \d+;", "constants that number causes")
    for path, lines in code.raw.items():
        for k, line in enumerate(lines):
            if re.match(r"\s*//.*\b(\d+|n|the length of the path) (for none|is none|is no |where (it|there)|past |without a|for a root)", line):
                yield Place("comments in which a number means none", path, k + 1, line.strip())


# 2. TWINS


def tokens(text):
    return re.findall(r"\w+|->|=>|::|\.\.|[^\w\s]", text)


def normal(f, callees):
    """Signature and body with T for each type of number, N for each number and constant, and names in the order in which they come."""
    ts = tokens(", ".join(t for _, t in f.params) + " -> " + f.result + " { " + f.body + " }")
    names, out = {n: "v%d" % k for k, (n, _) in enumerate(f.params)}, []
    for k, t in enumerate(ts):
        following, before = ts[k + 1:k + 2], ts[k - 1:k]
        if re.match(NUMBER + "$", t):
            out.append("T")
        elif re.match(r"\d", t) or re.match(r"[A-Z][A-Z_]+$", t):
            out.append("N")
        elif not re.match(r"[a-z_]\w*$", t) or t in KEYWORDS or before == ["."]:
            out.append("T" if not callees and re.match(r"[A-Z]", t) else t)
        elif following in (["("], ["::"], ["!"]):
            out.append(t if callees else "F")
        else:
            out.append(names.setdefault(t, "v%d" % len(names)))
    text = " ".join(out)
    return text if callees else re.sub(r"(?:F :: )+F", "F", text)


def groups_by(items, key):
    groups = collections.defaultdict(list)
    for i in items:
        groups[key(i)].append(i)
    return [g for g in groups.values() if len(g) > 1]


def similar(a, b):
    """Five sixths of the words are the same, in their order."""
    m = difflib.SequenceMatcher(None, a, b, False)
    return min(m.real_quick_ratio(), m.quick_ratio()) >= 0.835 and m.ratio() >= 0.835


def near_twins(fns):
    words = [(f, normal(f, False).split()) for f in fns]
    words = [(f, w) for f, w in words if len(w) > 45]
    for k, (f, w) in enumerate(words):
        like = [g for j, (g, v) in enumerate(words) if j != k and similar(w, v)]
        if like:
            yield f, like


def numbered(part, groups):
    for k, g in enumerate(groups):
        for f in g:
            yield of_fn(part, f, "group %d: %s" % (k + 1, ", ".join("%s::%s" % (crate_of(x.path), x.name) for x in g)))


def type_shape(t):
    return t.kind, tuple(re.sub(NUMBER, "T", d) for _, d in t.members)


def point_2(code):
    fns = [f for f in code.fns if f.body.strip() and f.name != "main"]
    equal = groups_by(fns, lambda f: normal(f, True))
    yield from numbered("functions equal but for types of numbers, numbers and names", equal)
    left = [f for f in fns if not any(f in g for g in equal)]
    calls = [g for g in groups_by(left, lambda f: normal(f, False)) if len(normal(g[0], False).split()) > 22]
    yield from numbered("the same, but for the functions and types named too", calls)
    left = [f for f in left if not any(f in g for g in calls)]
    near = dict(near_twins(fns))
    for f in left:
        if f in near:
            yield of_fn("functions of which five sixths are equal", f, "like " + ", ".join(crate_of(g.path) + "::" + g.name for g in near[f]))
    left = [f for f in left if f not in near]
    for g in groups_by(fns, lambda f: f.name):
        if len({crate_of(f.path) for f in g}) > 1:
            for f in g:
                if f in left:
                    yield of_fn("~ functions of one name in several crates", f, ", ".join(crate_of(x.path) for x in g if x is not f))
    for g in groups_by([t for t in code.types if len(t.members) > 1 and any(d for _, d in t.members)], type_shape):
        for t in g:
            yield Place("types of one shape", t.path, t.line, shape(t))


# 3. LOOPS


def loops_of(f):
    for m in re.finditer(r"(?:'\w+: )?\b(for (\w+|\([^)]*\)|&\w+) in ([^{]*)|while ([^{]*)|loop )\{", f.body):
        kind = m[1].split()[0]
        body = f.body[m.end():closing(f.body, m.end() - 1) - 1]
        yield Loop(f, f.body_line + f.body.count("\n", 0, m.start()), kind, m[2] or "", (m[3] or m[4] or "").strip(), body)


def counts(loop):
    return re.search(r"\b(\w+) = \1 [+-] |\b\w+ [+-]= ", loop.body)


def searches(loop):
    """Nothing but a test that leaves the loop, perhaps after what is tested."""
    last = [s for s in split_top(loop.body, ";") if not s.startswith("let ")]
    return len(last) == 1 and re.match(r"if ", last[0]) and re.search(r"\b(return|break)\b", last[0]) and not re.search(r"[^=!<>]=[^=>]", last[0])


def adds_up(loop):
    """Nothing but one value made of itself and the element."""
    last = [s for s in split_top(loop.body, ";") if not s.startswith("let ")]
    if len(last) != 1:
        return False
    m = re.match(r"(?:if [^{]*\{\s*)?(\w+) (\+=|=) (.*)", last[0], re.S)
    return bool(m) and (m[2] == "+=" or re.search(r"\b%s\b" % m[1], m[3]) is not None)


def range_kind(loop):
    k = loop.var
    if searches(loop):
        return "for over a range: leaves at the first that passes a test (all, any, position)"
    if adds_up(loop):
        return "for over a range: one value added up (sum, count, min, max, fold)"
    rest = re.sub(r"[\w.]+\[%s\]" % k, "", loop.body)
    if re.search(r"\b%s\b" % k, rest) is None:
        one = len(set(re.findall(r"([\w.]+)\[%s\]" % k, loop.body))) == 1
        return "for over a range: walks one slice" if one else "for over a range: walks several slices at one index"
    rest = re.sub(r"\[[^\[\]]*\b%s\b[^\[\]]*\]" % k, "", rest)
    if re.search(r"\b%s\b" % k, rest) is None:
        return "for over a range: walks slices at an index plus or minus an offset"
    if re.search(r"[\w.]+\[%s\]" % k, loop.body):
        return "for over a range: walks slices, and the index is a number too"
    return "~ for over a range: the index is a number and no index"


def all_loops(code):
    return [l for f in code.fns for l in loops_of(f)]


def place_of(part, loop):
    return Place(part, loop.fn.path, loop.line, "%s: %s %s" % (loop.fn.name, loop.kind, (loop.var + " in " if loop.var else "") + loop.range))


def point_3(code):
    for loop in all_loops(code):
        if loop.kind != "for":
            other = "while or loop that moves an index or follows links" if " = " in loop.body else "~ other while or loop"
            yield place_of("while or loop that counts an index" if counts(loop) else other, loop)
        elif ".." in loop.range and re.match(r"\w+$", loop.var) and loop.var != "_":
            yield place_of(range_kind(loop), loop)


# 4. EQUALITY, ORDER, COPYING, CONVERSION, PRINTING


def copies(loop):
    """A loop that copies, converts or fills element by element."""
    body = " ".join(loop.body.split())
    m = re.match(r"(?:let (\w+) = ([\w.]+\[[^;]*); )?[\w.]+\[[^=]*\] = ([^;]*);$", body)
    if loop.kind != "for" or not m:
        return None
    value = m[3] if m[1] is None or m[3] != m[1] else m[2]
    if not re.search(r"\b%s\b" % loop.var, value):
        return "loops that fill"
    if re.match(r"[\w.]+\[[^\[\]]*\]$", value):
        return "loops that copy"
    one = re.match(r"\(?[\w:]*\(?[\w.]+\[[^\[\],]*\]\)?[^,]*$", value)
    return "loops that convert each element" if one else None


def writes_row(f):
    return re.search(r"(\w+)\[(?:\d+|\d+ \* \w+ \+ \d+)\] = [^;]*;(?:\s*\1\[[^\]]*\] = [^;]*;){2}", f.body)


def point_4(code):
    yield from code.lines(r"\.0 (==|!=|<=?) [\w.]*\.0\b", "numbers of two carriers or tasks compared")
    yield from code.lines(r"\blet \w+ = [\w.]+\.0;", "a number taken out of a carrier or a task")
    yield from code.lines(r"\b(if|else|return)?.*\b(\w+) <=? (\w+) \{ (\2|\3) \} else \{ (\2|\3) \}", "the lesser or greater of two by hand")
    for f in code.fns:
        body = " ".join(f.body.split())
        if re.match(r"(let (\w+) = )?\(?\w+( %% \d+)?\)? as %s(; -?\2)?$" % NUMBER, body):
            yield of_fn("functions that only convert a number", f, body)
        if f.result == "bool" and re.search(r"(before|after|earlier|less|precedes)$", f.name) and len(f.params) > 1:
            yield of_fn("functions that say an order", f)
        if re.search(r"\bprint!", f.body) or any(n == "text" and "&mut" in t for n, t in f.params):
            yield of_fn("functions that print or write text piece by piece", f)
        if writes_row(f):
            yield of_fn("elements written one by one", f)
    for loop in all_loops(code):
        if copies(loop):
            yield place_of(copies(loop), loop)
    yield from code.lines(r" as %s\b" % NUMBER, "~ casts")
    yield from code.lines(r"\.0 (==|!=|<=?) [a-z0-9]+\b(?!\.0)|[\w)] (==|!=|<=?) (?<!\.0 == )[\w.]*\.0\b", "~ a carrier's or task's number compared")
    for t in code.types:
        if "PartialEq" not in t.derives:
            yield Place("~ types that derive no equality", t.path, t.line, t.name)


# 5. FACTS AND PARAMETERS THAT TRAVEL TOGETHER


def parts_of(clause):
    clause = clause.strip()
    while clause.startswith("(") and closing(clause, 0) == len(clause):
        clause = clause[1:-1].strip()
    if len(split_top(clause, " → ")) > 1:
        return [clause]
    parts = split_top(clause, " × ")
    return parts if len(parts) == 1 else [q for p in parts for q in parts_of(p)]


def facts_of(f):
    """The facts on parameters: a parameter of a type of its own or an array is named by its type, a number or a slice by its name."""
    for kind, clause in f.clauses:
        for part in parts_of(clause):
            fact = re.sub(r"\.(now|old|new|entry)\b", "", part)
            for name, t in f.params:
                t = re.sub(r"&(mut )?", "", t)
                if re.match(r"[A-Z]", t) or is_array(t):
                    fact = re.sub(r"(?<![\w.])%s(?!\w)" % name, t, fact)
            if (kind == "requires" or "result" not in fact) and not re.match(r"[\w ]+ : ", part):
                yield fact


def param_sets(code):
    """The largest sets of at least four parameters that three functions of one crate, or three crates, have in common."""
    of = {i: frozenset((n, re.sub(r"\bmut ", "", t)) for n, t in f.params) for i, f in enumerate(code.fns)}
    sets = {s for s in of.values() if len(s) > 3}
    for _ in range(2):
        sets |= {a & b for a in sets for b in sets if len(a & b) > 3}
    found = {}
    for s in sets:
        users = [code.fns[i] for i, p in of.items() if s <= p]
        crates = collections.Counter(crate_of(f.path) for f in users)
        if len(crates) > 2 or crates and max(crates.values()) > 2:
            found[s] = users
    return {s: u for s, u in found.items() if not any(s < t for t in found)}


def point_5(code):
    where = collections.defaultdict(dict)
    for f in code.fns:
        for fact in facts_of(f):
            where[fact][(f.path, f.line)] = f
    rank = lambda f: (code.order.index(crate_of(f.path)), f.path, f.line)
    for fact, fns in sorted(where.items(), key=lambda x: -len(x[1])):
        if len(fns) > 2:
            fs = sorted(fns.values(), key=rank)
            said = "%s  [%d functions: %s]" % (fact, len(fs), ", ".join(crate_of(f.path) + "::" + f.name for f in fs))
            yield Place("facts in the contracts of three or more functions", fs[0].path, fs[0].line, said)
    for s, users in sorted(param_sets(code).items(), key=lambda x: -len(x[1])):
        fs = sorted(users, key=rank)
        said = "%s  [%d functions: %s]" % (", ".join(n + ": " + t for n, t in sorted(s)), len(fs), ", ".join(crate_of(f.path) + "::" + f.name for f in fs))
        yield Place("sets of at least four parameters that travel together", fs[0].path, fs[0].line, said)
    for f in code.fns:
        if len(f.params) > 7:
            yield of_fn("~ functions of eight or more parameters", f, "%d" % len(f.params))


# 6. BUFFERS WITH A LENGTH, PARALLEL ARRAYS, LISTS AND ARENAS BY HAND


def counted_lists(f):
    """Pairs of a list and a number of which a requirement or a loop says how much of the list is meant."""
    numbers = [n for n, t in f.params if re.match(NUMBER + "$", t)]
    local = re.findall(r"let mut (\w+) = \[", f.body)
    for a in [n for n, t in f.params if is_list(t)] + local:
        for kind, clause in f.clauses:
            for part in parts_of(clause):
                if kind == "requires" and re.search(r"length %s\b" % a, part) and "*" not in part:
                    yield from ((a, n) for n in numbers if re.search(r"(?<![\w.])%s\b" % n, part))
        for loop in loops_of(f):
            bound = re.search(r"(?:\.\.|\w+ < )(\w+)$", loop.range)
            if bound and re.match(r"[a-z_]+$", bound[1]) and re.search(r"\b%s\[\w+\]" % a, loop.body) and not re.search(r"let %s = \w+\.len\(\)" % bound[1], f.body):
                yield a, bound[1]


def parallel(f):
    """Lists that a function indexes by one name, but where it only copies from one to the other."""
    body = f.body
    for loop in loops_of(f):
        if copies(loop):
            body = body.replace(loop.body, "")
    by = collections.defaultdict(set)
    for a, k in re.findall(r"\b([a-z][\w.]*)\[([a-z]\w*)\]", body):
        by[k].add(a)
    return [(k, sorted(v)) for k, v in by.items() if len(v) > 1]


def arena(f):
    made = re.findall(r"let (\w+) = [^;]*\w \* \w[^;]*;", f.body)
    for index in re.findall(r"\w\[([^\[\]]*)\]", f.body):
        if ";" not in index and ("*" in index or any(re.search(r"\b%s\b" % m, index) for m in made)):
            return index
    return None


def point_6(code):
    for f in code.fns:
        pairs = sorted(set(counted_lists(f)))
        if pairs:
            yield of_fn("a list with a number beside it that says which part is meant", f, ", ".join("%s by %s" % p for p in pairs))
        if parallel(f):
            yield of_fn("lists that are indexed by one index", f, "; ".join("%s at %s" % (", ".join(v), k) for k, v in parallel(f)))
        if arena(f):
            yield of_fn("records or rows in a list, found by a product", f, arena(f))
        if re.search(r"\b(queue|stack|heads|links)\[|\w\[(head|tail|top)\]|\w\[\w+ \+ 1\] = \w+(\[\w+\])?;", f.body):
            yield of_fn("queues, chains of links and sorted lists by hand", f)
    for t in code.types:
        sizes = [re.search(r";\s*(\w+)\]", d)[1] for _, d in t.members if is_array(d)]
        if t.kind == "struct" and len(sizes) > len(set(sizes)):
            yield Place("structs with arrays of one length", t.path, t.line, shape(t))
        if t.kind == "struct" and sizes and any(re.match(r"(len|count|size|used|top)$", n) for n, _ in t.members):
            yield Place("structs with an array and a count", t.path, t.line, shape(t))


# 7. SWITCHES


def matched(f, enums):
    return {e for e in re.findall(r"\b(\w+)::\w+(?:\s*\{[^{}]*\}|\([^()]*\))?\s*=>", f.body) if e in enums}


def point_7(code):
    enums = {t.name: t for t in code.types if t.kind == "enum"}
    plain = {n for n, t in enums.items() if not any(d for _, d in t.members)}
    uses = collections.defaultdict(list)
    for f in code.fns:
        for n, t in f.params:
            if t == "bool" or t in plain:
                tests = re.search(r"\bif !?%s\b|\bmatch %s\b" % (n, n), f.body)
                yield of_fn("parameters that choose, tested" if tests else "parameters that choose, handed on", f, "%s: %s" % (n, t))
        for n in {n for n, t in f.params}:
            if len(re.findall(r"\bif %s == \w+ " % n, f.body)) > 2:
                yield of_fn("a number compared with three or more constants", f, n)
        for e in matched(f, enums):
            uses[e].append(f)
    for e, fns in uses.items():
        if len(fns) > 2:
            for f in fns:
                yield of_fn("one enum matched in three or more functions", f, e)
    yield from code.lines(r"\b(?!Ok|Some|Err)\w+\((?:[^()]*, )?(true|false)(, [^()]*)?\)|^\s*(true|false),$", "true or false handed to a function")


# 8. PROOFS


SIGNATURE = re.compile(r"^(?:pub )?(?!use |data |record |module |instance |open )([^\s:(){}.,=]+) : (.*)$")


def statement(words):
    """The statement with bound names in the order in which they come, so that it is equal for two lemmas that differ in these."""
    names = {}
    for group in re.findall(r"[({]([^:(){}]+) : ", words):
        for n in group.split():
            names.setdefault(n, "v%d" % len(names))
    return " ".join(names.get(t, t) for t in re.findall(r"[^\s(){},.]+|[(){},.]", words.replace("zero", "0")))


def lemmas(path, text=None):
    lines = (text or text_of(path)).split("\n")
    for k, line in enumerate(lines):
        m = SIGNATURE.match(line)
        if not m or line.startswith(("abbrev", "--")):
            continue
        words, j = m[2], k + 1
        while j < len(lines) and lines[j].startswith(" "):
            words, j = words + " " + lines[j].strip(), j + 1
        yield Lemma(path, k + 1, m[1], statement(words))


def of_library():
    """The lemmas of the toolchain's library: of the folder that RATTLE_STD names, else of that of the command rt."""
    rt = os.path.realpath(shutil.which("rt") or "")
    folder = os.environ.get("RATTLE_STD") or os.path.join(os.path.dirname(os.path.dirname(rt)), "rattle", "std")
    for path in glob.glob(os.path.join(folder, "lemmas", "**", "*.md"), recursive=True):
        yield from lemmas(path, text_of(path))


def answers(path):
    """The answers of a file, without their names."""
    for block in re.split(r"\n(?=(?:pub )?[\w-]+ : goal\.)", text_of(path))[1:]:
        name = re.match(r"(?:pub )?([\w-]+) :", block)[1]
        yield name, " ".join(block.split("\n", 1)[1].split()).replace(name + " c", "c", 1)


def point_8(code):
    library = list(of_library())
    names = {l.name.replace("-", "_") for l in library}
    keys = {l.key: l.name for l in library}
    own, bodies = [], collections.defaultdict(list)
    for path in sorted(glob.glob("crates/*/proofs/**/*.antt", recursive=True)):
        of_function = len(path.split("/")) > 4
        for k, line in enumerate(text_of(path).split("\n")):
            s, use = line.strip(), re.match(r"use ([\w.]+)", line)
            if re.match(r"let \w+ = [a-z] in\b", s):
                yield Place("aliases of an answer's parameter", path, k + 1, s)
            if re.search(r"\.(true|false)-raw", s):
                yield Place(".true-raw and .false-raw", path, k + 1, s)
            for start in ("mathlib.Core", "lib.ListN", "lib.", "borrow.Author"):
                if use and use[1].startswith(start):
                    yield Place("imports from " + start + (" (others)" if start == "lib." else ""), path, k + 1, s)
                    break
            if use and re.match(r"native\.|Prim\.", use[1]):
                yield Place("~ imports from native and Prim", path, k + 1, s)
            if of_function and re.match(r"(abbrev )?(pub )?[\w-]+ : goal\.", s):
                yield Place("~ goals answered, and invariants", path, k + 1, s)
        if of_function:
            yield Place("~ files of answers and of invariants", path, 1, os.path.basename(path))
            for name, body in answers(path):
                bodies[body].append((path, name))
        else:
            own += [l for l in lemmas(path) if not l.name.startswith("goal")]
    for body, where in bodies.items():
        if len(where) > 2:
            yield Place("answers of one text in three or more places", where[0][0], 1, "%d times: %s" % (len(where), body[:150]))
    for group in groups_by(own, lambda l: l.key):
        for l in group:
            yield Place("lemmas with one statement", l.path, l.line, l.name + ", also " + ", ".join("%s::%s" % (crate_of(x.path), x.name) for x in group if x is not l))
    for l in own:
        if l.key in keys:
            yield Place("lemmas with the statement of one of the library", l.path, l.line, l.name + ", there " + keys[l.key])
        elif l.name.replace("-", "_") in names:
            yield Place("~ lemmas with the name of one of the library", l.path, l.line, l.name)


# REASONS


def comment_block(lines, line, mark):
    """The lines of comment right above a line, attributes left out, and the line itself."""
    k = line - 1
    while k > 0 and lines[k - 1].strip().startswith((mark, "#[")):
        k -= 1
    return lines[k:line]


def says_kept(lines, mark):
    return any(re.search(re.escape(mark) + r" (?:.*[.:;)] )?Kept[:,] ", line.strip() + " ") for line in lines)


def head_of(lines, mark):
    return lines[:next((k for k, line in enumerate(lines) if not line.startswith(mark)), len(lines))]


def kept_in_proofs(p):
    """Whether a comment at the head of the place's file or right above the place says why it stays."""
    lines = text_of(p.path).split("\n")
    return says_kept(head_of(lines, "--") + comment_block(lines, p.line, "--"), "--")


def spans(code, path):
    """The first and the last line of each function and type of a file, with the comment above it."""
    for f in code.fns:
        if f.path == path:
            yield f.line, f.body_line + f.body.count("\n")
    for t in code.types:
        if t.path == path:
            yield t.line, t.line + next(k for k, line in enumerate(code.raw[path][t.line - 1:]) if line.startswith("}") or ";" in line or line.endswith("}"))


def kept_in_code(code, p):
    """Whether a comment says why: in the place's function or type or above it, at the head of the file, or, with the words "here and", in the file."""
    lines = code.raw[p.path]
    of_file = [line for line in lines if re.search(r"Kept[:,].*\bhere and\b", line)]
    around = [s for s in spans(code, p.path) if s[0] - len(comment_block(lines, s[0], "//")) < p.line <= s[1]]
    near = comment_block(lines, p.line, "//")
    for first, last in around:
        near = near + comment_block(lines, first, "//") + lines[first:last]
    return says_kept(head_of(lines, "//") + of_file + near, "//")


def is_kept(code, p):
    return kept_in_proofs(p) if p.path.endswith(".antt") else kept_in_code(code, p)


# OUTPUT


POINTS = [point_1, point_2, point_3, point_4, point_5, point_6, point_7, point_8]


def show_counts(code):
    for n, point in enumerate(POINTS, 1):
        by = collections.Counter(p.part for p in point(code))
        print("%d  %d places" % (n, sum(c for part, c in by.items() if part[0] != "~")))
        for part, c in sorted(by.items(), key=lambda x: (x[0][0] == "~", -x[1])):
            print("   %5d  %s" % (c, part))


def show_places(code, n):
    for p in sorted(POINTS[n - 1](code), key=lambda p: (p.part[0] == "~", p.part, code.order.index(crate_of(p.path)), p.path, p.line)):
        print("%s:%d  [%s] %s" % (p.path.replace("crates/", "", 1), p.line, p.part, p.text))


def show_kept(code):
    rest = []
    for n, point in enumerate(POINTS, 1):
        places = [p for p in point(code) if p.part[0] != "~"]
        left = [p for p in places if not is_kept(code, p)]
        print("%d  %d places, %d kept, %d without a reason" % (n, len(places), len(places) - len(left), len(left)))
        rest += [(n, p) for p in left]
    for n, p in rest:
        print("%d  %s:%d  [%s] %s" % (n, p.path.replace("crates/", "", 1), p.line, p.part, p.text))


def show_table(code):
    by = collections.Counter((crate_of(p.path), n) for n, point in enumerate(POINTS, 1) for p in point(code) if p.part[0] != "~")
    print("| Crate | " + " | ".join(str(n) for n in range(1, 9)) + " |\n" + "|---" * 9 + "|")
    for crate in code.order:
        print("| %s | %s |" % (crate, " | ".join(str(by[crate, n] or "") for n in range(1, 9))))
    print("| all | %s |" % " | ".join(str(sum(by[c, n] for c in code.order)) for n in range(1, 9)))


def main():
    code = Code()
    word = sys.argv[1] if len(sys.argv) > 1 else ""
    if word == "table":
        show_table(code)
    elif word == "kept":
        show_kept(code)
    elif word:
        show_places(code, int(word))
    else:
        show_counts(code)


if __name__ == "__main__":
    main()
