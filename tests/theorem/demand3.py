"""Demand 3 by trying everything, written from the sentences of document 01 and from nothing else here.

For sheets so small that every path of every carrier for every task can be listed."""
import itertools
import re
from collections import namedtuple

# places are numbers y * w + x; a task is the list of its goals
Sheet = namedtuple("Sheet", "width height starts tasks horizon limit")
# kind is plan, none or spent; a field that the kind does not have is None
Answer = namedtuple("Answer", "kind nodes tasks paths flowtime bound")


def numbers(text):
    return [int(word) for word in re.findall(r"\d+", text)]


def read_sheet(text):
    """'3 by 1, starts 0 1, [1] [2], H 1, N 9', as document 01 writes a round."""
    form = r"(\d+) by (\d+), starts ([\d ]+), ((?:\[[\d ]+\] ?)+), H (\d+), N (\d+)"
    w, h, starts, tasks, horizon, limit = re.fullmatch(form, text).groups()
    return Sheet(int(w), int(h), numbers(starts), [numbers(t) for t in re.findall(r"\[.*?\]", tasks)], int(horizon), int(limit))


def read_answer(text):
    """'plan (1,0), paths 0 1 and 1 0, flowtime 2, 1 node', 'none, 6 nodes' or 'spent, bound 3, 5 nodes'."""
    *values, nodes = text.split(", ")
    made = numbers(nodes)[0]
    if values[0] == "none":
        return Answer("none", made, None, None, None, None)
    if values[0] == "spent":
        return Answer("spent", made, None, None, None, numbers(values[1])[0])
    paths = [numbers(path) for path in values[1].split(" and ")]
    return Answer("plan", made, numbers(values[0]), paths, numbers(values[2])[0], None)


def sheet_bytes(s):
    """The job sheet, all places free."""

    def words(places):
        return [byte for v in places for byte in (v % 256, v // 256)]

    parts = [[0] * (s.width * s.height), words(s.starts)] + [words(t) for t in s.tasks]
    directory, offset = [], 8 + 4 * len(parts)
    for part in parts:
        directory += words([offset, len(part)])
        offset += len(part)
    header = [s.width, s.height, len(s.starts), s.horizon] + words([s.limit]) + [0, 0]
    return header + directory + [byte for part in parts for byte in part]


def beside(s, u, v):
    """In the same row or column, one apart."""
    return abs(u % s.width - v % s.width) + abs(u // s.width - v // s.width) == 1


def step(s, u, v):
    """'Each step waits or goes to a free place beside it in the same row or column.'"""
    return v == u or beside(s, u, v)


def finish(s, i, j, p):
    """The finish of p as a path of carrier i for task j; None if it is no path."""
    goals, t = s.tasks[j], 0
    if len(p) != s.horizon + 1 or p[0] != s.starts[i]:
        return None
    if not all(0 <= v < s.width * s.height for v in p) or not all(step(s, u, v) for u, v in zip(p, p[1:])):
        return None
    # "have times t1 <= t2 <= .. <= tK at which the path is on them"
    for goal in goals:
        while t <= s.horizon and p[t] != goal:
            t += 1
        if t > s.horizon:
            return None
    # "the least time from which the path stays on gK up to H"
    stays = [t for t in range(s.horizon + 1) if all(v == goals[-1] for v in p[t:])]
    return min(stays) if stays else None


def collide(s, p, q):
    place = any(u == v for u, v in zip(p, q))
    move = any(p[t] == q[t + 1] and p[t + 1] == q[t] and p[t] != p[t + 1] for t in range(s.horizon))
    return place or move


def flowtime(s, tasks, paths):
    """The flowtime of a plan; None if it is no plan."""
    m = len(s.starts)
    if sorted(tasks) != list(range(m)) or len(paths) != m:
        return None
    finishes = [finish(s, i, tasks[i], paths[i]) for i in range(m)]
    if None in finishes or any(collide(s, p, q) for p, q in itertools.combinations(paths, 2)):
        return None
    return sum(finishes)


def all_paths(s, i, j):
    """Every path of carrier i for task j."""
    walks = [[s.starts[i]]]
    for _ in range(s.horizon):
        walks = [p + [v] for p in walks for v in range(s.width * s.height) if step(s, p[-1], v)]
    return [p for p in walks if finish(s, i, j, p) is not None]


def least_flowtime(s):
    """Of every plan under every assignment; None if there is no plan."""
    m, found = len(s.starts), []
    for tasks in itertools.permutations(range(m)):
        for paths in itertools.product(*(all_paths(s, i, tasks[i]) for i in range(m))):
            found.append(flowtime(s, tasks, paths))
    return min((f for f in found if f is not None), default=None)


def breach(s, a):
    """How the answer breaks demand 3; None if it does not."""
    least = least_flowtime(s)
    if a.kind == "none":
        return None if least is None else f"none, though there is a plan of flowtime {least}"
    if a.kind == "spent":
        return None if least is None or a.bound <= least else f"the bound {a.bound} is above the flowtime {least} of a plan"
    found = flowtime(s, a.tasks, a.paths)
    if found is None:
        return "what is answered is no plan"
    if found != a.flowtime:
        return f"the plan's flowtime is {found}, not {a.flowtime}"
    return None if found == least else f"flowtime {found}, though there is a plan of {least}"
