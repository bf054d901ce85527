#!/usr/bin/env python3
"""Random programs, graphs and streams: bolt's bytes and status against the plain reference.

    random_runs.py BOLT COUNT [SEED]

Prints each difference with its files' folder, and how many runs were the same. Status 1 where
any differs.
"""
import os
import random
import subprocess
import sys
import tempfile

from reference import once, run, text_of
from shipped import SHIPPED


def leaf(r, part, lanes):
    names = {"init": ["attr", "id"], "contribute": ["outdeg", "weight", "attr", "id"],
             "apply": ["attr", "id"]}[part]
    stores = {"init": [], "contribute": ["val"], "apply": ["agg", "old"]}[part]
    pick = r.random()
    if stores and pick < 0.6:
        return (r.choice(stores), r.randrange(lanes))
    if pick < 0.8:
        return (r.choice(names),)
    return r.randint(-5, 20)


def expression(r, part, lanes, depth):
    if depth == 0 or r.random() < 0.25:
        return leaf(r, part, lanes)

    def sub():
        return expression(r, part, lanes, depth - 1)

    kind = r.choice(["+", "-", "*", "/", "min", "max", "clamp", "if"])
    if kind == "/":
        return ("/", sub(), r.choice([r.randint(1, 7), -3, ("max", sub(), 1)]))
    if kind == "*":
        return ("*", sub(), r.randint(-3, 3))
    if kind == "clamp":
        return ("clamp", sub(), 0, r.randint(0, 50))
    if kind == "if":
        return ("if", r.choice(["<", "<=", "="]), sub(), sub(), sub(), sub())
    return (kind, sub(), sub())


def program(r):
    if r.random() < 0.4:
        return r.choice(list(SHIPPED.values()))
    lanes = r.choice([1, 1, 2, 3, 8])
    ranges = [(r.choice([-100, 0, 0]), r.choice([50, 1000])) for _ in range(lanes)]

    def part(name):
        return [("clamp", expression(r, name, lanes, r.randint(0, 3)), *ranges[k])
                for k in range(lanes)]

    p = {"name": "random", "vertices": r.choice([40, 1000]), "degree": r.choice([3, 5, 1000]),
         "edges": r.choice([40, 1000]), "weight": (-10, 10), "attr": (-3, 100),
         "rounds": r.randint(1, 7), "combine": r.choice(["sum", "sum", "min", "max"]),
         "lanes": ranges, "init": part("init"), "contribute": part("contribute"),
         "apply": part("apply")}
    if p["combine"] != "sum":
        p["start"] = r.choice([0, 1000, -1000])
    return p


def number(r, lo, hi):
    return r.randint(max(lo, -12), min(hi, 12)) if r.random() < 0.97 else r.choice([lo - 1, hi + 1])


def graph_text(r, p):
    n = r.randint(0, 12)
    out = [f"vertices {n}"] if r.random() < 0.7 else ["# no count"]
    for v in range(n):
        if r.random() < 0.4:
            out.append(f"attr {v} {number(r, *p['attr'])}")
    for u in range(n):
        for v in range(n):
            if r.random() < 0.2:
                w = "" if r.random() < 0.3 else f" {number(r, *p['weight'])}"
                out.append(f"{u} {v}{w}")
    if r.random() < 0.05:
        out.insert(r.randint(0, len(out)), r.choice(["1 2 3 4", "x", "-1 2", "attr 1", "0 99999"]))
    return "\n".join(out) + ("\n" if r.random() < 0.9 else "")


def stream_text(r, p):
    out, n = [], 14
    for _ in range(r.randint(0, 6)):
        for _ in range(r.choice([0, 1, 2, 5, 12])):
            u, v = r.randrange(n), r.randrange(n)
            pick = r.random()
            if pick < 0.5:
                out.append(f"+ {u} {v} {number(r, *p['weight'])}" if r.random() < 0.7
                           else f"+ {u} {v}")
            elif pick < 0.75:
                out.append(f"- {u} {v}")
            elif pick < 0.97:
                out.append(f"v {u} {number(r, *p['attr'])}")
            else:
                out.append(r.choice(["", "# a comment", "+ 1", "commit now", "x" * 300]))
        out.append("commit")
    if r.random() < 0.1:
        out.append("+ 1 1")
    return "\n".join(out) + "\n"


def easier(r, p, graph):
    """Often a stream whose edits fit the graph, so that most batches are accepted."""
    edges, count = set(), 0
    for line in graph.split("\n"):
        w = line.split()
        if w[:1] == ["vertices"]:
            count = int(w[1])
        elif len(w) in (2, 3) and w[0].isdigit():
            edges.add((int(w[0]), int(w[1])))
            count = max(count, int(w[0]) + 1, int(w[1]) + 1)
    out = []
    for _ in range(r.randint(1, 6)):
        for _ in range(r.choice([1, 2, 4, 10])):
            if r.random() < 0.15:
                v = r.randint(0, count)
                count += v == count
                out.append(f"v {v} {r.randint(max(p['attr'][0], -3), min(p['attr'][1], 4))}")
            elif count:
                pair = (r.randrange(count), r.randrange(count))
                if pair in edges:
                    out.append(f"- {pair[0]} {pair[1]}")
                else:
                    w = r.randint(max(p["weight"][0], -4), min(p["weight"][1], 6))
                    out.append(f"+ {pair[0]} {pair[1]} {w}")
                edges ^= {pair}
        out.append("commit")
    return "\n".join(out) + "\n"


def one(bolt, folder, r):
    p = program(r)
    graph = graph_text(r, p)
    stream = stream_text(r, p) if r.random() < 0.4 else easier(r, p, graph)
    for name, text in (("p", text_of(p)), ("g", graph), ("s", stream)):
        with open(os.path.join(folder, name), "w") as f:
            f.write(text)
    word = p["name"] if p["name"] in SHIPPED else "file:p"
    show = r.random() < 0.8
    options = [f"--workers={r.choice([1, 1, 2, 3, 64])}", f"--show={'all' if show else 'none'}"]
    if r.random() < 0.2:
        words, wanted = ["once", word, "g", *options], once(p, graph, show)
    else:
        cut, vertical = r.choice([None, 1, 2, 3, 5, 64]), r.random() < 0.7
        options += [f"--cut={cut}"] if cut else []
        options += [] if vertical else ["--vertical=off"]
        r.shuffle(options)
        words = ["run", word, "g", "s", *options]
        wanted = run(p, graph, stream, cut, vertical, show)
    ran = subprocess.run([bolt, *words], cwd=folder, capture_output=True)
    if ran.returncode == 3 and ran.stdout.startswith(b"program refused"):
        return "refused"
    same = ran.stdout.decode() == wanted[0] and ran.returncode == wanted[1]
    return "same" if same else " ".join(words)


def main():
    bolt, count = os.path.abspath(sys.argv[1]), int(sys.argv[2])
    seed = int(sys.argv[3]) if len(sys.argv) > 3 else 1
    told = {"same": 0, "refused": 0, "other": 0}
    for i in range(count):
        r = random.Random(f"{seed} {i}")
        folder = tempfile.mkdtemp(prefix="bolt-random-")
        answer = one(bolt, folder, r)
        if answer in told:
            told[answer] += 1
            subprocess.run(["rm", "-r", folder], check=True)
        else:
            told["other"] += 1
            print(f"run {i}: {answer}: in {folder}")
    print(f"{told['same']} the same, {told['other']} not; {told['refused']} programs refused")
    return 1 if told["other"] else 0


if __name__ == "__main__":
    sys.exit(main())
