#!/usr/bin/env python3
"""Random live runs of several streams and files of questions against the plain reference.

    live_runs.py BOLT COUNT [SEED]

What a live run writes depends on how its threads take turns, so its text isn't compared: it is
checked line by line against what may be written. Prints each run that isn't right with its
files' folder, and how many were. Status 1 where any isn't.
"""
import os
import random
import subprocess
import sys
import tempfile

from random_runs import easier, graph_text, number, program, stream_text
from reference import (I64, changed, is_vertex, is_whole, kept_of, line, opened, read_batches,
                       rows_of, split_lines, text_of, totals, visits_of, words_of)
from shipped import SHIPPED


class Wrong(Exception):
    """A line that can't be written there."""


def wanted(lines, text):
    """Takes the next line, which is to be this one."""
    got = lines.pop(0) if lines else None
    if got != text.rstrip("\n"):
        raise Wrong(f"{got!r} where {text!r} is wanted")


def questions_of(text, lanes):
    """The words of each question, none for an unknown one."""
    out = []
    for one in split_lines(text):
        w = words_of(one)
        long = len(one.encode()) - one.endswith("\r") > 255
        if not w and not long:
            continue
        is_lane = len(w) > 1 and is_vertex(w[1]) and int(w[1]) < lanes
        known = not long and (w == ["prefix"] or len(w) == 2 and w[0] == "value" and is_vertex(w[1])
                              or len(w) == 2 and w[0] == "total" and is_lane
                              or len(w) == 3 and w[0] == "atleast" and is_lane and is_whole(w[2]))
        out.append(w if known else None)
    return out


def reply_to(question, answer):
    """What stands behind the prefix in the line of a reply."""
    if question[0] == "prefix":
        return ""
    if question[0] == "value":
        v = int(question[1])
        if v >= len(answer):
            return f" novertex {len(answer)}"
        return " value " + " ".join(map(str, answer[v]))
    lane = int(question[1])
    if question[0] == "total":
        return f" total {sum(x[lane] for x in answer)}"
    return f" atleast {sum(1 for x in answer if x[lane] >= int(question[2]))}"


def check_entries(p, graph, rows, cut, vertical, streams, lines):
    """The answers at each published prefix, and the number of refused batches."""
    room = min(p["vertices"], 2 * len(graph.attrs) + 1024)
    left = [list(enumerate(read_batches(text), 1)) for text in streams]
    answers, refused, ticket = [rows[-1][1]], 0, 0
    while any(left):
        ticket += 1
        w = lines[0].split() if lines else []
        if len(w) < 6 or w[:3] != ["entry", str(ticket), "stream"] or not left[int(w[3])]:
            raise Wrong(f"entry {ticket}: {lines[:1]}")
        stream = int(w[3])
        batch_number, batch = left[stream].pop(0)
        head = ["entry", ticket, "stream", stream, "batch", batch_number]
        after = changed(p, room, graph, batch)
        if isinstance(after, tuple):
            refused += 1
            wanted(lines, line(*head, "refused line", *after))
            continue
        new = rows_of(p, after)
        added, removed, visits = visits_of(p, graph, after, rows, new, cut)
        wanted(lines, line(*head, "accepted added", added, "removed", removed, "edges",
                           len(after.edges), "kept", kept_of(new, cut, vertical), "visits", visits))
        graph, rows = after, new
        answers.append(new[-1][1])
    return answers, refused


def check_desk(desk, questions, answers, lines):
    least = 0
    for k, question in enumerate(questions, 1):
        if question is None:
            wanted(lines, f"reply {desk} {k} unknown")
            continue
        w = lines[0].split() if lines else []
        if w[:4] != ["reply", str(desk), str(k), "prefix"]:
            raise Wrong(f"reply {desk} {k}: {lines[:1]}")
        prefix = int(w[4])
        if not least <= prefix < len(answers):
            raise Wrong(f"prefix {prefix} of reply {desk} {k}, after {least}")
        least = prefix
        wanted(lines, f"reply {desk} {k} prefix {prefix}{reply_to(question, answers[prefix])}")


def check(p, graph_file, streams, asks, cut, vertical, text, status):
    """Whether a live run may write this text and end with this status, told as an exception."""
    cut = min(p["rounds"], cut or 10)
    graph, refusal = opened(p, graph_file, cut)
    if refusal:
        if (text, status) != refusal:
            raise Wrong(f"{text!r} {status} where {refusal} is wanted")
        return
    if text and not text.endswith("\n"):
        raise Wrong("the last line has no end")
    lines = text.split("\n")[:-1]
    rows = rows_of(p, graph)
    wanted(lines, line("open vertices", len(graph.attrs), "edges", len(graph.edges), "kept",
                       kept_of(rows, cut, vertical), "visits", p["rounds"] * len(graph.edges)))
    answers, refused = check_entries(p, graph, rows, cut, vertical, streams, lines)
    for desk, asked in enumerate(asks):
        check_desk(desk, questions_of(asked, len(p["lanes"])), answers, lines)
    for desk in range(len(asks)):
        total = sum(x[0] for x in answers[-1])
        wanted(lines, line("last", desk, "prefix", len(answers) - 1, "total", total))
    for one in totals(p, answers[-1]).splitlines():
        wanted(lines, one)
    wanted(lines, line("end accepted", len(answers) - 1, "refused", refused))
    if lines or status != (1 if refused else 0):
        raise Wrong(f"{lines} and status {status} at the end")


def question_text(r, p):
    out = []
    for _ in range(r.choice([0, 1, 5, 30])):
        lane = r.randrange(len(p["lanes"])) if r.random() < 0.9 else 8
        out.append(r.choice([
            "prefix", f"value {r.randrange(16)}", f"total {lane}",
            f"atleast {lane} {r.choice([-I64, I64 - 1, number(r, -12, 12)])}",
            "", "# a comment", "sum", "value", "value -1", "prefix 1", "total 0 0", "x" * 300]))
    return "\n".join(out) + ("\n" if r.random() < 0.9 else "")


def one(bolt, folder, r):
    p = program(r)
    graph = graph_text(r, p)
    streams = [stream_text(r, p) if r.random() < 0.4 else easier(r, p, graph)
               for _ in range(r.choice([1, 2, 3, 16]))]
    asks = [question_text(r, p) for _ in range(r.choice([0, 1, 2, 16]))]
    files = [("p", text_of(p)), ("g", graph)]
    files += [(f"s{k}", text) for k, text in enumerate(streams)]
    files += [(f"q{k}", text) for k, text in enumerate(asks)]
    for name, text in files:
        with open(os.path.join(folder, name), "w") as f:
            f.write(text)
    word = p["name"] if p["name"] in SHIPPED else "file:p"
    cut, vertical = r.choice([None, 1, 2, 3, 5, 64]), r.random() < 0.7
    named = [f"--stream=s{k}" for k in range(len(streams))]
    named += [f"--ask=q{k}" for k in range(len(asks))]
    options = [f"--workers={r.choice([1, 1, 2, 3, 64])}"]
    options += [f"--cut={cut}"] if cut else []
    options += [] if vertical else ["--vertical=off"]
    words = ["live", word, "g", *named, *options]
    try:
        ran = subprocess.run([bolt, *words], cwd=folder, capture_output=True, timeout=60)
    except subprocess.TimeoutExpired:
        return f"{' '.join(words)}: no end"
    if ran.returncode == 3 and ran.stdout.startswith(b"program refused"):
        return "refused"
    try:
        check(p, graph, streams, asks, cut, vertical, ran.stdout.decode(), ran.returncode)
    except Wrong as wrong:
        return f"{' '.join(words)}: {wrong}"
    return "right"


def main():
    bolt, count = os.path.abspath(sys.argv[1]), int(sys.argv[2])
    seed = int(sys.argv[3]) if len(sys.argv) > 3 else 1
    told = {"right": 0, "refused": 0, "other": 0}
    for i in range(count):
        r = random.Random(f"live {seed} {i}")
        folder = tempfile.mkdtemp(prefix="bolt-live-")
        answer = one(bolt, folder, r)
        if answer in told:
            told[answer] += 1
            subprocess.run(["rm", "-r", folder], check=True)
        else:
            told["other"] += 1
            print(f"run {i}: {answer}: in {folder}")
    print(f"{told['right']} right, {told['other']} not; {told['refused']} programs refused")
    return 1 if told["other"] else 0


if __name__ == "__main__":
    sys.exit(main())
