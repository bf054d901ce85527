#!/usr/bin/env python3
"""A live run under load, checked line by line, with its speed.

    live_load.py BOLT [STREAMS BATCHES FILES QUESTIONS]

Each stream adds and cuts edges of its own in a small graph, so that every batch is accepted, and
each file asks its questions as fast as they are answered. Prints how many batches and replies a
second there were, and whether all is right; status 1 where it isn't.
"""
import os
import random
import subprocess
import sys
import tempfile
import time

from live_runs import Wrong, check
from shipped import SHIPPED

VERTICES = 16


def stream(k, batches):
    """Batches of one edit each, at the edges out of vertex k."""
    r, here, out = random.Random(k), set(), []
    for _ in range(batches):
        v = r.randrange(VERTICES)
        out.append(f"{'-' if v in here else '+'} {k} {v}\ncommit\n")
        here ^= {v}
    return "".join(out)


def questions(k, count):
    r = random.Random(f"ask {k}")
    kinds = ["prefix", "total 0", "atleast 0 1000000", f"value {k}"]
    return "".join(r.choice(kinds) + "\n" for _ in range(count))


def main():
    bolt = os.path.abspath(sys.argv[1])
    streams, batches, files, asked = map(int, sys.argv[2:6] or [16, 1000, 16, 10000])
    graph = f"vertices {VERTICES}\n"
    made = [stream(k, batches) for k in range(streams)]
    asks = [questions(k, asked) for k in range(files)]
    with tempfile.TemporaryDirectory(prefix="bolt-load-") as folder:
        texts = [("g", graph), *((f"s{k}", x) for k, x in enumerate(made)),
                 *((f"q{k}", x) for k, x in enumerate(asks))]
        for name, text in texts:
            with open(os.path.join(folder, name), "w") as f:
                f.write(text)
        named = [f"--stream=s{k}" for k in range(streams)] + [f"--ask=q{k}" for k in range(files)]
        begun = time.monotonic()
        ran = subprocess.run([bolt, "live", "rank", "g", *named], cwd=folder, capture_output=True)
        took = time.monotonic() - begun
    text = ran.stdout.decode()
    try:
        check(SHIPPED["rank"], graph, made, asks, None, True, text, ran.returncode)
        said = "all right"
    except Wrong as wrong:
        said = f"wrong: {wrong}"
    replies = [x.split() for x in text.splitlines() if x.startswith("reply ")]
    later = sum(1 for w in replies if w[3] == "prefix" and 0 < int(w[4]) < streams * batches)
    print(f"{took:.2f} s: {streams * batches / took:.0f} batches and {len(replies) / took:.0f} "
          f"replies a second; {later} replies from between the first and the last batch; {said}")
    return 0 if said == "all right" else 1


if __name__ == "__main__":
    sys.exit(main())
