#!/usr/bin/env python3
"""Times the check of JSON texts against Python's json on the same bytes.

    tools/json_speed.py PROGRAM [PIECE ..]

PROGRAM is the built wx_json_bench, as crates/wx_json_bench/out/wx_json_bench. Each text is checked in pieces of
PIECE bytes (as a whole, where no PIECE is given). Printed are megabytes a second of processor time, the best of
three: one run of the program is taken from a run of eleven, so that starting it and reading the file don't count.
"""

import json
import os
import random
import resource
import subprocess
import sys
import tempfile
import time


def samples():
    random.seed(5)
    words = "alpha bravo charlie delta echo foxtrot golf hotel india juliet".split()
    yield "ASCII string", b'"' + b"the quick brown fox jumps over the lazy dog, " * 1_000_000 + b'"'
    records = [
        {
            "id": random.randrange(10**6),
            "name": random.choice(words) + " " + random.choice(words),
            "score": round(random.uniform(-100, 100), random.randrange(1, 6)),
            "tags": [random.choice(words) for _ in range(random.randrange(4))],
            "ok": random.random() < 0.5,
            "x": None if random.random() < 0.3 else random.randrange(1000),
        }
        for _ in range(300_000)
    ]
    yield "records", json.dumps(records, separators=(",", ":")).encode()
    yield "records, indented", json.dumps(records[:120_000], indent=2).encode()
    yield "white space", white_space()
    yield "real numbers", json.dumps([random.uniform(-1000, 1000) for _ in range(1_000_000)]).encode()
    yield "whole numbers", json.dumps([random.randrange(10 ** random.randrange(1, 12)) for _ in range(2_000_000)]).encode()
    yield "long numbers", json.dumps([random.randrange(10 ** random.randrange(30, 90)) for _ in range(400_000)]).encode()
    yield "beyond ASCII", ('"' + "åäö 日本語のテキスト 🦀 " * 500_000 + '"').encode()
    yield "escapes", b'"' + rb"one line of text\n\tand \"quoted\" \u00e9 words\n" * 500_000 + b'"'


def white_space():
    """Numbers between runs of up to 80 spaces, tabs, line feeds and carriage returns."""
    runs = ["".join(random.choice(" \t\r\n") for _ in range(random.randrange(80))) for _ in range(1000)]
    return ("[1" + "".join(random.choice(runs) + "," + random.choice(runs) + "2" for _ in range(300_000)) + "]").encode()


def spent(program, path, times, piece):
    """Processor seconds of so many checks."""
    before = resource.getrusage(resource.RUSAGE_CHILDREN).ru_utime
    out = subprocess.run([program, path, str(times), str(piece)], stdout=subprocess.PIPE, check=True).stdout
    assert out == b"ok\n" * times, out[:80]
    return resource.getrusage(resource.RUSAGE_CHILDREN).ru_utime - before


def checked(program, path, piece, times):
    return min(spent(program, path, times + 1, piece) - spent(program, path, 1, piece) for _ in range(3)) / times


def read_by_python(data):
    best = float("inf")
    for _ in range(2):
        begin = time.process_time()
        json.loads(data)
        best = min(best, time.process_time() - begin)
    return best


def main():
    program, pieces = sys.argv[1], [int(word) for word in sys.argv[2:]] or [2**32 - 1]
    print("%-20s %9s %9s  %s" % ("text", "MB", "python", "  ".join("%11s" % ("whole" if p == 2**32 - 1 else p) for p in pieces)))
    with tempfile.TemporaryDirectory() as folder:
        path = os.path.join(folder, "text.json")
        for name, data in samples():
            with open(path, "wb") as file:
                file.write(data)
            size = len(data) / 1e6
            python = size / read_by_python(data)
            ours = [size / max(checked(program, path, piece, 10), 1e-6) for piece in pieces]
            print("%-20s %9.1f %9.0f  %s" % (name, size, python, "  ".join("%11.0f" % x for x in ours)), flush=True)


if __name__ == "__main__":
    main()
