#!/usr/bin/env python3
"""Runs a scene with one large message through the built program, and says how long it took and how much memory.

    tools/large_message.py [MEBIBYTES]

The message is one JSON string of so many mebibytes (60 where none is given). The journal must carry it byte for
byte; ends with status 1 where it does not.
"""
import os
import resource
import subprocess
import sys
import time

TOP = os.path.dirname(os.path.dirname(os.path.abspath(__file__)))
PROGRAM = os.path.join(TOP, "crates", "wx", "out", "wx")


def main():
    size = int(sys.argv[1]) if len(sys.argv) > 1 else 60
    pattern = b'0123456789 abcdefghijklmnopqrstuvwxyz {}[],: ' * 24000
    text = b'"' + (pattern * (size + 1))[: size * 1048576 - 2] + b'"'
    page = b"extension x " + b"a" * 32 + b"\npage q x /q\n  connect ch own\n  post ch "
    scene = b"wx scene 1 chrome\n" + page + text + b"\npage p x /p\n  listen connect\n  take\n  take\n"
    begin = time.perf_counter()
    run = subprocess.run([PROGRAM, "run", "--rounds", "-"], input=scene, capture_output=True)
    seconds = time.perf_counter() - begin
    peak = resource.getrusage(resource.RUSAGE_CHILDREN).ru_maxrss / 1024
    entry = b"c0 post 0 %d:%s -> posted\n" % (len(text), text)
    carried = entry in run.stdout
    print(f"a message of {len(text)} bytes: status {run.returncode}, {seconds:.2f} s, peak memory {peak:.0f} MiB, carried {carried}")
    sys.exit(0 if run.returncode == 0 and carried else 1)


main()
