#!/usr/bin/env python3
"""Stands between a browser and a native host: passes the bytes on unchanged, and keeps both directions in files.

    tools/tap.py HOST FOLDER

HOST is the host's program, and FOLDER is where `to_host` and `from_host` are kept, which `wx frames` reads. Writes
FOLDER/tap, a program for `path` in the host's manifest; it is started anew for each host, and each start begins both
files anew. It ends with the host's status.
"""
import os
import shlex
import subprocess
import sys
import threading


def pass_on(source, sink, kept):
    with open(kept, "wb", buffering=0) as file:
        while piece := os.read(source, 65536):
            file.write(piece)
            try:
                while piece:
                    piece = piece[os.write(sink, piece):]
            except BrokenPipeError:
                break
    os.close(sink)


def tap(host, folder, words):
    child = subprocess.Popen([host, *words], stdin=subprocess.PIPE, stdout=subprocess.PIPE)
    ends = os.dup(child.stdin.fileno())
    child.stdin.close()
    threading.Thread(target=pass_on, args=(0, ends, os.path.join(folder, "to_host")), daemon=True).start()
    pass_on(child.stdout.fileno(), os.dup(1), os.path.join(folder, "from_host"))
    sys.stdout.flush()
    os._exit(child.wait() & 255)


def main():
    if len(sys.argv) >= 4 and sys.argv[1] == "--started":
        tap(sys.argv[2], sys.argv[3], sys.argv[4:])
    if len(sys.argv) != 3:
        print(__doc__.strip())
        sys.exit(2)
    host, folder = os.path.abspath(sys.argv[1]), os.path.abspath(sys.argv[2])
    os.makedirs(folder, exist_ok=True)
    path = os.path.join(folder, "tap")
    call = " ".join(map(shlex.quote, [sys.executable, os.path.abspath(__file__), "--started", host, folder]))
    with open(path, "w") as file:
        file.write(f'#!/bin/sh\nexec {call} "$@"\n')
    os.chmod(path, 0o755)
    print(path)


main()
