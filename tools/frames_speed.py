#!/usr/bin/env python3
"""Times `wx frames` on many small frames and on some of the longest, beside Python reading the same with struct and json.

    tools/frames_speed.py [PROGRAM]

PROGRAM is the built program, crates/wx/out/wx where none is given. Two files are made: 2,000,000 frames of 17 bytes in
all, and 60 frames whose texts have 1 MiB, the most that a frame may carry. Printed are the wall-clock time (the best of
three), the processor time of that run, megabytes a second of the file by the wall clock, and the most memory that the
program took. The files are made by a process of their own: a program that is started counts the memory of the one that
starts it among its own.
"""

import json
import multiprocessing
import os
import struct
import subprocess
import sys
import tempfile
import time

SMALL = 2_000_000
LARGE = 60
LIMIT = 1_048_576


def frame(text):
    return struct.pack("<I", len(text)) + text


def small_frames():
    return b"".join(frame(b'{"id":%d}' % (100_000 + n % 900_000)) for n in range(SMALL))


def records():
    """A text of just the limit: an array of records, with a string that fills it up."""
    parts = [json.dumps({"id": n, "name": "extension %d" % n, "tags": ["a", "b"], "score": n / 7, "ok": n % 2 == 0}, separators=(",", ":")) for n in range(10_000)]
    front = ("[" + ",".join(parts))[: LIMIT - 1000]
    front = front[: front.rindex('},{"id"') + 1]
    return (front + ',"' + "x" * (LIMIT - len(front) - 4) + '"]').encode()


def large_frames():
    text = records()
    assert len(text) == LIMIT and json.loads(text)
    return frame(text) * LARGE


def write(path, frames):
    with open(path, "wb") as file:
        file.write(frames())


def timed(program, path):
    """The best time of three, its processor time, and the peak memory in MB."""
    best, used, peak = float("inf"), 0, 0
    for _ in range(3):
        begin = time.perf_counter()
        with open(os.devnull, "wb") as out:
            child = subprocess.Popen([program, "frames", path], stdout=out)
            _, status, usage = os.wait4(child.pid, 0)
        seconds = time.perf_counter() - begin
        if seconds < best:
            best, used = seconds, usage.ru_utime + usage.ru_stime
        peak = max(peak, usage.ru_maxrss / 1000)
        assert status == 0, status
    return best, used, peak


def read_by_python(data):
    begin = time.perf_counter()
    at, out = 0, []
    while at < len(data):
        (size,) = struct.unpack_from("<I", data, at)
        text = data[at + 4 : at + 4 + size]
        json.loads(text)
        out.append(b"%d %d:%s\n" % (len(out), size, text))
        at += 4 + size
    out.append(b"end\n")
    text = b"".join(out)
    return time.perf_counter() - begin, text


def main():
    program = sys.argv[1] if len(sys.argv) > 1 else os.path.join(os.path.dirname(os.path.abspath(__file__)), "../crates/wx/out/wx")
    print("%-16s %8s %9s %9s %7s %9s %12s" % ("frames", "MB", "seconds", "processor", "MB/s", "peak MB", "python MB/s"))
    kinds = (("2,000,000 small", small_frames), ("60 of 1 MiB", large_frames))
    with tempfile.TemporaryDirectory() as folder:
        made = []
        for name, frames in kinds:
            path = os.path.join(folder, frames.__name__)
            maker = multiprocessing.Process(target=write, args=(path, frames))
            maker.start()
            maker.join()
            assert maker.exitcode == 0
            made.append((name, path, timed(program, path)))
        for name, path, (seconds, used, peak) in made:
            with open(path, "rb") as file:
                data = file.read()
            python, text = read_by_python(data)
            assert subprocess.run([program, "frames", path], stdout=subprocess.PIPE, check=True).stdout == text
            size = len(data) / 1e6
            print("%-16s %8.1f %9.3f %9.3f %7.0f %9.1f %12.0f" % (name, size, seconds, used, size / seconds, peak, size / python), flush=True)


if __name__ == "__main__":
    main()
