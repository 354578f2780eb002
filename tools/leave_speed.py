#!/usr/bin/env python3
"""Counts what the leave of a context with three channels costs among few and among many channels of others.

    tools/leave_speed.py PROGRAM

PROGRAM is the built wx_port_bench, as crates/wx_port_bench/out/wx_port_bench. Printed are instructions, by valgrind, for
a context that comes, opens three channels and leaves: a run with so many such contexts less a run with none, so that
starting the program and the channels of others don't count. The ratio is to the first line.
"""

import re
import subprocess
import sys

LEAVERS = 20_000
OTHERS = (0, 1_000, 10_000, 100_000)


def instructions(program, others, leavers):
    words = ["valgrind", "--tool=callgrind", "--callgrind-out-file=/dev/null"]
    run = subprocess.run([*words, program, str(others), str(leavers), "leave"], capture_output=True, check=True)
    assert run.stdout == b"%d channels, none open of those who came\n" % (others + 3 * leavers), run.stdout
    return int(re.search(rb"Collected : (\d+)", run.stderr).group(1))


def main():
    program = sys.argv[1]
    print("%18s %24s %8s" % ("channels of others", "instructions a context", "ratio"))
    first = None
    for others in OTHERS:
        each = (instructions(program, others, LEAVERS) - instructions(program, others, 0)) / LEAVERS
        first = first or each
        print("%18d %24.0f %8.3f" % (others, each, each / first), flush=True)


if __name__ == "__main__":
    main()
