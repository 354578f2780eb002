#!/usr/bin/env python3
"""Times turns of the ticketed lock against std's Mutex in the same program.

    tools/turn_speed.py PROGRAM

PROGRAM is the built wx_turn_bench, as crates/wx_turn_bench/out/wx_turn_bench. Printed are microseconds a turn by the
clock, the best of five, threads' starts and joins included: one run of ROUNDS + 1 rounds less one of a single round, so
that starting the program doesn't count. The ratio is that of the two locks in this run.
"""

import subprocess
import sys
import time

# threads, turns of each, rounds
CASES = [(1, 65536, 20), (2, 1000, 20), (100, 100, 5), (1000, 20, 3)]


def seconds(program, way, threads, turns, rounds):
    begin = time.monotonic()
    out = subprocess.run([program, way, str(threads), str(turns), str(rounds)], stdout=subprocess.PIPE, check=True).stdout
    spent = time.monotonic() - begin
    assert out == b"%d turns\n" % (threads * turns) * rounds, out[:80]
    return spent


def turn(program, way, threads, turns, rounds):
    """Microseconds a turn."""
    best = min(
        seconds(program, way, threads, turns, rounds + 1) - seconds(program, way, threads, turns, 1) for _ in range(5)
    )
    return max(best, 1e-9) * 1e6 / (threads * turns * rounds)


def main():
    program = sys.argv[1]
    print("%8s %8s %12s %12s %8s" % ("threads", "turns", "lock us", "Mutex us", "ratio"))
    for threads, turns, rounds in CASES:
        lock = turn(program, "lock", threads, turns, rounds)
        mutex = turn(program, "mutex", threads, turns, rounds)
        print("%8d %8d %12.3f %12.3f %8.1f" % (threads, turns, lock, mutex, lock / mutex), flush=True)


if __name__ == "__main__":
    main()
