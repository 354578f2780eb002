#!/usr/bin/env python3
"""Times `wx run --rounds` on growing journals, and says what an entry costs, alone or beside another program.

    tools/journal_speed.py [PROGRAM [OTHER]] [ENTRIES ..]

PROGRAM is the built program, crates/wx/out/wx where none is given; OTHER is a second program with the same words. The
journals have some 1,000, 10,000, 100,000 and 1,000,000 entries where no ENTRIES are given. In each scene twenty pages
open channels, post three messages on each and close it, and twenty others take what they are told, so that about an
entry in ten opens a channel, three post, one closes, and five take. Each sample runs the head line alone and then the
scene, with each program in turn. Printed are medians over the samples: of the wall-clock time of the scene, and, less
the head line alone, of nanoseconds and bytes of peak memory an entry, so that starting the program doesn't count, but
reading the scene and printing the journal do. `growth` is the nanoseconds beside those of the first journal; `ratio` is
the median of the time of PROGRAM by that of OTHER. A program that is started counts the memory of the one that starts
it among its own, so the bytes of a small journal don't show. Ends with status 1 where a run fails or the two journals
differ.
"""

import hashlib
import os
import statistics
import subprocess
import sys
import tempfile
import time

TOP = os.path.dirname(os.path.dirname(os.path.abspath(__file__)))
PROGRAM = os.path.join(TOP, "crates", "wx", "out", "wx")
HEAD = "wx scene 1 chrome\n"
SIZES = [1_000, 10_000, 100_000, 1_000_000]
# samples of journals up to 10,000 entries, whose runs are short, and of longer ones
SAMPLES = (41, 7)
PAIRS = 20
TALK = "  connect ch own\n  repeat 3 post ch 1\n  disconnect ch\n"
# entries of a talk: a connect, three posts, a disconnect, and a take of each; and of a pair beside its talks: two
# enters, a listen, two leaves
EACH, BESIDE = 10, 5


def talks_for(entries):
    return max(1, round((entries / PAIRS - BESIDE) / EACH))


def write_scene(path, talks):
    """The pairs are of an extension each, so that a connect reaches one page."""
    with open(path, "w") as file:
        file.write(HEAD)
        for pair in range(PAIRS):
            name = "abcdefghijklmnop"[pair // 16] + "abcdefghijklmnop"[pair % 16]
            file.write("extension x%d %s\n" % (pair, name * 16))
        for pair in range(PAIRS):
            file.write("page q%d x%d /q\n" % (pair, pair))
            for _ in range(talks):
                file.write(TALK)
            file.write("page p%d x%d /p\n  listen connect\n  repeat %d take\n" % (pair, pair, talks * EACH // 2))


def run(program, scene, journal):
    """Seconds and bytes of peak memory of one run."""
    with open(journal, "wb") as out:
        begin = time.perf_counter()
        child = subprocess.Popen([program, "run", "--rounds", scene], stdout=out)
        _, status, used = os.wait4(child.pid, 0)
        seconds = time.perf_counter() - begin
    child.returncode = os.waitstatus_to_exitcode(status)
    if child.returncode != 0:
        sys.exit("%s: status %d" % (program, child.returncode))
    return seconds, used.ru_maxrss * 1024


def told(path):
    """How many entries the journal has, and a checksum of it."""
    lines, digest = 0, hashlib.sha256()
    with open(path, "rb") as file:
        while piece := file.read(65_536):
            lines += piece.count(b"\n")
            digest.update(piece)
    return lines - 1, digest.digest()


def measured(programs, folder, talks):
    """How many entries there are, and of each program its samples: of the head line alone, and of the scene."""
    head, scene, journal = (os.path.join(folder, name) for name in ("head", "scene", "journal"))
    with open(head, "w") as file:
        file.write(HEAD)
    write_scene(scene, talks)
    floors, runs, journals = [[] for _ in programs], [[] for _ in programs], set()
    for _ in range(SAMPLES[0] if talks <= talks_for(10_000) else SAMPLES[1]):
        for place, program in enumerate(programs):
            floors[place].append(run(program, head, journal))
            runs[place].append(run(program, scene, journal))
            journals.add(told(journal))
    if len(journals) != 1:
        sys.exit("the journals differ")
    entries = journals.pop()[0]
    if entries != PAIRS * (talks * EACH + BESIDE):
        sys.exit("%d entries" % entries)
    return entries, floors, runs


def median_above(floors, runs, which):
    """The median of what the scene took more than the head line alone in the same sample."""
    return statistics.median(run[which] - floor[which] for floor, run in zip(floors, runs))


def main():
    sizes = [int(word) for word in sys.argv[1:] if word.isdigit()] or SIZES
    programs = [word for word in sys.argv[1:] if not word.isdigit()] or [PROGRAM]
    if len(programs) > 2:
        sys.exit(__doc__)
    print("%9s %-20s %10s %9s %8s %8s %7s" % ("entries", "program", "seconds", "ns each", "growth", "bytes", "ratio"))
    first = {}
    with tempfile.TemporaryDirectory() as folder:
        for size in sizes:
            entries, floors, runs = measured(programs, folder, talks_for(size))
            ratio = statistics.median(one[0] / other[0] for one, other in zip(runs[0], runs[-1]))
            for place, program in enumerate(programs):
                seconds = statistics.median(one[0] for one in runs[place])
                each = median_above(floors[place], runs[place], 0) / entries * 1e9
                memory = median_above(floors[place], runs[place], 1) / entries
                grown = each / first.setdefault(place, each) if first.get(place, each) > 0 else float("nan")
                shown = "%7.2f" % ratio if len(programs) == 2 and place == 0 else ""
                name = os.path.basename(program)
                print("%9d %-20s %10.4f %9.0f %8.2f %8.0f %s" % (entries, name, seconds, each, grown, memory, shown), flush=True)


if __name__ == "__main__":
    main()
