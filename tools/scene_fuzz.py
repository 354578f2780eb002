#!/usr/bin/env python3
"""Runs the built program on random bytes and on mutated scenes, and says whether each run ended well.

    tools/scene_fuzz.py [COUNT]

COUNT runs (1,000 where none is given), half of them on random bytes and half on one of the scenes with a few
bytes changed. Each must end with status 0, 1, 4, or, where a line names a file, 3 or 5: with these three it writes
nothing on standard output and one line on standard error, with 1 the journal and a line for each context that waits.
The runs stand in the folder above this one, where the files that the scenes name are found. The seed is fixed, so that
a failure can be repeated. Ends with status 1 where a run did not.
"""
import glob
import os
import random
import subprocess
import sys

TOP = os.path.dirname(os.path.dirname(os.path.abspath(__file__)))
PROGRAM = os.path.join(TOP, "crates", "wx", "out", "wx")
REFUSALS = {3: b"wx: read fault: ", 4: b"wx: scene refused: line ", 5: b"wx: manifest refused: "}
ALPHABET = b"abcdefghijklmnopqrstuvwxyz0123456789_ \n/-{}[]\"#"


def random_scene(rng):
    size = rng.randrange(0, 400)
    if rng.random() < 0.5:
        return bytes(rng.randrange(256) for _ in range(size))
    body = bytes(rng.choice(ALPHABET) for _ in range(size))
    return b"wx scene 1 chrome\n" + body


def mutated_scene(rng, scene):
    """The scene with one to three changes: half of them of whole lines, which often leave a scene."""
    lines = scene.split(b"\n")
    for _ in range(rng.randrange(1, 4)):
        place = rng.randrange(len(lines))
        change = rng.randrange(6)
        line = bytearray(lines[place])
        if change == 0:
            del lines[place]
        elif change == 1:
            lines.insert(place, lines[rng.randrange(len(lines))])
        elif change == 2:
            other = rng.randrange(len(lines))
            lines[place], lines[other] = lines[other], lines[place]
        elif change == 3 and line:
            line[rng.randrange(len(line))] = rng.randrange(256)
        elif change == 4 and line:
            del line[rng.randrange(len(line))]
        else:
            line.insert(rng.randrange(len(line) + 1), rng.choice(ALPHABET))
        if change > 2:
            lines[place] = bytes(line)
        if not lines:
            lines = scene.split(b"\n")
    return b"\n".join(lines)


def is_well_ended(scene):
    run = subprocess.run([PROGRAM, "run", "--rounds", "-"], input=scene, capture_output=True, timeout=20, cwd=TOP)
    if run.returncode == 0:
        return run.returncode, run.stdout.startswith(b"wx journal 1 chrome\n") and run.stderr == b""
    if run.returncode == 1:
        waiting = [line.startswith(b"wx: stalled: ") for line in run.stderr.splitlines()]
        return run.returncode, run.stdout.startswith(b"wx journal 1 chrome\n") and all(waiting) and len(waiting) > 0
    line = REFUSALS.get(run.returncode)
    refused = line is not None and run.stderr.startswith(line) and run.stderr.count(b"\n") == 1
    return run.returncode, run.stdout == b"" and refused


def main():
    count = int(sys.argv[1]) if len(sys.argv) > 1 else 1000
    scenes = []
    for path in sorted(glob.glob(os.path.join(TOP, "scenes", "*.scene"))):
        with open(path, "rb") as f:
            scenes.append(f.read())
    rng = random.Random(1)
    statuses, bad = {}, 0
    for n in range(count):
        scene = random_scene(rng) if n % 2 == 0 else mutated_scene(rng, rng.choice(scenes))
        status, well = is_well_ended(scene)
        statuses[status] = statuses.get(status, 0) + 1
        if not well:
            bad += 1
            print(f"run {n}: status {status} on {scene!r}")
    print(f"{count} runs, by status {statuses}, {bad} ended badly")
    sys.exit(1 if bad else 0)


main()
