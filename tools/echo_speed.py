#!/usr/bin/env python3
"""Times the echo beside a C program that copies frames: 100,000 frames of 17 bytes through pipes, in one run.

    tools/echo_speed.py [PROGRAM]

PROGRAM is `wx` where none is given. Each is run five times in turns, and the quickest counts. Ends with status 1 where
what came back is not what was sent, or the echo took more than twice the time of the C program.
"""
import os
import struct
import subprocess
import sys
import tempfile
import time

TOP = os.path.dirname(os.path.dirname(os.path.abspath(__file__)))
PROGRAM = sys.argv[1] if len(sys.argv) > 1 else os.environ.get("WX_PROGRAM", os.path.join(TOP, "crates/wx/out/wx"))
ORIGIN = "chrome-extension://" + "a" * 32 + "/"
COPY = r"""
#include <stdint.h>
#include <stdio.h>
#include <stdlib.h>
int main(void) {
    uint32_t n;
    while (fread(&n, 4, 1, stdin) == 1) {
        char *text = malloc(n);
        if (!text || fread(text, 1, n, stdin) != n) return 4;
        if (fwrite(&n, 4, 1, stdout) != 1 || fwrite(text, 1, n, stdout) != n || fflush(stdout)) return 6;
        free(text);
    }
    return 0;
}
"""


def timed(words, frames):
    start = time.perf_counter()
    back = subprocess.run(words, input=frames, stdout=subprocess.PIPE)
    return time.perf_counter() - start, back.returncode == 0 and back.stdout == frames


def main():
    frame = struct.pack("<I", 13) + b'{"op":"ping"}'
    frames = frame * 100_000
    with tempfile.TemporaryDirectory() as folder:
        source, copy = os.path.join(folder, "copy.c"), os.path.join(folder, "copy")
        with open(source, "w") as file:
            file.write(COPY)
        subprocess.run(["cc", "-O2", "-o", copy, source], check=True)
        echo_best, copy_best, whole = 1e9, 1e9, True
        for _ in range(5):
            echo, right = timed([PROGRAM, ORIGIN], frames)
            other, other_right = timed([copy], frames)
            echo_best, copy_best, whole = min(echo_best, echo), min(copy_best, other), whole and right and other_right
    print(f"echo {echo_best:.3f} s, C {copy_best:.3f} s, {copy_best / echo_best:.2f} times as quick, all whole: {whole}")
    sys.exit(0 if whole and echo_best <= 2 * copy_best else 1)


main()
