#!/usr/bin/env python3
"""Refuses one growth of memory after another in runs of the built program, and says what each run answered.

    tools/refuse_memory.py [SCENE]

Run N of the first scene (or SCENE) has its Nth call of `malloc` or `realloc` refused, by a small library that is
compiled into a temporary folder and preloaded. Each run must end with status 7, nothing on standard output and
its line on standard error, or with 0 and the whole journal. Ends behind the first run that makes fewer than N
calls; with status 1 where a run answered otherwise. Needs `cc`.
"""
import os
import subprocess
import sys
import tempfile

TOP = os.path.dirname(os.path.dirname(os.path.abspath(__file__)))
PROGRAM = os.path.join(TOP, "crates", "wx", "out", "wx")
LIBRARY = r"""
#define _GNU_SOURCE
#include <dlfcn.h>
#include <errno.h>
#include <stdlib.h>
#include <unistd.h>
static long calls, refused = -1;
static int is_refused(void) {
    if (refused < 0) { const char *n = getenv("REFUSED_CALL"); refused = n ? atol(n) : 0; }
    return ++calls == refused;
}
__attribute__((destructor)) static void tell(void) {
    const char *name = getenv("COUNT_FD");
    char text[32]; int n = 0; long c = calls; char digits[24]; int d = 0;
    if (!name) return;
    do { digits[d++] = '0' + c % 10; c /= 10; } while (c);
    while (d) text[n++] = digits[--d];
    if (write(atoi(name), text, n) < 0) return;
}
void *malloc(size_t size) {
    static void *(*real)(size_t);
    if (!real) real = dlsym(RTLD_NEXT, "malloc");
    if (is_refused()) { errno = ENOMEM; return 0; }
    return real(size);
}
void *realloc(void *old, size_t size) {
    static void *(*real)(void *, size_t);
    if (!real) real = dlsym(RTLD_NEXT, "realloc");
    if (is_refused()) { errno = ENOMEM; return 0; }
    return real(old, size);
}
"""


def run(library, scene, refused):
    """The status, what stood on the two streams, and how many calls were made (None where that is not told)."""
    read_end, write_end = os.pipe()
    env = dict(os.environ, LD_PRELOAD=library, REFUSED_CALL=str(refused), COUNT_FD=str(write_end))
    done = subprocess.run([PROGRAM, "run", "--rounds", "-"], input=scene, capture_output=True, env=env, pass_fds=[write_end])
    os.close(write_end)
    count = os.read(read_end, 32)
    os.close(read_end)
    return done.returncode, done.stdout, done.stderr, int(count) if count else None


def main():
    path = sys.argv[1] if len(sys.argv) > 1 else os.path.join(TOP, "scenes", "first.scene")
    with open(path, "rb") as f:
        scene = f.read()
    with tempfile.TemporaryDirectory() as folder:
        library = os.path.join(folder, "refuse.so")
        subprocess.run(["cc", "-shared", "-fPIC", "-O1", "-x", "c", "-o", library, "-", "-ldl"], input=LIBRARY.encode(), check=True)
        status, whole, _, calls = run(library, scene, 0)
        if status != 0 or calls is None:
            sys.exit(f"the run with ample memory: status {status}, calls {calls}")
        answers, bad = {}, 0
        for n in range(1, calls + 1):
            status, out, err, _ = run(library, scene, n)
            answers[status] = answers.get(status, 0) + 1
            well = (status, out, err) == (0, whole, b"") or (status, out) == (7, b"") and err in (b"wx: no memory\n", b"")
            if not well:
                bad += 1
                print(f"call {n} refused: status {status}, {len(out)} bytes on standard output, {err!r}")
        print(f"{calls} calls, each refused once: answers by status {answers}, {bad} of them wrong")
        sys.exit(1 if bad else 0)


main()
