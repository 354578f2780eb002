#!/usr/bin/env python3
"""Runs the built program over scenes with native hosts that behave and misbehave, and compares how each run ends.

    tools/native_hosts.py [PROGRAM]

PROGRAM is `crates/wx/out/wx` where none is given. Each host is a small program of its own in a folder that is removed
again. Compared are the status, the last entry of the host, what more a case names, and that the run takes no longer
than the case allows, and that the host was waited for; and of some rows of crates/wx_rows/data/hosts the whole journal,
with the programs that they name or the echo host of scenes/ in the place of one that no machine has. Ends with status 1
where one did not come out so.
"""
import ctypes
import json
import os
import subprocess
import sys
import tempfile
import time

TOP = os.path.dirname(os.path.dirname(os.path.abspath(__file__)))
PROGRAM = os.path.join(TOP, "crates", "wx", "out", "wx")
# prctl(2): orphans of descendants become children of this process, so that one that was not waited for is seen here.
PR_SET_CHILD_SUBREAPER = 36
ID = "a" * 32
HELPER = {"manifest_version": 3, "name": "Helper", "version": "1.0", "permissions": ["nativeMessaging"]}
ECHO = os.path.join(TOP, "scenes", "echo_host.py")
ROWS = os.path.join(TOP, "crates", "wx_rows", "data", "hosts")
# Rows, each with the path in its manifest that is replaced, and by what.
PLAYED = [("the child prints its argument", "/bin/echo", "/bin/echo"),
          ("the child writes nothing and ends", "/bin/echo", "/bin/cat"),
          ("a helper extension pings its program", "/opt/example/echo", ECHO)]
# How many seconds a host may be silent in these runs.
SECONDS = "2"
# Each host notes its number beside itself.
PYTHON = ("#!/usr/bin/env python3\nimport os, sys, json, time\n"
          "with open(__file__ + '.pid', 'w') as file: file.write(str(os.getpid()))\n")
READ = "n = int.from_bytes(sys.stdin.buffer.read(4), 'little'); sys.stdin.buffer.read(n)\n"
SAY = "def say(b):\n    os.write(1, len(b).to_bytes(4, 'little') + b)\n"
TELL = PYTHON + SAY + READ + "say(json.dumps([sys.argv[1:], os.getcwd(), os.environ.get('WX_SEEN')]).encode())\n"


def large(size):
    return '"' + "x" * (size - 2) + '"'


def cases():
    """Name, program (a script, or a path that stands as it is), message, allowed ends, seconds, and words of the
    journal or of standard error."""
    sent = '{"op":"ping"}'
    yield "echo", ("path", ECHO), sent, ["exited"], 5, ['h0 host_said 13:{"op":"ping"} -> passed']
    yield "echo of 1,000,000 bytes", ("path", ECHO), large(1000000), ["exited"], 10, ["h0 host_said 1000000:"]
    yield "echo while it is written to", ("path", "/usr/bin/tee"), large(1000000), ["exited"], 10, [
        "h0 host_said 1000000:", "No such file"]
    yield "echo of 2,000,000 bytes", ("path", "/usr/bin/tee"), large(2000000), ["too_long 2000000"], 10, []
    yield "missing", ("path", "/nowhere/host"), sent, ["start_failed"], 5, []
    yield "a folder", ("path", TOP), sent, ["start_failed"], 5, []
    yield "not executable", ("plain", "#!/bin/sh\n"), sent, ["start_failed"], 5, []
    yield "exits at once", "#!/bin/sh\nexit 0\n", sent, ["exited", "write_failed"], 5, []
    yield "exits before it reads", "#!/bin/sh\nexit 3\n", large(200000), ["write_failed"], 5, []
    yield "ended by a signal", "#!/bin/sh\nkill -9 $$\n", sent, ["exited", "write_failed"], 5, []
    yield "half a head", PYTHON + READ + "os.write(1, b'ab')\n", sent, ["cut 2"], 5, []
    yield "half a frame", PYTHON + READ + "os.write(1, b'\\5\\0\\0\\0\"ab')\n", sent, ["cut 7"], 5, []
    yield "half a frame, then silence", PYTHON + READ + "os.write(1, b'\\5\\0\\0\\0\"ab')\ntime.sleep(30)\n", sent, [
        "cut 7"], 6, []
    yield "no JSON", PYTHON + READ + "os.write(1, b'\\1\\0\\0\\0x')\ntime.sleep(30)\n", sent, ["bad_json 0 syntax"], 6, []
    yield "writes text without end", "#!/bin/sh\nexec yes\n", sent, ["too_long 175704697"], 6, []
    yield "writes frames without end", PYTHON + SAY + "while True: say(b'1')\n", sent, ["closed"], 6, [
        "h0 host_said 1:1 -> passed"]
    yield "never reads", "#!/bin/sh\nexec sleep 30\n", large(200000), ["write_failed"], 8, []
    yield "never reads, nor does its child", "#!/bin/sh\nsleep 9\nexit 0\n", large(200000), ["write_failed"], 8, []
    yield "never writes", "#!/bin/sh\nexec cat >/dev/null\n", sent, ["exited"], 6, []
    yield "never writes, nor does its child", "#!/bin/sh\nsleep 9\nexit 0\n", sent, ["exited"], 6, []
    yield "ignores the end of its input", PYTHON + SAY + READ + "say(b'1')\ntime.sleep(30)\n", sent, ["exited"], 6, [
        "h0 host_said 1:1 -> passed"]
    yield "goes on behind its output", PYTHON + READ + "os.close(1)\ntime.sleep(30)\n", sent, ["exited"], 6, []
    yield "closes its input", PYTHON + "os.close(0)\ntime.sleep(30)\n", large(200000), ["write_failed"], 6, []
    yield "writes on standard error", PYTHON + READ + "os.write(2, b'a complaint')\n", sent, ["exited"], 5, ["a complaint"]
    yield "its origin, folder and environment", TELL, sent, ["exited"], 5, [
        'h0 host_said', '[["chrome-extension://%s/"], "{FOLDER}", "kept"]' % ID]


def program_of(folder, host):
    """The path of the host's program; a script is written, and may be run unless it is plain."""
    kind, text = host if isinstance(host, tuple) else ("script", host)
    if kind == "path":
        return text
    path = os.path.join(folder, "host")
    with open(path, "w") as file:
        file.write(text)
    os.chmod(path, 0o755 if kind == "script" else 0o644)
    return path


def write_scene(folder, path, message):
    manifest = {"name": "com.example.host", "description": "A host", "path": path, "type": "stdio",
                "allowed_origins": ["chrome-extension://%s/" % ID]}
    with open(os.path.join(folder, "com.example.host.json"), "w") as file:
        json.dump(manifest, file)
    with open(os.path.join(folder, "helper.json"), "w") as file:
        json.dump(HELPER, file)
    return ("wx scene 1 chrome\nextension helper %s helper.json\nhost com.example.host.json\npage w helper /w\n"
            "  native n com.example.host\n  post n %s\n  await message n\n" % (ID, message))


def ends_of(journal):
    return [line[len("h0 host_ended "):-len(" -> done")] for line in journal.splitlines()
            if line.startswith("h0 host_ended ")]


def is_left(folder):
    """Whether the run left a host, dead or alive, without waiting for it: it is then a child of this process."""
    path = os.path.join(folder, "host.pid")
    if not os.path.exists(path):
        return False
    with open(path) as file:
        number = int(file.read())
    try:
        os.waitpid(number, os.WNOHANG)
        return True
    except ChildProcessError:
        return False


def fault_of(program, host, message, ends, seconds, words):
    """What was wrong with the run, or nothing."""
    with tempfile.TemporaryDirectory() as folder:
        scene = write_scene(folder, program_of(folder, host), message)
        environment = dict(os.environ, WX_HOST_SECONDS=SECONDS, WX_SEEN="kept")
        begin = time.perf_counter()
        # Files and no pipes, which a child of a host would hold open behind the end of the run.
        with tempfile.TemporaryFile() as out, tempfile.TemporaryFile() as err:
            try:
                run = subprocess.run([program, "run", "--rounds", "-"], input=scene.encode(), cwd=folder, timeout=60,
                                     stdout=out, stderr=err, env=environment)
            except subprocess.TimeoutExpired:
                return "it did not end within 60 s"
            took = time.perf_counter() - begin
            out.seek(0)
            err.seek(0)
            journal, noise = out.read().decode(errors="replace"), err.read().decode(errors="replace")
        found = ends_of(journal)
        if is_left(folder):
            return "its host was not waited for"
        if run.returncode != 0:
            return f"status {run.returncode}: {noise[:200]}"
        if len(found) != 1 or found[0] not in ends:
            return f"ends {found}, wanted one of {ends}"
        for word in words:
            if word.replace("{FOLDER}", os.path.realpath(folder)) not in journal + noise:
                return f"without {word!r}: {journal[-300:]}"
        if took > seconds:
            return f"it took {took:.1f} s of {seconds}"
    return None


def parts_of(name):
    """The parts of a row, by their first lines (as `file s`, `out`): the text of each."""
    with open(ROWS) as file:
        rows = file.read().split("\n\n")
    parts, at = {}, None
    for line in next(row for row in rows if f"row {name}\n" in row).split("\n"):
        if line[:1] in ("|", "~"):
            parts[at] += line[1:] + ("\n" if line[0] == "|" else "")
        else:
            at = line
            parts[at] = ""
    return parts


def row_fault(program, name, path, real):
    """What was wrong with a row's run over real programs, or nothing."""
    parts = parts_of(name)
    with tempfile.TemporaryDirectory() as folder:
        for first, text in parts.items():
            if first.startswith("file "):
                with open(os.path.join(folder, first[5:]), "w") as file:
                    file.write(text.replace(f'"{path}"', f'"{real}"'))
        run = subprocess.run([program, "run", "--rounds", "s"], cwd=folder, stdout=subprocess.PIPE, timeout=60,
                             stderr=subprocess.DEVNULL, env=dict(os.environ, WX_HOST_SECONDS=SECONDS))
    if run.returncode == 0 and run.stdout.decode(errors="replace") == parts["out"]:
        return None
    return f"status {run.returncode}, {run.stdout.decode(errors='replace')[-300:]}"


def main():
    program = os.path.abspath(sys.argv[1]) if len(sys.argv) > 1 else PROGRAM
    ctypes.CDLL(None).prctl(PR_SET_CHILD_SUBREAPER, 1, 0, 0, 0)
    failed = 0
    for name, *case in cases():
        fault = fault_of(program, *case)
        failed += fault is not None
        print(f"{name}: {'well' if fault is None else fault}", flush=True)
    for name, path, real in PLAYED:
        fault = row_fault(program, name, path, real)
        failed += fault is not None
        print(f"the row {name}: {'well' if fault is None else fault}", flush=True)
    print(f"{failed} failed")
    sys.exit(1 if failed else 0)


main()
