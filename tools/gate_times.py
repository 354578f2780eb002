#!/usr/bin/env python3
"""Says how many processor minutes the gate took, crate by crate, and writes the table of docs/GATE.md.

    tools/gate_times.py [LOG]          runs `rt ci` at the top of the repository, with what it prints in LOG (gate.log in
                                       the system's folder for temporary files, if none is named), and ends with its status
    tools/gate_times.py watch [PID]    watches an `rt ci` that somebody else runs: the one with this process id, or each
                                       that runs in this repository, or the next that is started there, until none runs
    tools/gate_times.py table          writes the table anew from what was last measured, with the lines and numbers as
                                       the files have them now

The first two write the table when the run ends, or when they are interrupted. Every second they read from /proc what the
checker's processes have used: a crate's proof, its tests (a crate with tests is proved once more with them), the seed of
its must-fail edits (the crate proved once more, for them to begin with) and the edits. What a process used in its last
second is missed; what the whole run used is taken from the run's own process, and the difference is told. A run that is
watched from its middle on tells the whole all the same. A crate that the run took over from an earlier run keeps the
minutes that the table has for it, so runs of some crates each fill it too; from nothing, all are measured anew.
"""
import collections
import json
import os
import re
import signal
import subprocess
import sys
import tempfile
import time

TOP = os.path.dirname(os.path.dirname(os.path.abspath(__file__)))
PAGE = os.path.join(TOP, "docs", "GATE.md")
STATE = os.path.join(tempfile.gettempdir(), "gate_times.json")
BEGIN, END = "<!-- the table begins -->", "<!-- the table ends -->"
PARTS = ("proof", "tests", "seed", "edits")
TICKS = os.sysconf("SC_CLK_TCK")


def words_of(pid):
    with open(f"/proc/{pid}/cmdline") as f:
        return f.read().split("\0")


def stat_of(pid):
    """The fields of a process's stat after its name: 1 is the parent, 11 to 14 the times, 19 the start."""
    with open(f"/proc/{pid}/stat") as f:
        return f.read().rsplit(")", 1)[1].split()


def pids():
    return [int(name) for name in os.listdir("/proc") if name.isdigit()]


def below(top):
    """The processes that descend from this one, by number."""
    children = collections.defaultdict(list)
    for pid in pids():
        try:
            children[int(stat_of(pid)[1])].append(pid)
        except OSError:
            pass
    found, left = [], [top]
    while left:
        found.append(left.pop())
        left += children[found[-1]]
    return found


def part_of(words, folder):
    """Which part of the gate a process of the checker with these words works on, in this folder."""
    if not re.match(r".*/rt-edit-", folder):
        return "tests" if "--test" in words else "proof"
    kept = words[words.index("--incremental") + 1] if "--incremental" in words else ""
    return "seed" if os.path.basename(kept) == "seed" else "edits"


def look(pid, used):
    """Notes what a process has used so far, where it is one of the checker."""
    try:
        words, stat, folder = words_of(pid), stat_of(pid), os.readlink(f"/proc/{pid}/cwd")
    except OSError:
        return
    if "--crate-name" in words:
        crate = words[words.index("--crate-name") + 1]
        minutes = (int(stat[11]) + int(stat[12])) / TICKS / 60
        used[f"{pid} {stat[19]}"] = [crate, part_of(words, folder), minutes]


def whole(under):
    """The processor minutes of a run so far: its own, those of its children that have ended, and those that live."""
    ticks = 0
    for pid in under:
        try:
            stat = stat_of(pid)
            ticks += sum(map(int, stat[11:15]))
        except OSError:
            pass
    return ticks / TICKS / 60


def is_gate(pid):
    """Whether the process is an `rt ci` in this repository."""
    try:
        words, folder = words_of(pid), os.readlink(f"/proc/{pid}/cwd")
    except OSError:
        return False
    at = next((n for n, word in enumerate(words) if os.path.basename(word) == "rt"), None)
    return at is not None and words[at + 1 : at + 2] == ["ci"] and os.path.realpath(folder) == os.path.realpath(TOP)


def found_gates():
    """The runs of `rt ci` in this repository: the uppermost process of each."""
    gates = [pid for pid in pids() if is_gate(pid)]
    found = []
    for pid in gates:
        try:
            if int(stat_of(pid)[1]) not in gates:
                found.append(pid)
        except OSError:
            pass
    return found


def awaited_gates():
    """The same, once there is one."""
    while not (found := found_gates()):
        time.sleep(1)
    return found


def begun_at(pid):
    """When the process was started, in seconds of the clock."""
    with open("/proc/uptime") as f:
        up = float(f.read().split()[0])
    return time.time() - up + int(stat_of(pid)[19]) / TICKS


def save(measured):
    with open(STATE + ".new", "w") as f:
        json.dump(measured, f)
    os.replace(STATE + ".new", STATE)


def watch(running):
    """Notes what the processes of the runs use until none runs; running tells which do."""
    used, wholes = {}, {}
    commit = subprocess.run(["git", "rev-parse", "--short", "HEAD"], cwd=TOP, capture_output=True, text=True).stdout.strip()
    measured = {"used": used, "whole": 0, "wall": 0, "over": False, "commit": commit or "(no commit)", "processors": os.cpu_count()}
    begun, rounds = time.time(), 0
    while gates := running():
        for gate in gates:
            try:
                begun = min(begun, begun_at(gate))
                under = below(gate)
            except OSError:
                continue
            for pid in under:
                look(pid, used)
            wholes[gate] = max(wholes.get(gate, 0), whole(under))
        measured["whole"] = sum(wholes.values())
        measured["wall"] = (time.time() - begun) / 60
        rounds += 1
        if rounds % 30 == 1:
            save(measured)
        time.sleep(1)
    measured["over"] = True
    save(measured)


def is_gone(gate):
    """Whether the process has ended: it is no more, or only waits to be collected."""
    try:
        return stat_of(gate)[0] == "Z"
    except OSError:
        return True


def crates():
    """The crates of the repository in their order, each after those that it stands on."""
    with open(os.path.join(TOP, "crates.txt")) as f:
        lines = [line for line in f if ":" in line and not line.startswith("#")]
    return [line.split(":")[0].split()[0] for line in lines]


def texts(crate, folder, ending):
    """The files below a folder of the crate, with their texts."""
    found = {}
    for at, folders, names in os.walk(os.path.join(TOP, "crates", crate, folder)):
        for name in names:
            if name.endswith(ending):
                with open(os.path.join(at, name), encoding="utf-8", errors="replace") as f:
                    found[os.path.join(at, name)] = f.read()
    return found


def printed(crate):
    """What the crate's program has to print."""
    try:
        with open(os.path.join(TOP, "crates", crate, "stdout"), encoding="utf-8") as f:
            return f.read()
    except FileNotFoundError:
        return ""


def counts(crate):
    """Lines of code, of definitions and of proofs; how many test functions, tests and edits."""
    source = texts(crate, "src", ".rt")
    every = "\n".join(source.values())
    tested = set(re.findall(r"#\[cfg\(test\)\]\s*(?:pub(?:\(crate\))? )?mod (\w+);", every))
    lines = lambda them: sum(text.count("\n") for text in them)
    code = lines(text for path, text in source.items() if os.path.splitext(os.path.basename(path))[0] not in tested)
    rows = sum(len(re.findall(r"(?m)^row ", text)) for text in texts(crate, "data", "").values())
    rows += sum(int(count) for count in re.findall(r"(?m)^\w+: (\d+) rows, 0 wrong$", printed(crate)))
    return {
        "code": code,
        "definitions": lines(texts(crate, "specs", ".antt").values()),
        "proofs": lines(texts(crate, "proofs", ".antt").values()),
        "functions": len(re.findall(r"(?m)^\s*#\[test\]", every)),
        "tests": len(re.findall(r"(?m)^\s*#\[test\]", every)) + rows,
        "edits": len(texts(crate, "must-fail", ".edit")),
    }


COUNTS = ("code", "definitions", "proofs", "tests", "edits")


def told(page):
    """The minutes that the page's table has, by crate and part."""
    minutes = collections.defaultdict(collections.Counter)
    for line in page.split("\n"):
        cells = [cell.strip() for cell in line.strip().strip("|").split("|")]
        if len(cells) == 2 + len(COUNTS) + len(PARTS) and cells[0].startswith("`"):
            for part, cell in zip(PARTS, cells[1 + len(COUNTS) :]):
                minutes[cells[0].strip("`")][part] = float(cell) if cell != "-" else 0
    return minutes


def table(measured, page):
    """The lines of the table, with what the page has of the crates that were not measured."""
    seen = collections.defaultdict(collections.Counter)
    for crate, part, so_far in measured.get("used", {}).values():
        seen[crate][part] += so_far
    minutes = told(page)
    for crate, parts in seen.items():
        for part, it in parts.items():
            if it >= 0.05:
                minutes[crate][part] = it
    number = lambda it: f"{it:.1f}" if it >= 0.05 else "-"
    heads = ["crate", *COUNTS, "proof", "tests", "seed", "edits", "in all"]
    out = ["| " + " | ".join(heads) + " |", "|---|" + "---:|" * (len(heads) - 1)]
    sums, total = collections.Counter(), collections.Counter()
    for crate in crates():
        count = counts(crate)
        sums.update(count)
        # What a crate no longer has costs nothing.
        if not count["functions"]:
            minutes[crate]["tests"] = 0
        if not count["edits"]:
            minutes[crate]["seed"] = minutes[crate]["edits"] = 0
        total.update(minutes[crate])
        cells = [f"`{crate}`", *(f"{count[it]:,}" for it in COUNTS), *(number(minutes[crate][it]) for it in PARTS)]
        out.append("| " + " | ".join([*cells, number(sum(minutes[crate].values()))]) + " |")
    cells = ["**in all**", *(f"{sums[it]:,}" for it in COUNTS), *(number(total[it]) for it in PARTS), number(sum(total.values()))]
    out.append("| " + " | ".join(cells) + " |")
    if not measured:
        return ["No run was measured since.", "", *out]
    end = "" if measured["over"] else " It had not ended when this was written."
    rest = max(0, measured["whole"] - sum(sum(parts.values()) for parts in seen.values()))
    said = (
        f"The last run that was measured, at commit {measured['commit']}, took {measured['whole']:.0f} processor minutes on "
        f"{measured['processors']} processors, and {measured['wall']:.0f} minutes of the clock.{end} It proved "
        f"{sum(parts['proof'] >= 0.05 for parts in seen.values())} of {len(crates())} crates; what it took over has the minutes of the run that "
        f"proved or tried it last. {rest:.0f} of its minutes are of no line below: compiling, running tests and programs, and the last second of each check."
    )
    return [said, "", *out]


def write_table():
    """Puts the table into docs/GATE.md, in place of the one that stands there."""
    measured = {}
    if os.path.exists(STATE):
        with open(STATE) as f:
            measured = json.load(f)
    with open(PAGE, encoding="utf-8") as f:
        page = f.read()
    before, after = page.split(BEGIN)[0], page.split(END)[1]
    with open(PAGE, "w", encoding="utf-8") as f:
        f.write("\n".join([before + BEGIN, "", *table(measured, page), "", END + after]))
    return measured


def main():
    words = sys.argv[1:]
    if words[:1] in (["-h"], ["--help"]):
        print(__doc__.strip())
        return 0
    signal.signal(signal.SIGTERM, signal.default_int_handler)
    if words[:1] == ["table"]:
        write_table()
        return 0
    status = 0
    try:
        if words[:1] == ["watch"]:
            if len(words) > 1:
                watch(lambda: [] if is_gone(int(words[1])) else [int(words[1])])
            else:
                awaited_gates()
                watch(found_gates)
        else:
            log = words[0] if words else os.path.join(tempfile.gettempdir(), "gate.log")
            with open(log, "w") as out:
                run = subprocess.Popen(["rt", "ci"], cwd=TOP, stdout=out, stderr=subprocess.STDOUT)
                watch(lambda: [run.pid] if run.poll() is None else [])
            status = run.returncode
    except KeyboardInterrupt:
        status = 130
    measured = write_table()
    print(f"{measured.get('whole', 0):.1f} processor minutes, {measured.get('wall', 0):.1f} of the clock; the table is in docs/GATE.md")
    return status


if __name__ == "__main__":
    sys.exit(main())
