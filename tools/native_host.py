#!/usr/bin/env python3
"""Runs a native messaging host that Debian has, by its own manifest, under the built program, and prints the journal.

    tools/native_host.py [MANIFEST [JSON ..]]

MANIFEST is that of browserpass (package webext-browserpass) where none is given; each JSON is a message, and where
none is given browserpass is asked for its version. The first origin that the manifest allows is the caller. A second
extension, which the manifest does not allow, calls as well, and has to be refused. Ends with status 1 where the run
did not end well or the host said nothing, and with 2 where there is no such manifest or program.
"""
import json
import os
import subprocess
import sys
import tempfile

TOP = os.path.dirname(os.path.dirname(os.path.abspath(__file__)))
PROGRAM = os.environ.get("WX_PROGRAM", os.path.join(TOP, "crates", "wx", "out", "wx"))
MANIFEST = "/etc/chromium/native-messaging-hosts/com.github.browserpass.native.json"
QUESTION = '{"action":"configure","settings":{},"defaultStoreSettings":{}}'
HELPER = {"manifest_version": 3, "name": "Helper", "version": "1.0", "permissions": ["nativeMessaging"]}


def scene_of(manifest, host, messages):
    ident = host["allowed_origins"][0].split("/")[2]
    other = "a" * 32 if ident != "a" * 32 else "b" * 32
    lines = ["wx scene 1 chrome", f"extension helper {ident} helper.json", f"extension other {other} helper.json",
             f"host {manifest}", "page w helper /w"]
    for number, message in enumerate(messages):
        lines += [f"  ask r{number} {host['name']} {message}", f"  await reply r{number}"]
    return "\n".join(lines + ["page q other /q", f"  ask r {host['name']} 1", ""])


def main():
    manifest = os.path.abspath(sys.argv[1]) if len(sys.argv) > 1 else MANIFEST
    messages = sys.argv[2:] or [QUESTION]
    if not os.path.isfile(manifest):
        print(f"{manifest} is not there: install the package of the host (webext-browserpass)")
        sys.exit(2)
    with open(manifest) as file:
        host = json.load(file)
    if not os.access(host["path"], os.X_OK):
        print(f"{host['path']}, of {manifest}, may not be run")
        sys.exit(2)
    with tempfile.TemporaryDirectory() as folder:
        with open(os.path.join(folder, "helper.json"), "w") as file:
            json.dump(HELPER, file)
        run = subprocess.run([PROGRAM, "run", "--rounds", "-"], input=scene_of(manifest, host, messages).encode(),
                             cwd=folder, stdout=subprocess.PIPE)
    sys.stdout.write(run.stdout.decode(errors="replace"))
    said = run.stdout.count(b" host_said ")
    refused = run.stdout.count(b" -> host_forbidden")
    print(f"status {run.returncode}, {said} of {len(messages)} messages answered, other callers refused: {refused == 1}")
    sys.exit(0 if run.returncode == 0 and said == len(messages) and refused == 1 else 1)


main()
