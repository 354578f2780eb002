#!/usr/bin/env python3
"""Tries a native host that echoes in Chromium (package chromium), headless.

    tools/in_chromium.py HOST_MANIFEST

A small extension sends `{"op":"ping"}`, 2,000 messages in order, a text of 1,048,576 bytes and one of a byte more, and
compares what comes back; the last has to end the host. The host's manifest is copied with that extension as the only
one allowed. Ends with status 1 where an answer is wrong, and with 0 and a word where there is no Chromium.
"""
import hashlib
import http.server
import json
import os
import shutil
import subprocess
import sys
import tempfile
import threading

WORKER = """
const host = HOST, report = REPORT;
const text = (bytes) => "x".repeat(bytes - 2);
function tell(results) { return fetch(report, {method: "POST", body: JSON.stringify(results)}); }
function echoed(messages, ends) {
  return new Promise((done) => {
    const port = chrome.runtime.connectNative(host);
    let at = 0;
    port.onMessage.addListener((message) => {
      if (JSON.stringify(message) !== JSON.stringify(messages[at])) { port.disconnect(); done(false); return; }
      at += 1;
      if (at === messages.length) { port.disconnect(); done(!ends); }
    });
    port.onDisconnect.addListener(() => done(ends && at === messages.length - 1));
    for (const message of messages) { port.postMessage(message); }
  });
}
(async () => tell({
  "a ping": await echoed([{op: "ping"}], false),
  "2,000 messages in order": await echoed(Array.from({length: 2000}, (_, i) => ({number: i})), false),
  "1,048,576 bytes": await echoed([text(1048576)], false),
  "a byte more ends the host": await echoed([1, text(1048577)], true),
}))();
"""


class Told(http.server.BaseHTTPRequestHandler):
    def do_POST(self):
        self.server.results = json.loads(self.rfile.read(int(self.headers["Content-Length"])))
        self.send_response(204)
        self.end_headers()
        threading.Thread(target=self.server.shutdown, daemon=True).start()

    def log_message(self, *_):
        pass


def unpacked_id(folder):
    digest = hashlib.sha256(folder.encode()).hexdigest()[:32]
    return "".join(chr(ord("a") + int(digit, 16)) for digit in digest)


def try_host(chromium, host, folder):
    server = http.server.HTTPServer(("127.0.0.1", 0), Told)
    server.results = None
    report = f"http://127.0.0.1:{server.server_port}/"
    extension, profile = os.path.join(folder, "extension"), os.path.join(folder, "profile")
    hosts = os.path.join(profile, "NativeMessagingHosts")
    os.makedirs(extension)
    os.makedirs(hosts)
    with open(os.path.join(extension, "manifest.json"), "w") as file:
        json.dump({"manifest_version": 3, "name": "Echo", "version": "1", "permissions": ["nativeMessaging"],
                   "host_permissions": ["http://127.0.0.1/*"], "background": {"service_worker": "worker.js"}}, file)
    with open(os.path.join(extension, "worker.js"), "w") as file:
        file.write(WORKER.replace("HOST", json.dumps(host["name"])).replace("REPORT", json.dumps(report)))
    host = dict(host, allowed_origins=[f"chrome-extension://{unpacked_id(extension)}/"])
    with open(os.path.join(hosts, host["name"] + ".json"), "w") as file:
        json.dump(host, file)
    browser = subprocess.Popen([chromium, "--headless=new", "--no-sandbox", "--no-first-run", "--disable-gpu",
                                f"--user-data-dir={profile}", f"--load-extension={extension}", "about:blank"],
                               stdout=subprocess.DEVNULL, stderr=subprocess.DEVNULL)
    limit = threading.Timer(60, server.shutdown)
    limit.start()
    server.serve_forever()
    limit.cancel()
    browser.terminate()
    browser.wait()
    return server.results


def main():
    if len(sys.argv) != 2:
        print(__doc__.strip())
        sys.exit(2)
    chromium = shutil.which("chromium")
    if chromium is None:
        print("no chromium here: skipped")
        sys.exit(0)
    with open(sys.argv[1]) as file:
        host = json.load(file)
    with tempfile.TemporaryDirectory(ignore_cleanup_errors=True) as folder:
        results = try_host(chromium, host, os.path.realpath(folder))
    for what, right in (results or {"an answer within 60 seconds": False}).items():
        print(f"{what}: {'right' if right else 'WRONG'}")
    sys.exit(0 if results and all(results.values()) else 1)


main()
