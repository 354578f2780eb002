#!/usr/bin/env python3
"""A native messaging host that sends each message back, until its input ends."""
import sys


def main():
    source, sink = sys.stdin.buffer, sys.stdout.buffer
    while True:
        head = source.read(4)
        if len(head) < 4:
            return
        sink.write(head + source.read(int.from_bytes(head, sys.byteorder)))
        sink.flush()


main()
