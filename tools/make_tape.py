#!/usr/bin/env python3
"""Makes a tape of requests in words: reads lines as `tapedump` prints them, without their numbers, and writes the tape's bytes.

    tools/make_tape.py < examples/mileage.words > examples/mileage.tape

A line `bytes 07 00 ..` puts bytes as they are, for damaged tapes.
"""
import re
import sys

FORMS = [
    (1, r"open subject (\d+)", (2,)),
    (2, r"deploy transaction (\d+) policy (\d+)", (2, 2)),
    (3, r"read transaction (\d+) cell (\d+)", (2, 2)),
    (4, r"write transaction (\d+) cell (\d+) value (\d+)", (2, 2, 4)),
    (5, r"show transaction (\d+) policy (\d+)", (2, 2)),
    (6, r"set transaction (\d+) policy (\d+) right (\d+)", (2, 2, 4)),
    (7, r"commit transaction (\d+)", (2,)),
    (8, r"give up transaction (\d+)", (2,)),
]


def record(line):
    if line.startswith("bytes "):
        return bytes.fromhex(line[6:])
    for tag, form, sizes in FORMS:
        match = re.fullmatch(form, line)
        if match:
            content = b"".join(int(n).to_bytes(size, "big") for n, size in zip(match.groups(), sizes))
            return bytes([tag]) + len(content).to_bytes(2, "big") + content
    sys.exit(f"no request: {line}")


for text in sys.stdin:
    if text.strip():
        sys.stdout.buffer.write(record(text.strip()))
