#!/usr/bin/env python3
"""Counts the instructions that `totem frames` takes for a frame of each kind, by callgrind.

    bench/listing.py PROGRAM
    bench/listing.py --write NAME FILE

PROGRAM is the built program. For each kind it lists files of 1,000 and of 4,000 equal frames under valgrind, and tells
the difference by the frame, so start and end of the program are not in it. With --write a megabyte of the frames of
one name goes into a file, to be timed. Where a name has two kinds, they come in turn, and the figure is for both.
"""
import os
import re
import subprocess
import sys
import tempfile

FEW = 1_000
MANY = 4_000
MEGABYTE = 1_000_000
MESSAGE, TOKEN, JOIN, COMMIT = 1, 2, 3, 4


def number(value, length):
    return value.to_bytes(length, "big")


def ring(value, representative):
    return number(value, 8) + number(representative, 1)


def frame(kind, body, version=1):
    return b"TR" + number(version, 1) + number(kind, 1) + number(len(body), 4) + body


def message(payload, version=1):
    """Message 3 of ring 2.1 from 1."""
    return frame(MESSAGE, ring(2, 1) + number(3, 8) + number(1, 1) + payload, version)


def token(requests):
    """Token 4 of ring 1.1, with the numbers 9, 10 and so on asked for, or with none."""
    aru, lowered_by = (8, 2) if requests else (100, 0)
    body = ring(1, 1) + number(4, 8) + number(100, 8) + number(aru, 8) + number(lowered_by, 1) + number(requests, 1)
    return frame(TOKEN, body + b"".join(number(9 + i, 8) for i in range(requests)))


def commit(members, held=bytes(32)):
    """The commit token of ring 9.1 with an entry of each of so many members, which were in ring 1.1."""
    entry = ring(1, 1) + number(8, 8) + number(8, 8) + held
    return frame(COMMIT, ring(9, 1) + number(2**members - 1, 2) + number(members, 1) + members * entry)


def call(length):
    return number(7, 4) + number(1, 8) + number(length, 2) + bytes(length)


HEAD = ring(4, 1) + number(3, 8) + number(2, 8)
END = message(b"\x03")
JOINED = frame(JOIN, number(2, 1) + number(5, 8) + number(7, 2) + number(4, 2))
FRAMES = {
    "End": [END],
    "Join": [JOINED],
    "Head": [message(b"\x04" + HEAD)],
    "Token without requests": [token(0)],
    "Call of 16 bytes": [message(b"\x01" + call(16))],
    "trimmed Head": [message(b"\x07" + HEAD + number(1, 8), 3)],
    "Snap": [message(b"\x08" + number(256, 8) + number(7002, 4) + number(7000, 4) + number(2, 2) + b"\xab\xcd", 3)],
    "Pack of two calls": [message(b"\x06\x02" + 2 * call(16), 2)],
    "Part of two calls": [message(b"\x05" + number(0, 8) + b"\x02" + 2 * call(16))],
    "Token with four requests": [token(4)],
    "wrapped Call": [message(b"\x02" + ring(1, 1) + number(3, 8) + number(1, 1) + b"\x01" + call(16))],
    "commit token with one entry": [commit(1)],
    "commit token with one entry, all 255 held": [commit(1, b"\xfe" + 31 * b"\xff")],
    "commit token with four entries": [commit(4)],
    "Token without requests, and an End": [token(0), END],
    "commit token with one entry, and a Join": [commit(1), JOINED],
}


def instructions(program, folder, frames, count):
    """How many instructions the program takes for so many frames."""
    path = os.path.join(folder, "bench.frames")
    with open(path, "wb") as file:
        for _ in range(count):
            file.write(b"".join(frames))
    words = ["valgrind", "--tool=callgrind", "--callgrind-out-file=/dev/null", program, "frames", path]
    done = subprocess.run(words, cwd=folder, stdout=subprocess.DEVNULL, stderr=subprocess.PIPE, text=True)
    if done.returncode != 0:
        sys.exit(f"{program}: status {done.returncode}\n{done.stderr}")
    return int(re.search(r"Collected : (\d+)", done.stderr).group(1))


def main():
    if sys.argv[1] == "--write":
        frames = b"".join(FRAMES[sys.argv[2]])
        with open(sys.argv[3], "wb") as file:
            file.write(frames * (MEGABYTE // len(frames)))
        return
    program = os.path.abspath(sys.argv[1])
    print("| Frame | Instructions |")
    print("|---|---|")
    with tempfile.TemporaryDirectory() as folder:
        for name, frames in FRAMES.items():
            few = instructions(program, folder, frames, FEW)
            many = instructions(program, folder, frames, MANY)
            print(f"| {name} | {(many - few) / (MANY - FEW):,.0f} |", flush=True)


if __name__ == "__main__":
    main()
