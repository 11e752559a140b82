#!/usr/bin/env python3
"""Times `totem script` on scripts of several lengths, the longest as long as a script may be.

    bench/scripts.py PROGRAM [RUNS]

PROGRAM is the built program. Each script forms a ring of one node and then has, in turn, a `call` and a `deliver`
line. For each length, the best of RUNS runs is told: events, seconds, microseconds and bytes of memory for each
event, and that time by the shortest script's. The last figure stays near 1 where time grows linearly.
"""
import os
import subprocess
import sys
import tempfile
import time

LONGEST = 1_048_576
PARTS = [10, 5, 2, 1]
OPENING = ["nodes 1", "timeout 1 join", "deliver 1 1", "deliver 1 2", "deliver 1 3", "deliver 1 4"]


def script_of(length):
    """A script of at most this many bytes, and how many events it has."""
    lines = list(OPENING)
    size = sum(len(line) + 1 for line in lines)
    number = 0
    while True:
        number += 1
        pair = [f"call 1 7 {number} add 0 1", f"deliver 1 {number + 4}"]
        size += sum(len(line) + 1 for line in pair)
        if size > length:
            return "\n".join(lines) + "\n", len(lines) - 1
        lines += pair


def run(program, path):
    """How many seconds a run takes, and how many bytes of memory it has at most."""
    begin = time.perf_counter()
    child = subprocess.Popen([program, "script", path], stdout=subprocess.DEVNULL)
    _, status, used = os.wait4(child.pid, 0)
    seconds = time.perf_counter() - begin
    if status != 0:
        sys.exit(f"{path}: status {status}")
    return seconds, used.ru_maxrss * 1024


def main():
    program = sys.argv[1]
    runs = int(sys.argv[2]) if len(sys.argv) > 2 else 9
    shortest = None
    print("| Bytes | Events | Seconds | Microseconds an event | Bytes of memory an event | Time an event, by the first |")
    print("|---|---|---|---|---|---|")
    with tempfile.TemporaryDirectory() as folder:
        path = os.path.join(folder, "bench.script")
        for part in PARTS:
            text, events = script_of(LONGEST // part)
            with open(path, "w") as file:
                file.write(text)
            results = [run(program, path) for _ in range(runs)]
            seconds = min(seconds for seconds, _ in results)
            memory = min(memory for _, memory in results)
            each = seconds / events
            shortest = shortest or each
            print(f"| {len(text):,} | {events:,} | {seconds:.3f} | {each * 1e6:.2f} | {memory / events:,.0f} | {each / shortest:.2f} |")


if __name__ == "__main__":
    main()
