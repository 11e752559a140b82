#!/usr/bin/env python3
"""Counts what `totem script --check` takes beside `totem script`.

    bench/checker.py PROGRAM

PROGRAM is the built program. Each script is run by callgrind without `--check` and with it, and the instructions of both and the second
by the first are told: calls that one node takes sixty at a time, of one client and of a thousand, 10,000 of them and as many as a script
may hold; calls with a delivery behind each, as in `scripts.py`; the same at three nodes, with turns until all are answered; and a made
script of 10,000 lines.
"""
import os
import re
import subprocess
import sys
import tempfile

# A script may have so many bytes.
LONGEST = 1_048_576
# So many calls are given to a node before it takes turns.
AT_ONCE = 60


def opening(nodes):
    """All nodes begin, and form a ring."""
    return ["nodes %d" % nodes] + ["timeout %d join" % node for node in range(1, nodes + 1)] + ["pump 200"]


def calls(nodes, clients, most, turns):
    """Calls of so many clients at each node, up to this many or up to a script's end."""
    lines, numbers, given = opening(nodes), {}, 0
    size = sum(len(line) + 1 for line in lines)
    while given < most and size < LONGEST - 100 * AT_ONCE * nodes:
        part = []
        for place in range(AT_ONCE * nodes):
            node = place % nodes + 1
            client = (given + place) // nodes % clients * nodes + node
            numbers[client] = numbers.get(client, 0) + 1
            part.append("call %d %d %d add 0 1" % (node, client, numbers[client]))
        part.append("pump %d" % turns)
        given += AT_ONCE * nodes
        lines += part
        size += sum(len(line) + 1 for line in part)
    return "\n".join(lines + ["pump 2000"]) + "\n", given


def pairs():
    """A call and a delivery in turn, at one node, as long as a script may be."""
    lines = ["nodes 1", "timeout 1 join"] + ["deliver 1 %d" % frame for frame in range(1, 5)]
    size, given = sum(len(line) + 1 for line in lines), 0
    while True:
        pair = ["call 1 7 %d add 0 1" % (given + 1), "deliver 1 %d" % (given + 5)]
        size += sum(len(line) + 1 for line in pair)
        if size > LONGEST:
            return "\n".join(lines) + "\n", given
        lines += pair
        given += 1


def instructions(program, words):
    """How many instructions the program takes."""
    with tempfile.TemporaryDirectory() as folder:
        told = subprocess.run(
            ["valgrind", "--tool=callgrind", "--callgrind-out-file=%s/out" % folder, program, *words],
            stdout=subprocess.DEVNULL,
            stderr=subprocess.PIPE,
            text=True,
            check=True,
        ).stderr
    return int(re.search(r"Collected : (\d+)", told).group(1))


def cases(program):
    """The name of each case, its script, and how many calls that has."""
    for most in (10_000, 100_000):
        yield ("one node, one client", *calls(1, 1, most, 4))
        yield ("one node, 1,000 clients", *calls(1, 1_000, most, 4))
    yield ("one node, a delivery behind each call", *pairs())
    yield ("three nodes", *calls(3, 1, 10_000, 900))
    made = subprocess.run(
        [program, "gen", "--nodes", "5", "--seed", "7", "--events", "10000"], stdout=subprocess.PIPE, text=True, check=True
    ).stdout
    yield ("made, 10,000 lines, five nodes", made, len(re.findall("^call ", made, re.MULTILINE)))


def main():
    program = sys.argv[1]
    print("| Script | Calls | `script` | `script --check` | The second by the first |")
    print("|---|---|---|---|---|")
    with tempfile.TemporaryDirectory() as folder:
        path = os.path.join(folder, "bench.script")
        for name, text, given in cases(program):
            with open(path, "w") as file:
                file.write(text)
            plain = instructions(program, ["script", path])
            checked = instructions(program, ["script", "--check", path])
            print(f"| {name} | {given:,} | {plain:,} | {checked:,} | {checked / plain:.2f} |", flush=True)


if __name__ == "__main__":
    main()
