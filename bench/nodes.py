#!/usr/bin/env python3
"""Counts what an event costs `totem script`, over worlds of one, three and sixteen nodes.

    bench/nodes.py PROGRAM [FEW]
    bench/nodes.py PROGRAM --loads

PROGRAM is the built program. For each number of nodes there are three cases: the token alone (`idle`), a call at each
node in each round of the token (`calls`), and a change of rings every thousand events (`changes`). Each is run by
callgrind with FEW events, 5,000 where no number is given, and with ten times as many, once the nodes have settled;
what start, settling and the last `show` cost is counted by a run of its own, and left out. Told are the instructions
for an event, few and many, and the second by the first, which stays near 1 where an event costs the same however long
the run. The bytes of memory are those of a run as long as a script allows, at most a hundred times FEW events, by the
number of its events.

With `--loads` seven loads of some 20,000 events are counted, by themselves too: the token alone, one call at a time, and 64
calls at each node, of which all are answered before the next 64 come.
"""
import os
import subprocess
import sys
import tempfile

NODES = (1, 3, 16)
CASES = ("idle", "calls", "changes")
# A world of sixteen nodes has settled by then.
SETTLING = 5_000
BETWEEN = 1_000
# A script may have so many bytes.
LONGEST = 1_048_576
HEADS = [
    "Nodes",
    "Case",
    "Events",
    "Instructions an event",
    "Ten times the events",
    "The second by the first",
    "Bytes an event",
]


def pumps(turns):
    """Lines that take so many turns."""
    return ["pump %d" % min(100_000, turns - done) for done in range(0, turns, 100_000)]


def opening(nodes):
    """All nodes begin, and settle."""
    return ["nodes %d" % nodes] + ["timeout %d join" % node for node in range(1, nodes + 1)] + pumps(SETTLING)


def calls(nodes, events):
    """In each round of the token each node is called once. Each call goes to all others, and the token to each."""
    lines, done, number = [], 0, 0
    while done < events:
        number += 1
        lines += ["call %d %d %d add 0 1" % (node, node, number) for node in range(1, nodes + 1)]
        lines.append("pump %d" % (nodes * nodes))
        done += nodes + nodes * nodes
    return lines, done


def changes(nodes, events):
    """Every thousand events the first node misses the token, and a new ring is formed."""
    lines, done = [], 0
    while done < events:
        lines += ["timeout 1 loss", "pump %d" % (BETWEEN - 1)]
        done += BETWEEN
    return lines, done


def case_of(kind, nodes, events):
    """The lines of a case, and how many events they have."""
    if kind == "idle":
        return pumps(events), events
    return (calls if kind == "calls" else changes)(nodes, events)


def instructions(program, path):
    words = ["valgrind", "--tool=callgrind", "--callgrind-out-file=/dev/null", program, "script", path]
    ran = subprocess.run(words, stdout=subprocess.DEVNULL, stderr=subprocess.PIPE, text=True)
    if ran.returncode != 0:
        sys.exit("%s: status %d\n%s" % (path, ran.returncode, ran.stderr))
    return int(ran.stderr.split("Collected :")[1].split()[0])


# A child's count begins with the memory of who starts it, so a process of its own starts the program.
MEASURED = """
import os, sys
quiet = [(os.POSIX_SPAWN_OPEN, 1, os.devnull, os.O_WRONLY, 0)]
child = os.posix_spawn(sys.argv[1], [sys.argv[1], "script", sys.argv[2]], os.environ, file_actions=quiet)
_, status, used = os.wait4(child, 0)
print(used.ru_maxrss * 1024)
sys.exit(status != 0)
"""


def memory(program, path):
    """How many bytes of memory a run has at most."""
    ran = subprocess.run([sys.executable, "-c", MEASURED, program, path], stdout=subprocess.PIPE, text=True)
    if ran.returncode != 0:
        sys.exit("%s: status %d" % (path, ran.returncode))
    return int(ran.stdout)


def written(folder, lines):
    """The path of a script of these lines."""
    path = os.path.join(folder, "bench.script")
    with open(path, "w") as file:
        file.write("\n".join(lines + ["show"]) + "\n")
    return path


def bytes_of(program, folder, kind, nodes, few):
    """Bytes of memory by the events of the longest script."""
    for times in (100, 30, 10):
        lines, done = case_of(kind, nodes, times * few)
        path = written(folder, opening(nodes) + lines)
        if os.path.getsize(path) <= LONGEST:
            return memory(program, path) / done
    sys.exit("%d events are too many" % few)


def row_of(program, folder, kind, nodes, few, begun):
    """A row of the table, where the nodes settle by so many instructions."""
    costs = []
    for events in (few, 10 * few):
        lines, done = case_of(kind, nodes, events)
        took = instructions(program, written(folder, opening(nodes) + lines))
        costs.append(((took - begun) / done, done))
    (one, first), (ten, _) = costs
    held = bytes_of(program, folder, kind, nodes, few)
    return [nodes, kind, f"{first:,}", f"{one:,.0f}", f"{ten:,.0f}", f"{ten / one:.2f}", f"{held:,.0f}"]


def calls_alone(nodes, turns, events):
    """One call at a time, at each node in turn, and so many turns behind each."""
    lines = []
    for place in range(events // (1 + turns)):
        node, number = place % nodes + 1, place // nodes + 1
        lines += ["call %d %d %d add 0 1" % (node, node, number), "pump %d" % turns]
    return lines


def calls_delivered(events):
    """At one node: a call, and its two deliveries, a line each. There each turn of the token sends one frame."""
    lines = []
    for place in range(events // 3):
        frame = SETTLING + 1 + 2 * place
        lines += ["call 1 1 %d add 0 1" % (place + 1), "deliver 1 %d" % frame, "deliver 1 %d" % (frame + 1)]
    return lines


def waves(nodes, turns, many):
    """64 calls at each node, and so many turns, so many times."""
    lines = []
    for wave in range(many):
        for node in range(1, nodes + 1):
            lines += ["call %d %d %d add 0 1" % (node, node, 64 * wave + place) for place in range(1, 65)]
        lines.append("pump %d" % turns)
    return lines


def turns_of(program, folder, nodes):
    """How many turns it takes until 64 calls at each node are answered, where they come one wave behind the other."""
    for turns in range(2, 200):
        ran = subprocess.run([program, "script", written(folder, opening(nodes) + waves(nodes, turns, 4))], capture_output=True, text=True)
        if ran.stdout.count("reply") == 4 * 64 * nodes:
            return turns
    sys.exit("64 calls are not answered")


def print_loads(program, folder, events=20_000):
    one, three = (turns_of(program, folder, nodes) for nodes in (1, 3))
    begun = {nodes: instructions(program, written(folder, opening(nodes))) for nodes in (1, 3)}
    loads = [
        (1, "the token alone", pumps(events), events),
        (3, "the token alone", pumps(events), events),
        (1, "a call, and two turns", calls_alone(1, 2, events), events // 3 * 3),
        (1, "a call, and its two deliveries, a line each", calls_delivered(events), events // 3 * 3),
        (3, "one call at a time, at each node in turn, and eight turns", calls_alone(3, 8, events), events // 9 * 9),
        (1, "64 calls, and %d turns" % one, waves(1, one, events // (64 + one)), events // (64 + one) * (64 + one)),
        (3, "64 calls at each node, and %d turns" % three, waves(3, three, events // (192 + three)), events // (192 + three) * (192 + three)),
    ]
    print("| Nodes | Load | Events | Instructions an event |\n|---|---|---|---|")
    for nodes, kind, lines, done in loads:
        took = instructions(program, written(folder, opening(nodes) + lines)) - begun[nodes]
        print(f"| {nodes} | {kind} | {done:,} | {took / done:,.0f} |", flush=True)


def main():
    program = sys.argv[1]
    if sys.argv[2:] == ["--loads"]:
        with tempfile.TemporaryDirectory() as folder:
            print_loads(program, folder)
        return
    few = int(sys.argv[2]) if len(sys.argv) > 2 else 5_000
    print("| " + " | ".join(HEADS) + " |")
    print("|" + "---|" * len(HEADS))
    with tempfile.TemporaryDirectory() as folder:
        for nodes in NODES:
            begun = instructions(program, written(folder, opening(nodes)))
            for kind in CASES:
                row = row_of(program, folder, kind, nodes, few, begun)
                print("| " + " | ".join(map(str, row)) + " |", flush=True)


if __name__ == "__main__":
    main()
