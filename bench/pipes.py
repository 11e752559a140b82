#!/usr/bin/env python3
"""Runs scripts over pipes: a `totem node` for each node of a script, which is driven by records.

    bench/pipes.py TOTEM SCRIPT ..

The frames that the nodes send are handed over here, as docs/FORMATS.md says of scripts and of the pump. What comes of a
script is to be, byte for byte, what `totem script` prints of it. The status is 1 where it is not.
"""
import subprocess
import sys
from dataclasses import dataclass
from pathlib import Path

KINDS = {"retransmit": 0, "join": 1, "consensus": 2, "loss": 3}
STATES = ["gather", "commit", "recovery", "operational", "stopped"]
ANSWERS = {b"D": "done", b"K": "kept"}
MOST_CLIENTS = 1024
SHORT = {  # object and code of each operation, and how many bytes its numbers take
    "get": (0, 1, [1]), "put": (0, 2, [1, 8]), "cas": (0, 3, [1, 8, 8]), "add": (1, 1, [1, 8]), "read": (1, 2, [1]),
    "push": (2, 1, [8]), "pop": (2, 2, []), "length": (2, 3, []),
}
NAMES = {"insert": 1, "remove": 2, "has": 3}


def operation(words):
    """The bytes of the operation that these words say."""
    if words[0] == "raw":
        return bytes.fromhex(words[1])
    if words[0] in NAMES:
        return bytes([3, NAMES[words[0]]]) + words[1].encode()
    place, code, widths = SHORT[words[0]]
    return bytes([place, code]) + b"".join(int(word).to_bytes(width, "big") for word, width in zip(words[1:], widths))


def number(record):
    return int.from_bytes(record, "big")


def effects(calls):
    """How many of the committed calls take effect: each whose number is the next of its client, of 1,024 clients at most."""
    last = {}
    for client, count in calls:
        if count == last.get(client, 0) + 1 and (client in last or len(last) < MOST_CLIENTS):
            last[client] = count
    return sum(last.values())


@dataclass
class Frame:
    sender: int
    receivers: int
    spelled: bytes

    def goes_to(self, node):
        return self.receivers >> (node - 1) & 1


class Node:
    """A process that runs one node."""

    def __init__(self, totem, me, of, votes):
        words = [totem, "node", "--me", str(me), "--of", str(of)] + (["--votes", ",".join(votes)] if votes else [])
        self.me = me
        self.calls = {}
        self.committed = []
        self.process = subprocess.Popen(words, stdin=subprocess.PIPE, stdout=subprocess.PIPE)

    def ask(self, kind, record=b""):
        """What the node tells of this input: all its records but the last."""
        self.process.stdin.write(kind + len(record).to_bytes(2, "big") + record)
        self.process.stdin.flush()
        told = []
        while True:
            head = self.process.stdout.read(3)
            if len(head) < 3:
                sys.exit(f"node {self.me} ended")
            record = self.process.stdout.read(number(head[1:]))
            if head[:1] == b"E":
                return told
            told.append((head[:1], record))

    def end(self):
        self.process.stdin.close()
        return self.process.wait(10)


class Run:
    """The nodes of a script, the frames that they sent, and the copies that are under way."""

    def __init__(self, totem, lines):
        self.lines = [line.split(" ") for line in lines if line and not line.startswith("#")]
        count = int(self.lines.pop(0)[1])
        votes = self.lines.pop(0)[1:] if self.lines and self.lines[0][0] == "votes" else []
        self.nodes = {me: Node(totem, me, count, votes) for me in range(1, count + 1)}
        self.frames = []
        self.open = []
        self.groups = None
        self.printed = []

    def happen(self, me, kind, record=b"", call=None):
        """Hands a node an input, and prints what its clients are told."""
        node = self.nodes[me]
        for told, record in node.ask(kind, record):
            if told == b"F":
                self.frames.append(Frame(me, number(record[:2]), record[2:]))
                self.open += [(len(self.frames), to) for to in self.nodes if self.frames[-1].goes_to(to)]
            elif told == b"G":
                node.committed += self.longest()[len(node.committed):number(record)]
            elif told == b"C":
                node.committed.append((number(record[:4]), number(record[4:12])))
            elif told == b"T":
                node.calls[number(record)] = call
            elif told == b"X" and call:
                self.printed.append(f"refused {me} {call} {record[0]}")
            elif told in ANSWERS:
                self.printed.append(f"reply {me} {node.calls[number(record[:8])]} {ANSWERS[told]} {record[8:].hex()}")
            elif told == b"R":
                self.printed.append(f"reply {me} {node.calls[number(record[:8])]} refused {record[8]}")

    def longest(self):
        """The longest list of calls that a node committed."""
        return max((node.committed for node in self.nodes.values()), key=len)

    def pump(self, turns):
        for _ in range(turns):
            if not self.open:
                return
            place, to = self.open.pop(0)
            frame = self.frames[place - 1]
            if self.groups is None or any(frame.sender in group and to in group for group in self.groups):
                self.happen(to, b"F", frame.spelled)

    def show(self):
        for me, node in self.nodes.items():
            _, at = node.ask(b"Q")[0]
            ring = f"{number(at[1:9])}.{at[9]}"
            trimmed = f" trimmed {number(at[26:34])}" if number(at[26:34]) else ""
            self.printed.append(f"node {me} {STATES[at[0]]} {ring} committed {number(at[10:18])} log {number(at[18:26])}{trimmed}")
        self.printed.append(f"order {effects(self.longest())}")

    def do(self, words):
        match words:
            case ["call", me, client, count, *rest]:
                record = int(client).to_bytes(4, "big") + int(count).to_bytes(8, "big") + operation(rest)
                self.happen(int(me), b"C", record, f"{client}.{count}")
            case ["deliver", me, frame]:
                frames = self.frames[int(frame) - 1:int(frame)]
                if frames and frames[0].goes_to(int(me)):
                    self.happen(int(me), b"F", frames[0].spelled)
            case ["timeout", me, kind]:
                self.happen(int(me), b"T", bytes([KINDS[kind]]))
            case ["noise", me, _]:
                # Its bytes may be a frame's, and a script's noise is none, as no bytes at all are.
                self.happen(int(me), b"F")
            case ["stop", me]:
                self.happen(int(me), b"S")
            case ["cut", *groups]:
                self.groups = [{int(node) for node in group.split(",")} for group in groups]
            case ["heal"]:
                self.groups = None
            case ["pump", turns]:
                self.pump(int(turns))
            case ["show"]:
                self.show()

    def run(self):
        for words in self.lines:
            self.do(words)
        ended = [node.end() for node in self.nodes.values()]
        return "".join(line + "\n" for line in self.printed), ended


def main():
    totem, scripts = sys.argv[1], sys.argv[2:]
    wrong = 0
    for script in scripts:
        wanted = subprocess.run([totem, "script", script], stdout=subprocess.PIPE, text=True, check=False)
        came, ended = Run(totem, Path(script).read_text(encoding="ascii").split("\n")).run()
        same = came == wanted.stdout and not any(ended) and wanted.returncode == 0
        wrong += not same
        print(f"{'same' if same else 'NOT THE SAME'}: {Path(script).name}, {len(came.splitlines())} lines")
        if not same:
            print(wanted.stdout, came, ended, sep="\n")
    print(f"{len(scripts) - wrong} the same, {wrong} not")
    sys.exit(wrong > 0)


main()
