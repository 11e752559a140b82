"""Counts what happens in scripts that are made by seeds: python3 bench/made_scripts.py TOTEM [FIRST LAST [NODES EVENTS]]

TOTEM is the program. Each script is made by `totem gen`, gets a line `show` behind each of its lines, and is run by `totem script`.
Fails unless at least two thirds of the calls are answered, and each kind of line, each state, a ring of each size, a recovery that
breaks off and a call that is tried again occur.
"""
import collections
import subprocess
import sys
import tempfile

KINDS = ["call", "deliver", "timeout", "noise", "stop", "cut", "heal", "pump"]
STATES = ["gather", "commit", "recovery", "operational", "stopped"]


def said(*words):
    """What a command prints."""
    return subprocess.run(words, check=True, capture_output=True, text=True).stdout


def asking_lines(script):
    """The lines of a script that ask for something, without its head."""
    for line in script.splitlines():
        if line and line[0] != "#" and line.split(" ")[0] not in ("nodes", "votes", "show"):
            yield line


def count_lines(script, found):
    """Counts the lines of a script, and the calls that stand in it once more."""
    calls = set()
    for line in asking_lines(script):
        words = line.split(" ")
        found["line " + words[0]] += 1
        if words[0] == "call":
            found["retried"] += (words[2], words[3]) in calls
            calls.add((words[2], words[3]))


def shown_script(script):
    """The script with a line `show` behind each line that asks for something, and no other."""
    head = [line for line in script.splitlines() if line.split(" ")[0] in ("nodes", "votes")]
    body = (text for line in asking_lines(script) for text in (line, "show"))
    return "\n".join(head + list(body)) + "\n"


class Nodes:
    """The nodes as they are shown, one state after the other."""

    def __init__(self):
        self.last = {}
        self.now = {}

    def see(self, node, state, ring):
        self.now[node] = (state, ring)

    def count(self, found):
        """Counts what a state has, and what became of the one before it."""
        rings = collections.Counter()
        for node, (state, ring) in self.now.items():
            found["state " + state] += 1
            if state == "operational":
                rings[ring] += 1
            was, before = self.last.get(node, (state, ring))
            found["broken recovery"] += was == "recovery" and state in ("gather", "commit") and ring == before
        for size in rings.values():
            found[f"ring of {size}"] += 1
        self.last, self.now = self.now, {}


def count_run(printed, found):
    """Counts what a run prints."""
    nodes = Nodes()
    for line in printed.splitlines():
        words = line.split(" ")
        if words[0] == "reply":
            found["reply " + words[3]] += 1
        elif words[0] == "refused":
            found["not taken"] += 1
        elif words[0] == "node":
            nodes.see(words[1], words[2], words[3])
        elif words[0] == "order":
            nodes.count(found)


def main():
    totem = sys.argv[1]
    first, last = (int(word) for word in (sys.argv[2:4] or (1, 1000)))
    nodes, events = sys.argv[4:6] or ("5", "200")
    found = collections.Counter()
    with tempfile.NamedTemporaryFile("w", suffix=".script") as file:
        for seed in range(first, last + 1):
            script = said(totem, "gen", "--nodes", nodes, "--seed", str(seed), "--events", events)
            count_lines(script, found)
            file.seek(0)
            file.truncate()
            file.write(shown_script(script))
            file.flush()
            count_run(said(totem, "script", file.name), found)
    for name, count in sorted(found.items()):
        print(name, count)
    wanted = ["line " + kind for kind in KINDS] + ["state " + state for state in STATES]
    wanted += [f"ring of {size}" for size in range(1, int(nodes) + 1)] + ["broken recovery", "retried"]
    missing = [name for name in wanted if not found[name]]
    print("missing", ", ".join(missing) or "none")
    share = (found["reply done"] + found["reply kept"]) / max(1, found["line call"])
    print(f"answered {share:.3f} of the calls")
    sys.exit(bool(missing) or share < 2 / 3)


main()
