#!/usr/bin/env python3
"""Compares what `totem trace` tells of scripts with what `totem script` prints of them.

    bench/traces.py PROGRAM FOLDER..

PROGRAM is the built program. Each file of the folders whose name ends with `.script` is run by both commands. Where it is a script,
the trace, as text and as JSON, has to tell the same answers and refusals in the same order, reply by reply; after the last `show`, if
nothing stands behind it, also the state, the installed ring and the committed length that it prints of each node. A call has to wait at
the end where, and only where, it was taken and `script` prints no reply to it. The frames that the trace writes are listed again: there
have to be as many as it counts, the JSON has to say of each what the listing says, and the members told of each ring have to be those
of its commit tokens. Each frame that is heard was sent before to its hearer, a fold has as many turns as it counts, and the places at
the end are those that a node has committed. The counts of each node are counted here again, from what the events say. Where a file is no script, both commands have to end alike. Prints what was compared, and
ends with 1 where anything differs.
"""
import collections
import glob
import json
import os
import re
import subprocess
import sys
import tempfile

REASONS = {
    2: "too many pending calls",
    4: "number used for another call",
    5: "stale number",
    6: "number gap",
    7: "sessions full",
    8: "stopped",
    11: "out of memory",
}


def run(program, *words):
    done = subprocess.run([program, *words], capture_output=True, text=True)
    return done.returncode, done.stdout, done.stderr


def printed_outcomes(out):
    """Of each line of a reply or a refusal: the node, the call, what came of it, and the reply's bytes or the reason."""
    found = []
    for line in out.splitlines():
        words = line.split(" ")
        if words[0] == "reply":
            found.append((int(words[1]), words[2], words[3], words[4] if words[3] != "refused" else REASONS[int(words[4])]))
        elif words[0] == "refused":
            found.append((int(words[1]), words[2], "not taken", REASONS[int(words[3])]))
    return found


def is_reply(words, hexadecimal):
    """Whether words can stand for a reply: its value is told where it has one, and something is where it has none."""
    value = hexadecimal[2:]
    if value:
        return words.split(" ")[-1] == str(int(value, 16))
    return words not in ("", "unreadable") and not re.search(r"\d", words)


def are_same(told, printed):
    if len(told) != len(printed):
        return False
    for (node, call, outcome, words), (of, numbered, kind, reply) in zip(told, printed):
        if (node, call, outcome) != (of, numbered, kind):
            return False
        if kind in ("done", "kept") and not is_reply(words, reply):
            return False
        if kind in ("refused", "not taken") and words != reply:
            return False
    return True


def text_outcomes(out):
    found = []
    for line in out.splitlines():
        for part in line.split("; node ")[1:]:
            told = re.fullmatch(r"(\d+) (answers|refuses) (\d+\.\d+) (.*?): (.*)", part)
            if not told:
                continue
            node, verb, call, _, words = told.groups()
            if verb == "refuses":
                found.append((int(node), call, "not taken", words))
            elif words.startswith("refused, "):
                found.append((int(node), call, "refused", words[len("refused, "):]))
            elif words.endswith(", as before"):
                found.append((int(node), call, "kept", words[: -len(", as before")]))
            else:
                found.append((int(node), call, "done", words))
    return found


def json_outcomes(lines):
    return [
        (line["node"], f"{one['client']}.{one['number']}", one["outcome"], one["reply"])
        for line in lines
        if line["kind"] == "event"
        for one in line["told"]
    ]


def json_nodes(lines):
    """The last state, ring and committed length told of each node."""
    nodes = collections.defaultdict(lambda: ["gather", None, 0])
    for line in lines:
        if line["kind"] != "event":
            continue
        of = nodes[line["node"]]
        for change in line["changes"]:
            if "state" in change:
                of[0] = change["state"]
            elif "ring" in change:
                of[0], of[1] = "operational", change["ring"]["ring"]
            elif "committed" in change:
                of[2] = change["committed"]
    return nodes


def shown_nodes(script, out):
    """What the last `show` prints of each node, where nothing stands behind it in the script."""
    lines = [line for line in script.splitlines() if line and not line.startswith("#")]
    if not lines or lines[-1] != "show":
        return {}
    count = int(next(line for line in lines if line.startswith("nodes ")).split(" ")[1])
    shown = [line.split(" ") for line in out.splitlines() if line.startswith("node ")][-count:]
    return {int(words[1]): [words[2], words[3], int(words[5])] for words in shown}


def waiting(script, printed):
    """The calls without an answer, with their nodes, each as often as it was taken and not answered."""
    left = collections.Counter()
    for line in script.splitlines():
        words = line.split(" ")
        if words[0] == "call":
            left[int(words[1]), f"{words[2]}.{words[3]}"] += 1
    for node, call, _, _ in printed:
        left[node, call] -= 1
    return +left


def told_waiting(lines):
    return collections.Counter((line["node"], f"{line['client']}.{line['number']}") for line in lines if line["kind"] == "no answer")


def told_rings(lines):
    """The members told of each ring."""
    return {
        (change["ring"]["ring"], ",".join(map(str, change["ring"]["members"])))
        for line in lines
        if line["kind"] == "event"
        for change in line["changes"]
        if "ring" in change
    }


def committed_rings(listing):
    """The members of each ring, by its commit tokens."""
    words = [line.split(" ") for line in listing.splitlines() if line.startswith("commit ")]
    return {(word[1], word[3]) for word in words}


def inputs_and_sends(lines):
    """Of each event, and of each turn of a fold: the node, the frame that a turn gives it, and the frames that it sends."""
    for line in lines:
        if line["kind"] == "event":
            yield line["node"], line["input"].get("turn", {}).get("frame"), line["sends"]
        elif line["kind"] == "fold":
            for turn in line["turns"]:
                yield turn["node"], turn["frame"], turn["sends"]


def wrong_details(lines, listing):
    """What is wrong with the details that programs read."""
    to = {}
    for node, heard, sends in inputs_and_sends(lines):
        if heard is not None and node not in to.get(heard, []):
            return "a frame that is heard"
        for sent in sends:
            if sent["frame"] != len(to) + 1 or sent["says"] != listing[len(to)]:
                return "what a frame says"
            to[sent["frame"]] = sent["to"]
    if len(to) != len(listing):
        return "which frames are sent"
    for fold in (line for line in lines if line["kind"] == "fold"):
        heard = [turn for turn in fold["turns"] if "event" in turn]
        if (len(heard), len(fold["turns"])) != (fold["frames"], fold["frames"] + fold["lost"]):
            return "the turns of a fold"
    places = [line["place"] for line in lines if line["kind"] == "place"]
    committed = [change["committed"] for line in lines for change in line.get("changes", []) if "committed" in change]
    if places != list(range(max(committed, default=0))):
        return "the committed places"
    return None


KINDS = {"message": "messages", "token": "tokens", "join": "joins", "commit": "commits"}


def events_in(lines):
    """Of each event, in order: the node, its input, the frames that it sends, its changes and its reports."""
    for line in lines:
        if line["kind"] == "event":
            yield line["node"], line["input"], line["sends"], line["changes"], line["told"]
        elif line["kind"] == "fold":
            for turn in line["turns"]:
                if "event" in turn:
                    yield turn["node"], {"turn": turn}, turn["sends"], [], []


class Counts:
    """The counts of a node."""

    def __init__(self):
        self.received, self.sent = collections.Counter(), collections.Counter()
        self.of = collections.Counter()
        self.is_stopped = False

    def take(self, given, asked, sends, changes, told):
        """Takes an event: `given` is what the listing says of the frame that came, if one came to the node."""
        refusals = [one for one in told if one["outcome"] == "not taken"]
        if "call" in asked:
            self.of["refusals" if refusals else "submitted"] += 1
        elif self.is_stopped:
            self.of["refusals"] += any(name in asked for name in ("timeout", "noise", "stop")) or given is not None
        else:
            self.step(given, asked, [one["says"].split(" ") for one in sends])
        self.of["answered"] += len(told) - len(refusals)
        for change in changes:
            self.of["rings"] += "ring" in change
            self.of["committed"] = change.get("committed", self.of["committed"])
            self.of["dropped"] = change.get("trimmed", change.get("restored", self.of["dropped"]))
            self.is_stopped |= change.get("state") == "stopped"

    def step(self, given, asked, sends):
        """Takes a step that sends these frames."""
        self.of["noise"] += "noise" in asked
        if given is not None:
            self.received[KINDS[given[0]]] += 1
            if given[0] in ("token", "commit"):
                self.of["tokens_taken" if sends else "tokens_ignored"] += 1
        for sent in sends:
            self.sent[KINDS[sent[0]]] += 1
            if given is not None and given[0] == "token" and sent[0] == "message":
                self.of["messages_again"] += int(sent[3]) <= int(given[5])
            if asked.get("timeout") == "retransmit":
                self.of["tokens_again"] += sent[0] in ("token", "commit")

    def line(self):
        """Returns the members of its line in JSON."""
        names = "noise tokens_taken tokens_ignored messages_again tokens_again rings refusals submitted answered committed dropped"
        found = {name: self.of[name] for name in names.split(" ")}
        found["waiting"] = self.of["submitted"] - self.of["answered"]
        for name, frames in (("received", self.received), ("sent", self.sent)):
            found[name] = {kind: frames[kind] for kind in KINDS.values()}
        return found

    def words(self, node):
        """Returns its line in the text."""
        of = self.line()
        frames = {
            name: "messages {messages}, tokens {tokens}, joins {joins}, commit tokens {commits}".format(**of[name])
            for name in ("received", "sent")
        }
        return (
            f"node {node} in: {frames['received']}; out: {frames['sent']}; tokens taken {of['tokens_taken']}; "
            f"again: messages {of['messages_again']}, tokens {of['tokens_again']}; rings {of['rings']}; "
            f"calls waiting {of['waiting']}; committed {of['committed']}, dropped {of['dropped']}"
        )


def counts_of(lines, listing):
    """The counts of each node, by what the events say."""
    counts = {node: Counts() for node in range(1, len(lines[0]["votes"]) + 1)}
    for node, asked, sends, changes, told in events_in(lines):
        number = asked.get("turn", asked.get("delivery", {})).get("frame")
        is_given = asked.get("delivery", {}).get("was") not in ("not sent", "not for node")
        given = listing[number - 1].split(" ") if number is not None and is_given else None
        counts[node].take(given, asked, sends, changes, told)
    return counts


def wrong_counts(lines, listing, text):
    """What is wrong with the counts of the nodes."""
    counts = counts_of(lines, listing)
    told = [line for line in lines if line["kind"] == "node counts"]
    if [line.pop("node") for line in told] != sorted(counts):
        return "which nodes are counted"
    for line, one in zip(told, counts.values()):
        if {name: of for name, of in line.items() if name not in ("version", "kind")} != one.line():
            return "the counts of a node in JSON"
    said = [line for line in text.splitlines() if line.startswith("node ")]
    if said != [one.words(node) for node, one in counts.items()]:
        return "the counts of a node in the text"
    return None


def compare(program, path, sent):
    """What differs, and how many outcomes, nodes and waiting calls were compared."""
    status, out, err = run(program, "script", path)
    traced, text, fault = run(program, "trace", "--frames", sent, path)
    as_json, told, _ = run(program, "trace", "--format", "json", path)
    if (traced, as_json) != (status, status) or fault != err:
        return "how it ends", 0, 0, 0
    if status != 0:
        return None, 0, 0, 0
    with open(path) as file:
        script = file.read()
    lines = [json.loads(line) for line in told.splitlines()]
    printed = printed_outcomes(out)
    if not are_same(text_outcomes(text), printed):
        return "the answers of the text", 0, 0, 0
    if not are_same(json_outcomes(lines), printed):
        return "the answers of the JSON", 0, 0, 0
    nodes = json_nodes(lines)
    shown = shown_nodes(script, out)
    for node, (state, ring, committed) in shown.items():
        has = nodes[node]
        if (has[0], has[1] or f"0.{node}", has[2]) != (state, ring, committed):
            return f"how node {node} stands", 0, 0, 0
    listed, listing, _ = run(program, "frames", sent)
    if listed != 0 or f"\nframes {len(listing.splitlines())}\n" not in text:
        return "how many frames were sent", 0, 0, 0
    if wrong := wrong_details(lines, listing.splitlines()):
        return wrong, 0, 0, 0
    if wrong := wrong_counts(lines, listing.splitlines(), text):
        return wrong, 0, 0, 0
    if not told_rings(lines) <= committed_rings(listing):
        return "the members of rings", 0, 0, 0
    left = waiting(script, printed)
    if told_waiting(lines) != left or text.count("\nno answer to ") != left.total():
        return "which calls wait", 0, 0, 0
    return None, len(printed), len(shown), left.total()


def main():
    program, folders = sys.argv[1], sys.argv[2:]
    paths = [path for folder in folders for path in sorted(glob.glob(os.path.join(folder, "*.script")))]
    differing, outcomes, nodes, calls = 0, 0, 0, 0
    with tempfile.TemporaryDirectory() as folder:
        for path in paths:
            wrong, replies, shown, left = compare(program, path, os.path.join(folder, "sent"))
            outcomes, nodes, calls = outcomes + replies, nodes + shown, calls + left
            if wrong:
                differing += 1
                print(f"{path}: {wrong}", flush=True)
    print(f"scripts {len(paths)}, answers {outcomes}, nodes {nodes}, waiting calls {calls}, differing {differing}")
    return 1 if differing or not paths else 0


if __name__ == "__main__":
    sys.exit(main())
