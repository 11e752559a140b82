#!/usr/bin/env python3
"""Opens the pages of worked stories in a headless Chromium, steps through them, and compares what they show with `totem`.

    bench/page.py [--program TOTEM] [--shots FOLDER] [STORY..]

A story is a name in crates/totem_examples/data; without one, all that have a trace are opened. Its page is that of `totem trace
--format html`. It is stepped through to its end: at each line the nodes, the words and the waiting calls are those of the text trace. At
the end the nodes, their logs and the order are those that `totem script` shows, and what each frame says is its line in `totem frames` of
the frames that the trace writes. Links to events, the search and a click in the picture go where they say. The page has to load nothing.
With --shots two screenshots are written: page.png and page_dark.png. Exit status 0 where all is right. Chromium is Debian's:
apt-get install chromium.
"""

import argparse
import os
import pathlib
import re
import signal
import subprocess
import sys
import tempfile
import time

import page_text
from browser import Browser

DATA = pathlib.Path(__file__).resolve().parent.parent / "crates" / "totem_examples" / "data"
SHOTS = {"majority": ("page.png", 318), "halves": ("page_dark.png", 203)}  # of each story: the screenshot, and the event it shows
LIMIT = 3600  # seconds of the whole test
TEXT_END = re.compile(r"events (\d+)$")

def run(program, *words):
    """Returns what the program prints with these words."""
    done = subprocess.run([program, *map(str, words)], capture_output=True, check=True)
    return done.stdout.decode()


# What the page shows: its event, the marked row, each node's card, the waiting calls.
SHOWN = """(() => ({
  row: [...(document.querySelector('#events .row.now')?.children ?? [])].map((part) => part.textContent).join(' ').trim(),
  title: document.getElementById('event_title').textContent,
  nodes: [...document.querySelectorAll('#nodes .node')].map((card) => ({
    state: card.querySelector('.state').textContent,
    ring: card.querySelector('.ring').textContent,
    log: card.querySelector('.log').textContent.replace(/, log .*/, ''),
    length: Number(card.querySelector('.log').textContent.replace(/.*, log /, '')),
    places: card.querySelector('.places').title,
  })),
  waiting: Number(document.getElementById('waiting_count').textContent),
  hash: location.hash,
}))()"""


# Steps by a key, as often as asked, and returns what the page shows after each.
STEPS = """((key, many) => Array.from({ length: many }, () => {
  dispatchEvent(new KeyboardEvent('keydown', { key }));
  return SHOWN;
}))""".replace("SHOWN", SHOWN)


class Expected:
    """What the text trace says of the nodes, line by line."""

    def __init__(self, count):
        self.nodes = [{"state": "gather", "ring": None, "committed": 0, "dropped": 0} for _ in range(count)]
        self.waiting = 0

    def take(self, line):
        """Takes a line of the text."""
        event = re.match(r"(\d+) node (\d+) ", line)
        if event is None:
            return
        node = self.nodes[int(event[2]) - 1]
        for part in line.split("; "):
            if re.match(r"\d+ node \d+ is called ", part):
                self.waiting += 1
            change = re.sub(r"^(\d+ )?node \d+ ", "", part)
            if ring := re.match(r"installs ring (\S+) of (\S+) with (\d+) of (\d+) votes, (not )?primary$", change):
                node["ring"], node["state"] = ring.groups(""), "operational"
            elif state := re.match(r"is in (\w+)$", change):
                node["state"] = state[1]
            elif change == "has stopped":
                node["state"] = "stopped"
            elif committed := re.match(r"has committed (\d+)$", change):
                node["committed"] = int(committed[1])
            elif dropped := re.match(r"(?:drops its first|restores a snapshot of) (\d+) places", change):
                node["dropped"] = int(dropped[1])
            elif change.startswith("answers ") or change.startswith("refuses "):
                self.waiting -= 1

    def cards(self):
        """Returns what the page shows of each node."""
        return [self.card(node) for node in self.nodes]

    @staticmethod
    def card(node):
        if node["ring"] is None:
            ring = "no ring yet"
        else:
            name, members, votes, all_votes, negation = node["ring"]
            last = "ring" if node["state"] == "operational" else "last ring"
            ring = f"{last} {name} of {members}, {votes} of {all_votes} votes, {negation}primary"
        dropped = f", {node['dropped']} dropped" if node["dropped"] else ""
        return {
            "state": node["state"],
            "ring": ring,
            "log": f"committed {node['committed']}{dropped}",
            "places": f"dropped {node['dropped']}, committed {node['committed']}",
        }


def cards_of(shown):
    """Returns what the page shows of each node, without the length of its log."""
    return [{name: of for name, of in card.items() if name != "length"} for card in shown["nodes"]]


class Test:
    """The tests of one story."""

    def __init__(self, browser, program, script):
        self.browser, self.checks, self.wrong = browser, 0, []
        self.script, self.program = script, program
        self.text = run(program, "trace", script).splitlines()
        self.end = next(place for place, line in enumerate(self.text) if TEXT_END.match(line))
        nodes = next(line for line in script.read_text().splitlines() if line.startswith("nodes "))
        self.count = int(nodes.split()[1])

    def check(self, what, got, expected):
        self.checks += 1
        if got != expected:
            self.wrong.append(f"{what}:\n  got      {got}\n  expected {expected}")

    def shown(self):
        return self.browser.value(SHOWN)

    def open(self, path, address=""):
        self.browser.open(path, address)

    def step_through(self):
        """Steps to the end by the right arrow, comparing the nodes and the words with the text at each line."""
        expected = Expected(self.count)
        self.browser.key("Home")
        self.compare("opening", self.shown(), expected, "the opening")
        began = time.monotonic()
        steps = []
        while len(steps) < self.end - 1:
            steps += self.browser.value(f"{STEPS}('ArrowRight', {min(50, self.end - 1 - len(steps))})")
        self.speed = (time.monotonic() - began) / max(1, self.end - 1)
        self.browser.key("ArrowRight")
        steps.append(self.shown())
        if self.end == 0:
            return
        for place, line in enumerate(self.text[: self.end]):
            expected.take(line)
            self.compare(f"line {place + 1}", steps[place], expected, line)
        self.browser.key("ArrowRight")
        self.compare("past the end", self.shown(), expected, self.text[self.end - 1])

    def compare(self, at, shown, expected, line):
        self.check(f"{at}, nodes", cards_of(shown), expected.cards())
        self.check(f"{at}, words", shown["row"], re.sub(r"\s+", " ", line))
        self.check(f"{at}, waiting", shown["waiting"], expected.waiting)

    def step_back(self):
        """Steps back over the last lines: the nodes are as they were on the way there."""
        if self.end < 2:
            return
        views = []
        for place in range(max(0, self.end - 20), self.end):
            views.append(self.at_line(place))
        self.browser.key("End")
        self.check("back at the end", cards_of(self.shown()), views.pop())
        self.browser.key("ArrowLeft")
        self.check("one back", cards_of(self.shown()), views.pop())
        for shown in self.browser.value(f"{STEPS}('ArrowLeft', {len(views)})"):
            self.check("further back", cards_of(shown), views.pop())

    def at_line(self, place):
        expected = Expected(self.count)
        for line in self.text[: place + 1]:
            expected.take(line)
        return expected.cards()

    def at_end(self):
        """Compares the waiting calls of the end with the lines `no answer` of the text."""
        self.browser.key("End")
        rows = self.browser.value("[...document.querySelectorAll('#waiting .row')].map((row) => row.innerText)")
        got = sorted(re.sub(r"\s+", " ", row).strip() for row in rows)
        texts = [re.match(r"no answer to (\S+) at node (\d+): (.*)", line) for line in self.text[self.end :]]
        got = [re.sub(r"^(\S+) .* at node (\d+): (.*)$", r"\1 \2 \3", row) for row in got]
        self.check("why calls wait", got, sorted(" ".join(text.groups()) for text in texts if text)[: len(got)])

    def at_show(self):
        """Compares the end with what `script` shows, where the script ends with that."""
        lines = [line for line in self.script.read_text().splitlines() if line and not line.startswith("#")]
        if lines[-1] != "show":
            return
        self.browser.key("End")
        printed = run(self.program, "script", self.script)
        nodes = re.findall(r"^node \d+ (\w+) (\S+) committed (\d+) log (\d+)", printed, re.M)[-self.count :]
        cards = self.shown()["nodes"]
        self.check("shown nodes", len(cards), len(nodes))
        for card, (state, ring, committed, length) in zip(cards, nodes):
            self.check("shown state", card["state"], state)
            self.check("shown ring", f" {ring} of " in card["ring"] or (card["ring"] == "no ring yet" and ring.startswith("0.")), True)
            self.check("shown committed length", card["log"].split(",")[0], f"committed {committed}")
            self.check("shown length", card["length"], int(length))
        order = re.findall(r"^order (\d+)$", printed, re.M)[-1]
        self.check("shown order", self.browser.value("$('order_count').textContent").split()[-1], order)

    def frames(self, folder):
        """Compares what frames say with the listing of the frames that the trace writes."""
        sent = pathlib.Path(folder) / "sent.frames"
        run(self.program, "trace", self.script, "--frames", sent)
        listed = run(self.program, "frames", sent).splitlines()
        said = self.browser.value("[...run.frames].map(([number, { says }]) => [number, says])")
        self.check("frames", said, [[number + 1, line] for number, line in enumerate(listed)])

    def unfolded(self):
        """Compares some turns of folds with the frames that they hear."""
        self.browser.key("Home")
        self.browser.value("$('unfold').click()")
        events = self.browser.value("[...run.turns.keys()]")
        for event in events[:: max(1, len(events) // 8)]:
            shown = self.browser.value(f"go(positionOf(run, {event})); [$('event_title').textContent, $('frame_said').textContent]")
            title = re.fullmatch(rf"{event} node (\d+) hears frame (\d+) of node (\d+)", shown[0])
            self.check("a turn", title is not None, True)
            says, to = self.browser.value(f"[run.frames.get({title[2]}).says, run.frames.get({title[2]}).to]")
            self.check("a turn's frame", [shown[1], int(title[1]) in to], [f"Frame {title[2]}: {says}", True])
        self.browser.value("$('unfold').click()")

    def links(self, path):
        """Opens links to events, also within a fold, and compares the nodes with the text."""
        events = [(int(found[1]), place) for place, line in enumerate(self.text) if (found := re.match(r"(\d+) node", line))]
        folds = [(int(found[1]), place) for place, line in enumerate(self.text) if (found := re.match(r"(\d+)(?:-\d+)?: ", line))]
        if not events:
            return
        for event, place in [events[len(events) // 2], folds[len(folds) // 2] if folds else events[0]]:
            self.open(path, f"#event={event}")
            time.sleep(0.5)
            shown = self.shown()
            self.check(f"#event={event}, nodes", cards_of(shown), self.at_line(place))
            self.check(f"#event={event}, title", shown["title"].split()[0], f"{event}")
            self.check(f"#event={event}, address", shown["hash"], f"#event={event}")

    def search(self):
        """Searches for the first call: the page goes to its submission."""
        found = next((re.match(r"(\d+) node \d+ is called (\S+) ", line) for line in self.text if " is called " in line), None)
        if found is None:
            return
        script = f"$('search').value = '{found[2]}'; $('search').dispatchEvent(new Event('change')); $('event_title').textContent"
        self.check("search", self.browser.value(script).split()[0], found[1])
        self.browser.value("$('clear').click()")

    def click_picture(self):
        """Clicks the column of an event in the picture: the page goes there."""
        place = next((place for place, line in enumerate(self.text) if " is called " in line), None)
        if place is None:
            return
        box = self.browser.value(
            "(() => { $('picture').scrollTo(0, 0); const { x, y } = document.querySelector('#picture > svg').getBoundingClientRect();"
            " return [x + 64, y]; })()"
        )
        if place >= 60:
            return
        self.browser.click(box[0] + (place + 1) * 16 + 8, box[1] + 40 + 56 * (self.count - 1) + 34)
        self.check("a click in the picture", self.shown()["title"], self.text[place].split("; ")[0])


def take_shot(test, path, folder, shot, event):
    """Writes a screenshot of the page at an event."""
    browser = test.browser
    browser.dark("dark" in shot)
    browser.size(1200, 1000)
    test.open(path, f"#event={event}")
    time.sleep(1)
    folder.mkdir(parents=True, exist_ok=True)
    browser.picture(folder / shot)
    browser.dark(False)
    browser.size(1400, 1500)


def run_story(browser, program, name, folder, shots):
    """Tests a story, and returns what is wrong."""
    test = Test(browser, program, DATA / f"{name}.script")
    path = pathlib.Path(folder) / f"{name}.html"
    page = run(program, "trace", "--format", "html", test.script)
    test.check("what it loads", re.findall(r"<link|<img|<iframe|\bsrc=|@import|url\((?!#)", page), [])
    path.write_text(page)
    began = time.monotonic()
    test.open(path)
    test.step_through()
    test.step_back()
    test.at_end()
    test.at_show()
    test.frames(folder)
    test.unfolded()
    test.search()
    test.click_picture()
    test.links(path)
    if shots and name in SHOTS:
        take_shot(test, path, pathlib.Path(shots), *SHOTS[name])
    test.check("exceptions", browser.faults(), [])
    browser.events.clear()
    speed = f"{1000 * test.speed:.0f} ms a step"
    print(f"{name}: {test.checks} checks, {len(test.wrong)} wrong, {test.end} lines, {time.monotonic() - began:.1f} s, {speed}", flush=True)
    return test.wrong


def main():
    options = argparse.ArgumentParser(description=__doc__, formatter_class=argparse.RawDescriptionHelpFormatter)
    options.add_argument("--program", default=os.environ.get("TOTEM", "totem"))
    options.add_argument("--shots")
    options.add_argument("stories", nargs="*", default=sorted(path.stem for path in DATA.glob("*.trace")))
    given = options.parse_args()
    page_text.check()
    for ending in (signal.SIGALRM, signal.SIGTERM):
        signal.signal(ending, lambda *_: sys.exit("page: out of time"))
    signal.alarm(LIMIT)
    wrong = []
    with tempfile.TemporaryDirectory() as folder, Browser() as browser:
        for name in given.stories:
            wrong += run_story(browser, given.program, name, folder, given.shots)
    for one in wrong[:10]:
        print(one)
    raise SystemExit(1 if wrong else 0)


if __name__ == "__main__":
    main()
