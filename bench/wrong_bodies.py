#!/usr/bin/env python3
"""Tries wrong bodies: those in wrong_bodies/, and those in each crate's must-fail/, which the gate tries too.

    bench/wrong_bodies.py [CRATE ..] [--jobs N] [--crates N]     of all crates, where none is named
    bench/wrong_bodies.py [CRATE ..] --list                      tries none; tells whether each can be applied

A wrong body is an edit of one crate that turns the meaning of a function, so the crate's check must refuse it by a
contract. All is tried on a copy of the repository that is removed at the end. Each crate is checked there as it stands;
checks that this machine has kept, of this or another copy, make that short. Then its wrong bodies are tried together, as
many as change different functions in one check: a function's proof stands on the contracts of what it calls and on no
body of these, so the check tells of each function apart whether it is refused. What is not refused so, what a check can't
read, and what changes more than functions `rt must-fail` tries alone. --jobs says by how many processes a crate is
checked; else `rt` chooses. --crates says how many crates are tried at a time, each on a copy of its own; else one is.

It ends with a table of the crates and with a line `N refused, M let through`. The status is 1 if any was let through,
couldn't be applied or read, or wasn't tried.
"""
import argparse
import os
import re
import shutil
import subprocess
import sys
import tempfile
import time
from collections import Counter
from concurrent.futures import ThreadPoolExecutor
from dataclasses import dataclass
from pathlib import Path
from queue import SimpleQueue

ROOT = Path(__file__).resolve().parent.parent
REFUSED, LET_THROUGH, BAD, NOT_TRIED = "refused", "let through", "bad edit", "not tried"

# How `rt must-fail` says what an edit came to, by the first that fits. Where the check fails because a proof names what
# the edit took away, that shows nothing of a contract.
SAYINGS = [
    ("refused, as it must be (only because", BAD),
    ("refused", REFUSED),
    ("NOT REFUSED", LET_THROUGH),
    ("BAD EDIT", BAD),
]


@dataclass(frozen=True, order=True)
class WrongBody:
    crate: str
    name: str
    path: Path

    def __str__(self):
        return f"{self.crate} {self.name}"


def crates():
    """The names of all crates, in the order of crates.txt."""
    lines = (ROOT / "crates.txt").read_text(encoding="utf-8").splitlines()
    return [words[0].rstrip(":") for line in lines if (words := line.partition("#")[0].split())]


def wrong_bodies(names):
    """All wrong bodies of these crates, by crate and name."""
    places = ["crates/{}/must-fail", "wrong_bodies/{}"]
    folders = [(name, ROOT / place.format(name)) for name in names for place in places]
    return [WrongBody(name, path.stem, path) for name, folder in folders for path in sorted(folder.glob("*.edit"))]


def strays():
    """The folders of wrong_bodies/ that are of no crate."""
    known = set(crates())
    return [path.name for path in sorted((ROOT / "wrong_bodies").iterdir()) if path.is_dir() and path.name not in known]


def pairs(text):
    """Yields (file, old, new) of each change of an edit."""
    file = old = ""
    for line in text.splitlines():
        word, _, rest = line.partition(":")
        rest = rest.removeprefix(" ")
        if word == "file":
            file = rest.strip()
        elif word == "old":
            old = rest
        elif word == "new":
            yield file, old, rest


def why_not(body):
    """Why the wrong body can't be applied, or nothing if it can: each `old` stands once in its file."""
    texts = {}
    for file, old, new in pairs(body.path.read_text(encoding="utf-8")):
        path = ROOT / "crates" / body.crate / file
        if not path.is_file():
            return f"there is no file {file}"
        text = texts.get(file) or path.read_text(encoding="utf-8")
        if text.count(old) != 1:
            return f"an 'old:' text stands {text.count(old)} times in {file}, and not once"
        texts[file] = text.replace(old, new)
    return "" if texts else "it changes nothing"


def show_list(bodies):
    """Prints the wrong bodies, with what keeps one from being applied. Answers the exit status."""
    count = Counter((body.crate, body.name) for body in bodies)
    faults = 0
    for body in bodies:
        why = why_not(body) or ("its name stands twice" if count[body.crate, body.name] > 1 else "")
        faults += bool(why)
        print(f"{body}: {why}" if why else body)
    print(f"{len(bodies)} wrong bodies, {faults} that can't be applied")
    return 1 if faults else 0


def copy_to(folder):
    """Copies what `rt` reads of the repository, without what it made there and without must-fail/. Gives the folder."""
    shutil.copytree(ROOT / "crates", folder / "crates", ignore=shutil.ignore_patterns("out", "must-fail"))
    for name in ("crates.txt", "HANDLES"):
        shutil.copy(ROOT / name, folder)
    return folder


def run_rt(words, folder, jobs):
    """Runs `rt` in a folder, and gives its status and what it said."""
    env = dict(os.environ, RT_JOBS=str(jobs)) if jobs else None
    ran = subprocess.run(["rt", *words], cwd=folder, env=env, text=True, errors="replace",
                         stdout=subprocess.PIPE, stderr=subprocess.STDOUT, stdin=subprocess.DEVNULL)
    return ran.returncode, ran.stdout


def read_results(said):
    """What `rt must-fail` tells of each edit, by its name: what it came to, and rt's words."""
    found = {}
    for name, words in re.findall(r"must-fail \w+/(\S+)\.edit: (.*)", said):
        found[name] = next((kind for begin, kind in SAYINGS if words.startswith(begin)), NOT_TRIED), words
    return found


def functions(text):
    """The functions of a file, each as where it begins, where it ends, and its name."""
    found = []
    for head in re.finditer(r"^( *)(?:pub(?:\([a-z]+\))? )?(?:const )?(?:unsafe )?fn (\w+)", text, re.M):
        end = re.compile(rf"^{head[1]}(?:\}}|.*\{{\}})$", re.M).search(text, head.end())
        found.append((head.start(), end.end() if end else len(text), head[2]))
    return found


def changed_functions(body):
    """The names of the functions that a wrong body changes, or none where it changes something else too."""
    found = set()
    for file, old, _ in pairs(body.path.read_text(encoding="utf-8")):
        text = (ROOT / "crates" / body.crate / file).read_text(encoding="utf-8")
        at = text.find(old)
        around = [name for start, end, name in functions(text) if start <= at and at + len(old) <= end]
        if not file.startswith("src/") or not around:
            return set()
        found.add(around[-1])
    return found


def batch_of(bodies):
    """The first of these wrong bodies, and each further one that changes no function of a name that another one changes."""
    batch, changed = [], set()
    for body in bodies:
        more = changed_functions(body)
        if not changed & more:
            batch.append(body)
            changed |= more
    return batch


def what_was_told(said, crate, name):
    """What a check tells of the functions of this name: `refused`, `waits` where one waits for another one's proof alone, `stale`
    where all that it tells is that a proof names what isn't there, and else nothing."""
    told = set()
    for function, words in re.findall(rf"^fn ({crate}::(?:\S+::)?{name}): (.*)", said, re.M):
        place = re.escape("/".join(function.split("::")[1:]))
        errors = re.findall(rf"^(?:\./)?proofs/{place}/\S+: error: (.*)", said, re.M)
        gone = [it for it in errors if re.search(r"has no field|is not in scope|has no `|was not admitted|was rejected", it)]
        if "did not prove" in words or len(gone) < len(errors):
            told.add("refused")
        elif errors:
            told.add("stale")
        elif words.startswith("no proof: it calls"):
            told.add("waits")
    return next((it for it in ("refused", "waits", "stale") if it in told), "")


def linked(folder, to):
    """Copies kept work by links: a check replaces such a file and changes none."""
    copy = lambda one, other: os.link(one, other) if one.endswith(".oantt") else shutil.copy2(one, other)
    shutil.copytree(folder, to, symlinks=True, copy_function=copy)


def try_together(bodies, copy, jobs):
    """Checks a crate with all these wrong bodies in it, and tells what is told of each, or nothing where the check did not come so far."""
    folder = copy / "crates" / bodies[0].crate
    were, kept, aside = {}, folder / "out/incremental", folder / "out/aside"
    for body in bodies:
        for file, old, new in pairs(body.path.read_text(encoding="utf-8")):
            text = (folder / file).read_text(encoding="utf-8")
            were.setdefault(file, text)
            (folder / file).write_text(text.replace(old, new), encoding="utf-8")
    linked(kept, aside)
    _, said = run_rt(["check", *(["--jobs", str(jobs)] if jobs else [])], folder, jobs)
    shutil.rmtree(kept)
    aside.rename(kept)
    for file, text in were.items():
        (folder / file).write_text(text, encoding="utf-8")
    if not re.search(r"^logic=", said, re.M):
        return {}
    told = {body: {what_was_told(said, body.crate, it) for it in changed_functions(body)} for body in bodies}
    return {body: next((it for it in ("refused", "waits") if it in words), "unclear") for body, words in told.items()}


def refused_together(bodies, copy, jobs):
    """Of these wrong bodies of one crate those that are refused by checks of several together."""
    refused, left = set(), [body for body in bodies if changed_functions(body)]
    while batch := batch_of(left):
        told = try_together(batch, copy, jobs)
        if not told and len(batch) > 1:
            half = len(batch) // 2
            refused |= refused_together(batch[:half], copy, jobs) | refused_together(batch[half:], copy, jobs)
        refused |= {body for body in batch if told.get(body) == "refused"}
        waits = [body for body in batch if told.get(body) == "waits"]
        left = [body for body in left if body not in batch] + (waits if len(waits) < len(batch) else [])
    return refused


def try_alone(crate, bodies, copy, jobs):
    """Tries the wrong bodies of a crate one by one, and gives what each came to, by its name, with rt's words."""
    if not bodies:
        return {}
    folder = copy / "crates" / crate / "must-fail"
    folder.mkdir()
    for body in bodies:
        shutil.copy(body.path, folder)
    _, said = run_rt(["must-fail", crate], copy, jobs)
    shutil.rmtree(folder)
    found = read_results(said)
    return {body.name: found.get(body.name, (NOT_TRIED, said[-200:])) for body in bodies}


def try_crate(crate, bodies, copy, jobs):
    """Tries the wrong bodies of a crate in the copy, and gives what each came to, by its name, with rt's words."""
    status, said = run_rt(["check", *(["--jobs", str(jobs)] if jobs else [])], copy / "crates" / crate, jobs)
    if status:
        return {body.name: (NOT_TRIED, f"{crate} itself isn't proved: {said[-200:]}") for body in bodies}
    refused = refused_together(bodies, copy, jobs)
    alone = try_alone(crate, [body for body in bodies if body not in refused], copy, jobs)
    return {body.name: alone.get(body.name, (REFUSED, "")) for body in bodies}


def try_all(bodies, copies, jobs):
    """Tries the wrong bodies, a crate on each copy at a time, and prints each. Gives a row for each crate: its name, what its
    wrong bodies came to, and the seconds."""
    free = SimpleQueue()
    for copy in copies:
        free.put(copy)

    def row_of(crate):
        copy = free.get()
        began = time.monotonic()
        results = try_crate(crate, [body for body in bodies if body.crate == crate], copy, jobs)
        free.put(copy)
        for name, (kind, words) in results.items():
            print(f"{crate} {name}: {kind}" + ("" if kind == REFUSED else f" ({words})"), flush=True)
        return crate, Counter(kind for kind, _ in results.values()), time.monotonic() - began

    with ThreadPoolExecutor(len(copies)) as pool:
        return list(pool.map(row_of, dict.fromkeys(body.crate for body in bodies)))


def show_table(rows):
    """Prints the table and the last line. Answers the exit status."""
    total = sum((kinds for _, kinds, _ in rows), Counter())
    print("\n| Crate | Wrong bodies | Refused | Let through | Bad or not tried | Seconds |\n|---|---|---|---|---|---|")
    for crate, kinds, seconds in rows:
        unknown = kinds[BAD] + kinds[NOT_TRIED]
        print(f"| `{crate}` | {kinds.total()} | {kinds[REFUSED]} | {kinds[LET_THROUGH]} | {unknown} | {seconds:.0f} |")
    print(f"\n{total[REFUSED]} refused, {total[LET_THROUGH]} let through")
    return 0 if total[REFUSED] == total.total() else 1


def main():
    head, _, rest = __doc__.partition("\n")
    parser = argparse.ArgumentParser(description=head, epilog=rest, formatter_class=argparse.RawDescriptionHelpFormatter)
    parser.add_argument("crates", metavar="CRATE", nargs="*", help="a crate whose wrong bodies are tried")
    parser.add_argument("--list", action="store_true", help="try none; tell whether each can be applied")
    parser.add_argument("--jobs", metavar="N", type=int, help="how many of a crate are tried at a time")
    parser.add_argument("--crates", metavar="N", type=int, default=1, dest="at_once", help="how many crates are tried at a time")
    asked = parser.parse_args()
    unknown = [name for name in asked.crates if name not in crates()] or strays()
    if unknown:
        parser.error(f"{unknown[0]} is no crate of crates.txt")
    bodies = wrong_bodies([name for name in crates() if not asked.crates or name in asked.crates])
    if asked.list:
        return show_list(bodies)
    with tempfile.TemporaryDirectory(prefix="wrong-bodies-") as room:
        copies = [copy_to(Path(room) / str(number)) for number in range(max(asked.at_once, 1))]
        return show_table(try_all(bodies, copies, asked.jobs))


if __name__ == "__main__":
    sys.exit(main())
