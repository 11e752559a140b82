#!/usr/bin/env python3
"""Tells what the proof of each function of a crate costs, in seconds, the dearest first.

    python3 bench/functions.py CRATE [N] [--tests]      from the top of the repository; N functions at most, 30 where none is
                                                        given; --tests: the crate as its tests are proved

A function's proof is several modules: what its body does (`Code`), what it borrows and lets go at each exit (`Lts`), the goals
that are left (`Answers`, `Tie`), and all of it together (`Proof`). The check keeps each module in a file of `out/incremental`
as it is done. The script empties that folder, checks the crate by one job, and looks ten times a second at the processor time that the
prover has used; so when a file was written tells what its module took. It adds up the modules of each function and of each kind.
What else the machine does is not counted, but slows the prover all the same. It ends with the check's own status.
"""
import bisect
import collections
import os
import re
import shutil
import subprocess
import sys
import time

from gate import own_seconds, provers

KINDS = ("Lts", "Proof", "Tie", "Answers", "Invariants", "Goals", "Code", "Mir", "Reads", "Met", "Statement", "TheLink", "Symbol")


def run_and_look(words, folder):
    """Runs a command in a folder, and looks at its provers. Gives its status, and the seconds of processor time that these had used at
    each of many moments."""
    moments, seconds, used = [time.time()], [0.0], {}
    run = subprocess.Popen(words, cwd=folder)
    while run.poll() is None:
        for process, began, *_ in provers(run.pid):
            try:
                used[process, began] = own_seconds(process)
            except (OSError, IndexError):
                continue  # it has ended
        moments.append(time.time())
        seconds.append(sum(used.values()))
        time.sleep(0.1)
    return run.returncode, moments, seconds


def used_until(moment, moments, seconds):
    """The seconds that had been used at a moment, by those before and after it."""
    after = min(bisect.bisect_right(moments, moment), len(moments) - 1)
    before = max(after - 1, 0)
    part = (moment - moments[before]) / max(moments[after] - moments[before], 0.001)
    return seconds[before] + min(max(part, 0.0), 1.0) * (seconds[after] - seconds[before])


def modules(folder, moments, seconds):
    """Returns (seconds, name) of each module below the folder, in the order in which they were done."""
    files = sorted(
        (os.stat(f"{at}/{name}").st_mtime, name)
        for at, _, names in os.walk(folder)
        for name in names
        if name.endswith(".oantt")
    )
    found, last = [], 0.0
    for written, name in files:
        until = used_until(written, moments, seconds)
        found.append((until - last, re.sub(r"(\.decls)?\.oantt$", "", name)))
        last = until
    return found


def main():
    words = [it for it in sys.argv[1:] if it != "--tests"]
    tests = ["--test"] if "--tests" in sys.argv else []
    if not 1 <= len(words) <= 2:
        sys.exit(__doc__)
    crate, most = words[0], int(words[1]) if len(words) > 1 else 30
    shutil.rmtree(f"crates/{crate}/out/incremental", ignore_errors=True)
    status, moments, seconds = run_and_look(["rt", "check", *tests, "--jobs", "1"], f"crates/{crate}")
    kinds, functions = collections.Counter(), collections.Counter()
    for took, name in modules(f"crates/{crate}/out/incremental", moments, seconds):
        library, *path = name.split(".")
        kind = path[-1] if path and path[-1] in KINDS and library.endswith("-proofs") else "other"
        kinds[kind] += took
        function = ".".join(it for it in path if it not in KINDS)
        if kind != "other" and function:
            functions[function] += took
    print(f"{sum(kinds.values()):8.1f} all of `{crate}`")
    for name, took in [*kinds.most_common(), *functions.most_common(most)]:
        print(f"{took:8.1f} {name}")
    sys.exit(status)


if __name__ == "__main__":
    main()
