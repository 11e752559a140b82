#!/usr/bin/env python3
"""Measures hosts on threads, beside plain hosts.

    bench/host.py [--runs N] [--program FILE | --save FILE]    calls and lines a second, of this host and of the plain ones; and an idle host
    bench/host.py --soak [--program FILE | --save FILE]        hosts under stops and cramped inboxes, for a minute
    bench/host.py --settle [--program FILE | --save FILE]      40 such hosts under `PacedGate`, and 40 at full speed: how many settle
    bench/host.py --build --save FILE                          proves and builds the program, and measures nothing

The program promises nothing, so it is no crate of the repository: its text is bench/host/, each file with `.txt` behind its
name. It is proved and built in a copy of the repository, as the crate `host_bench`, over what the repository's crates have built
in out/, as far as it is of their text; what is missing is proved first, which may take an hour. --save FILE keeps the program that
is built, and --program FILE measures one that was kept, without a proof: whether it is of this text, the caller knows.

There are two plain hosts: a Mutex a node, an inbox a node, no book and no checks. One has the same nodes, and is part of the
program: it shows what the book and the gauge cost. The other is bench/plain_host.rs, built by rustc, with nodes written for it,
whose ring never changes and loses nothing: it shows what threads and a token can do at all.

For each case N runs of each host are made in turns, 9 where no number is given, so that all of them have the same share of what
else the machine does. Told are the best and the median of this host's calls answered a second, its lines of the book a second, the
same of the plain host of the same nodes, the first by that, of the best and of the medians, and the best of the one in Rust. A run
that didn't answer all its calls is told, and not counted. Ratios matter: seconds depend on the machine and on what else it does.

The soak ends with status 1 if a host's history was not legal; if a call at a node that was not stopped has no answer, and its
client wasn't told why; or if memory grew: if the process held more than 1.1 times as much after a host of the last quarter as
after one of the second, times by how much the longest book had grown, since what a long book took stays with the process. The
process has one heap for all threads (MALLOC_ARENA_MAX of glibc), so that what one host gave back serves the next. With a heap for
each thread it would hold more and more of them half empty.

A host settles if all calls at nodes that were not stopped are answered and its history is legal; under `PacedGate` also within
20,000 lines and 10 seconds. Each host runs in a process of its own, for at most two minutes. --settle ends with status 1 if fewer
than 39 of the 40 settle under `PacedGate` or at full speed.
"""
import argparse
import os
import shutil
import statistics
import subprocess
import sys
import tempfile
import time
from pathlib import Path

ROOT = Path(__file__).resolve().parent.parent
LINE = ("host_bench: ring_base ring_payload ring_wire ring_object ring_things ring_session ring_book ring_seat ring_host "
        "ring_driver ring_client ring_host_port ring_console crossbeam_queue atomic_table bytes\n")
# Nodes, calls in flight a client, calls a client: few enough for a book of 262,144 lines.
CASES = [(3, 1, 2_000), (16, 1, 100), (3, 64, 20_000), (16, 64, 2_000)]
IDLE_NODES, IDLE_MILLIS = 3, 60_000
SOAK_SECONDS = 60
SETTLE_HOSTS, SETTLE_WANTED, SETTLE_SECONDS = 40, 39, 120
# The gate, the program's word for it, and the most lines and seconds of a host that settles.
SETTLE_CASES = [("PacedGate", "soak", 20_000, 10), ("full speed", "settle", 262_144, SETTLE_SECONDS)]
HEADS = ["Nodes", "In flight a client", "Calls a second: best", "median", "Lines a second", "Plain host of the same nodes: best", "median",
         "The first by that: best", "median", "Plain host in Rust: best"]


def taken_over(top):
    """Hands the copy what the repository's crates have built. The toolchain sees what is not of the crates' text."""
    for built_there in ROOT.glob("crates/*/out/rlib"):
        shutil.copytree(built_there, top / built_there.relative_to(ROOT), copy_function=os.link)


def copied(folder):
    """A copy of the repository, with the program among its crates. The folder of the program's crate."""
    top = folder / "repo"
    shutil.copytree(ROOT, top, ignore=shutil.ignore_patterns("out", ".git"))
    taken_over(top)
    crate = top / "crates" / "host_bench"
    for part in ("specs", "proofs"):
        (crate / part).mkdir(parents=True)
        (crate / part / "Lib.antt").touch()
    texts = ROOT / "bench" / "host"
    for text in sorted(texts.rglob("*.txt")):
        place = crate / text.relative_to(texts).with_suffix("")
        place.parent.mkdir(parents=True, exist_ok=True)
        shutil.copy(text, place)
    with open(top / "crates.txt", "a", encoding="utf-8") as crates:
        crates.write(LINE)
    return crate


def built(folder, save):
    """The path of the program, proved and built."""
    crate = copied(folder)
    subprocess.run(["rt", "run", "--", "load", "1", "1", "1"], cwd=crate, check=True)
    program = crate / "out" / "host_bench"
    if save:
        shutil.copy(program, save)
    return program


def plain_built(folder):
    """The path of the plain host."""
    program = folder / "plain_host"
    subprocess.run(["rustc", "--edition", "2021", "-O", "-o", str(program), str(ROOT / "bench" / "plain_host.rs")], check=True)
    return program


def run(*words):
    """What the program's line tells, by its words, and the seconds of processor time that it took."""
    child = subprocess.Popen([str(word) for word in words], stdout=subprocess.PIPE, text=True)
    line = child.stdout.read().split()
    _, status, used = os.wait4(child.pid, 0)
    if status != 0 or not line:
        sys.exit(f"{' '.join(str(word) for word in words)}: status {status}")
    return dict(zip(line[::2], line[1::2])), used.ru_utime + used.ru_stime


def rates(told, wanted):
    """Calls answered and lines a second of a run, if all calls that were wanted were answered."""
    seconds = int(told["nanos"]) / 1e9
    is_whole = int(told["answered"]) == wanted
    return (int(told["answered"]) / seconds, int(told.get("lines", 0)) / seconds) if is_whole else None


def case(hosts, runs, nodes, depth, calls):
    """The rates of each host, of runs in turns."""
    seen = [[] for _ in hosts]
    for _ in range(runs):
        for words, rows in zip(hosts, seen):
            rows.append(rates(run(*words, nodes, depth, calls)[0], nodes * calls))
    for words, rows in zip(hosts, seen):
        if None in rows:
            print(f"{rows.count(None)} runs of {' '.join(str(word) for word in words)} did not answer all calls", file=sys.stderr)
    return [[row for row in rows if row] or [(0.0, 0.0)] for rows in seen]


def table(program, plain, runs):
    print("| " + " | ".join(HEADS) + " |")
    print("|" + "---|" * len(HEADS))
    for nodes, depth, calls in CASES:
        own, plainly, in_rust = case([(program, "load"), (program, "plain"), (plain,)], runs, nodes, depth, calls)
        middle, plain_middle = (statistics.median(rate for rate, _ in rows) for rows in (own, plainly))
        (most, lines), (plain_most, _), (rust_most, _) = max(own), max(plainly), max(in_rust)
        cells = [f"{number:,.0f}" for number in (most, middle, lines, plain_most, plain_middle)]
        cells += [f"{one / max(other, 1):.2f}" for one, other in ((most, plain_most), (middle, plain_middle))]
        print("| " + " | ".join([str(nodes), str(depth), *cells, f"{rust_most:,.0f}"]) + " |", flush=True)


def idle(program):
    told, used = run(program, "idle", IDLE_NODES, IDLE_MILLIS)
    seconds = int(told["nanos"]) / 1e9
    rate = int(told["lines"]) / seconds
    print(f"\nA host of {IDLE_NODES} that rests: {rate:,.0f} lines a second, so its book lasts {262_144 / rate:,.0f} seconds; "
          f"{used / seconds:.3f} of one processor.")


def held(pid):
    """The bytes that a process holds."""
    with open(f"/proc/{pid}/statm", encoding="ascii") as file:
        return int(file.read().split()[1]) * os.sysconf("SC_PAGE_SIZE")


def soak(program):
    """Hosts, one after another, for a minute. The status."""
    one_heap = {**os.environ, "MALLOC_ARENA_MAX": "1"}
    child = subprocess.Popen([str(program), "soak", "1000000"], stdout=subprocess.PIPE, text=True, env=one_heap)
    ends = time.monotonic() + SOAK_SECONDS
    answered, holds, wrong, lost, told_why, lines = 0, [], 0, 0, 0, []
    for line in child.stdout:
        told = dict(zip(line.split()[::2], line.split()[1::2]))
        answered += int(told["answered"])
        wrong += told["legal"] != "true"
        lost += told["untold"] != "0"
        told_why += told["missed"] != "0" and told["fault"] != "0"
        lines.append(int(told["lines"]))
        holds.append(held(child.pid))
        if time.monotonic() > ends:
            child.terminate()
            break
    child.wait()
    quarter = max(1, len(holds) // 4)
    early, late = max(holds[quarter:2 * quarter] or holds or [0]), max(holds[-quarter:] or [0])
    longer = max(lines, default=1) / max(lines[:2 * quarter] or lines, default=1)
    print(f"{len(holds)} hosts of {min(lines, default=0):,} to {max(lines, default=0):,} lines, {answered:,} calls answered; {wrong} not legal, "
          f"{told_why} with clients that were told why calls at nodes that go on have no answer, {lost} where they were not told; "
          f"at most {early:,} bytes early, {late:,} late")
    return int(not holds or wrong > 0 or lost > 0 or late > 1.1 * longer * early)


def settling(program, word):
    """The lines and seconds of one host, and whether it answered all and is legal; nothing of one that does not end in time."""
    try:
        done = subprocess.run([str(program), word, "1"], stdout=subprocess.PIPE, text=True, timeout=SETTLE_SECONDS, check=True)
    except subprocess.TimeoutExpired:
        return None
    line = done.stdout.split()
    told = dict(zip(line[::2], line[1::2]))
    is_whole = told["missed"] == "0" and told["legal"] == "true"
    return int(told["lines"]), int(told["nanos"]) / 1e9, is_whole


def settle(program):
    """Hosts with cramped inboxes whose nodes are stopped: how many settle, by gate. The status."""
    status = 0
    for gate, word, most_lines, most_seconds in SETTLE_CASES:
        load = os.getloadavg()[0]
        hosts = [settling(program, word) for _ in range(SETTLE_HOSTS)]
        whole = [host for host in hosts if host and host[2]]
        settled = [host for host in whole if host[0] <= most_lines and host[1] <= most_seconds]
        lines, seconds = ([host[at] for host in whole] or [0] for at in (0, 1))
        print(f"{gate}: {len(settled)} of {SETTLE_HOSTS} hosts settled, {len(whole)} answered all, {hosts.count(None)} did not end; "
              f"lines of those that answered all: median {statistics.median(lines):,.0f}, most {max(lines):,}; "
              f"seconds: median {statistics.median(seconds):.2f}, most {max(seconds):.2f}; "
              f"load {load:.0f} to {os.getloadavg()[0]:.0f}", flush=True)
        status |= len(settled) < SETTLE_WANTED
    return int(status)


def main():
    parser = argparse.ArgumentParser(description=__doc__, formatter_class=argparse.RawDescriptionHelpFormatter)
    parser.add_argument("--soak", action="store_true")
    parser.add_argument("--settle", action="store_true")
    parser.add_argument("--build", action="store_true")
    parser.add_argument("--runs", type=int, default=9)
    parser.add_argument("--program", type=Path)
    parser.add_argument("--save", type=Path)
    words = parser.parse_args()
    with tempfile.TemporaryDirectory() as folder:
        folder = Path(folder)
        program = words.program or built(folder, words.save)
        if words.build:
            return
        if words.soak:
            sys.exit(soak(program.resolve()))
        if words.settle:
            sys.exit(settle(program.resolve()))
        table(program.resolve(), plain_built(folder), words.runs)
        idle(program.resolve())


if __name__ == "__main__":
    main()
