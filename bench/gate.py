#!/usr/bin/env python3
"""Runs the gate and prints what each crate of it costs, its longest chain, and which crates its lanes waited for.

    python3 bench/gate.py [COMMAND ..]      from the top of the repository; the command is `rt ci` where none is given

The gate runs the prover once for a crate's proof, once more for its tests, and once for each wrong body of
`must-fail/`. This script looks twice a second at the provers that run and at the processor time that each has used, and adds
that up by crate and by what it was run for. The last half second of a prover can be missed, and linking and the runs of the
built tests are not counted: the table shows where the time goes, not the last second of it.

Below the table: the processor time of the gate itself, which reads the texts of crates and starts the provers; the mean load of the
machine; the longest chain, which is the crates, each above the one before it, whose proofs took longest by the clock; and, for the time
in which fewer provers ran than the machine has processors, the crates that ran then. It ends with the gate's own status.
"""
import os
import subprocess
import sys
import time
from collections import Counter

TICKS = os.sysconf("SC_CLK_TCK")
KINDS = ("proof", "tests", "edits")


def is_below(process, gate):
    """Whether the gate started the process, itself or through others."""
    while process not in ("0", "1"):
        if process == str(gate):
            return True
        with open(f"/proc/{process}/stat", encoding="utf-8") as it:
            process = it.read().rpartition(")")[2].split()[1]
    return False


def own_seconds(process):
    """The seconds of processor time that a process has used, without its children's."""
    with open(f"/proc/{process}/stat", encoding="utf-8") as it:
        numbers = it.read().rpartition(")")[2].split()
    return sum(int(numbers[at]) for at in (11, 12)) / TICKS


def provers(gate):
    """Yields (process, when it began, crate, kind, seconds used) of each prover that the gate runs."""
    for entry in os.listdir("/proc"):
        if not entry.isdigit():
            continue
        try:
            with open(f"/proc/{entry}/cmdline", "rb") as it:
                words = it.read().decode(errors="replace").split("\0")
            if not words[0].endswith("/rattle") or "--crate-name" not in words or not is_below(entry, gate):
                continue
            folder = os.readlink(f"/proc/{entry}/cwd")
            with open(f"/proc/{entry}/stat", encoding="utf-8") as it:
                numbers = it.read().rpartition(")")[2].split()
        except (OSError, IndexError):
            continue
        crate = words[words.index("--crate-name") + 1]
        kind = "edits" if "/rt-edit-" in folder else "tests" if "--test" in words else "proof"
        # user and system time, of itself and of the children that it waited for
        used = sum(int(numbers[at]) for at in (11, 12, 13, 14)) / TICKS
        yield entry, numbers[19], crate, kind, used


def libraries():
    """The crates of the repository that each crate names, by `crates.txt`."""
    with open("crates.txt", encoding="utf-8") as it:
        lines = [line.split("#")[0].split(":") for line in it if ":" in line.split("#")[0]]
    named = {head.split()[0]: rest.split() for head, rest in lines}
    return {crate: [it for it in names if it in named] for crate, names in named.items()}


def longest_chain(clock):
    """The crates of the longest chain, lowest first, and its seconds by the clock."""
    below, found = libraries(), {}

    def chain(crate):
        if crate not in found:
            seconds, crates = max((chain(it) for it in below.get(crate, [])), default=(0.0, []))
            found[crate] = (seconds + clock.get(crate, 0.0), [*crates, crate])
        return found[crate]

    return max(map(chain, below), default=(0.0, []))


def table(seen):
    """Prints a row for each crate, the dearest first. The seconds in all."""
    sums = {}
    for crate, kind, used in seen.values():
        sums.setdefault(crate, dict.fromkeys(KINDS, 0.0))[kind] += used
    print("\n| Crate | Proof | Tests | Edits | All |\n|---|---|---|---|---|")
    for crate, row in sorted(sums.items(), key=lambda it: -sum(it[1].values())):
        print(f"| `{crate}` | " + " | ".join(f"{row[kind]:.0f}" for kind in KINDS) + f" | {sum(row.values()):.0f} |")
    whole = {kind: sum(row[kind] for row in sums.values()) for kind in KINDS}
    print("| all | " + " | ".join(f"{whole[kind]:.0f}" for kind in KINDS) + f" | {sum(whole.values()):.0f} |")
    return sum(whole.values())


def main():
    command = sys.argv[1:] or ["rt", "ci"]
    began, seen, own, loads, clock, idle, waited = time.time(), {}, 0.0, [], Counter(), 0.0, Counter()
    gate = subprocess.Popen(command)
    last = began
    while gate.poll() is None:
        running = set()
        for process, since, crate, kind, used in provers(gate.pid):
            seen[process, since] = (crate, kind, used)
            running.add((crate, kind))
        now = time.time()
        for crate, kind in running:
            clock[crate] += (now - last) * (kind == "proof")
        if len(running) < os.cpu_count():
            idle += now - last
            waited.update({f"{crate} ({kind})": now - last for crate, kind in running})
        last = now
        try:
            own = own_seconds(gate.pid)
        except OSError:
            pass
        loads.append(os.getloadavg()[0])
        time.sleep(0.5)
    all_seconds = table(seen)
    print(f"\n{all_seconds / 60:.0f} minutes of processor time, {(time.time() - began) / 60:.0f} minutes by the clock, {os.cpu_count()} processors")
    print(f"{own:.0f} seconds of the gate itself; a load of {sum(loads) / max(len(loads), 1):.1f}")
    seconds, crates = longest_chain(clock)
    print(f"the longest chain, {seconds / 60:.0f} minutes by the clock: " + ", ".join(f"{it} {clock[it]:.0f} s" for it in crates))
    print(f"fewer provers than processors for {idle / 60:.0f} minutes; then ran: " + ", ".join(f"{it} {seconds:.0f} s" for it, seconds in waited.most_common(12)))
    return gate.returncode


if __name__ == "__main__":
    sys.exit(main())
