#!/usr/bin/env python3
"""Times the ring core at two numbers of steps, a tenth and the whole, and tells what a step costs.

    bench/rings.py [RUNS]                times it
    bench/rings.py --instructions        counts instructions instead, by callgrind
    .. --program FILE | --save FILE      takes a program that was built before, or keeps the one that is built

The program that is timed promises nothing, so it is no crate of the repository: its text is `bench/rings/`, each file with
`.txt` behind its name. It is proved and built in a copy of the repository, as the crate `ring_bench`. A step is one frame that
is handed to one processor. For each case, the least user time of RUNS runs is told: in microseconds for a step at each number
of steps, and the second by the first. That last figure stays near 1 where a step costs the same however long the run.

Instructions are those of 10,000 steps behind the first 5,000: of the whole program, whose network keeps each frame as it was sent,
hands it by reference to each of its receivers and lets it go after the last, and whose client makes the calls, each with bytes of its
own; and in the ring core alone, which is what is done in `heard` of the program.
"""
import argparse
import os
import shutil
import subprocess
import sys
import tempfile

NAME = "ring_bench"
LINE = f"{NAME}: ring_base ring_payload ring_wire ring_core_spec ring_srp ring_core_proof\n"
CASES = [("idle", 3), ("idle", 16), ("load", 3), ("load", 16), ("change", 3), ("change", 16)]
FEW = 100_000
MANY = 1_000_000
# Instructions are counted between so many steps and so many.
FIRST = 5_000
LAST = 15_000


def copied(top):
    """Copies the repository, without what was built, to a new folder `top`, and adds the program. Tells its folder."""
    here = os.path.dirname(os.path.dirname(os.path.abspath(__file__)))
    shutil.copytree(os.path.join(here, "crates"), os.path.join(top, "crates"), ignore=shutil.ignore_patterns("out"))
    shutil.copy(os.path.join(here, "HANDLES"), top)
    with open(os.path.join(here, "crates.txt")) as lines, open(os.path.join(top, "crates.txt"), "w") as copy:
        copy.write(lines.read() + LINE)
    texts = os.path.join(here, "bench", "rings")
    crate = os.path.join(top, "crates", NAME)
    for folder, _, files in os.walk(texts):
        target = os.path.join(crate, os.path.relpath(folder, texts))
        os.makedirs(target, exist_ok=True)
        for file in files:
            shutil.copy(os.path.join(folder, file), os.path.join(target, file.removesuffix(".txt")))
    return crate


def built(crate):
    """Proves and builds the program, and tells where it is."""
    first = subprocess.run(["rt", "run", "--", "idle", "3", "1000"], cwd=crate)
    if first.returncode != 0:
        sys.exit(f"{NAME} is not built")
    return os.path.join(crate, "out", NAME)


def run(program, case, processors, steps):
    """The user seconds of a run, and the line that it prints."""
    words = [program, case, str(processors), str(steps)]
    child = subprocess.Popen(words, stdout=subprocess.PIPE, text=True)
    line = child.stdout.read().strip()
    _, status, used = os.wait4(child.pid, 0)
    if status != 0:
        sys.exit(f"{' '.join(words)}: status {status}")
    return used.ru_utime, line


def measure(program, runs):
    """Prints the table."""
    print("| Case | Processors | Microseconds a step, 100,000 steps | 1,000,000 steps | The second by the first | Messages agreed | Rings installed |")
    print("|---|---|---|---|---|---|---|")
    for case, processors in CASES:
        costs = []
        for steps in (FEW, MANY):
            results = [run(program, case, processors, steps) for _ in range(runs)]
            costs.append(min(seconds for seconds, _ in results) / steps * 1e6)
        done = results[0][1].split(": ")[1].replace(",", "").split()
        few, many = costs
        print(f"| {case} | {processors} | {few:.2f} | {many:.2f} | {many / few:.2f} | {int(done[4]):,} | {int(done[7]):,} |", flush=True)


def instructions(program, case, processors, steps, words=()):
    """How many instructions a run takes, by callgrind."""
    command = ["valgrind", "--tool=callgrind", "--callgrind-out-file=/dev/null", *words, program, case, str(processors), str(steps)]
    ran = subprocess.run(command, stdout=subprocess.DEVNULL, stderr=subprocess.PIPE, text=True)
    if ran.returncode != 0:
        sys.exit(f"{' '.join(command)}: status {ran.returncode}")
    return int(ran.stderr.split("Collected :")[1].split()[0])


def count(program):
    """Prints the table of instructions."""
    print("| Case | Processors | Instructions a step | In the ring core alone |\n|---|---|---|---|")
    for case, processors in CASES:
        cells = []
        for words in ([], ["--toggle-collect=ring_bench::rings::heard"]):
            first, last = (instructions(program, case, processors, steps, words) for steps in (FIRST, LAST))
            cells.append(f"{(last - first) / (LAST - FIRST):,.0f}")
        print(f"| {case} | {processors} | " + " | ".join(cells) + " |", flush=True)


def main():
    parser = argparse.ArgumentParser(description=__doc__, formatter_class=argparse.RawDescriptionHelpFormatter)
    parser.add_argument("runs", nargs="?", type=int, default=3)
    parser.add_argument("--instructions", action="store_true")
    parser.add_argument("--program")
    parser.add_argument("--save")
    words = parser.parse_args()
    with tempfile.TemporaryDirectory(prefix="rings-") as top:
        program = words.program or built(copied(top))
        if words.save:
            shutil.copy(program, words.save)
        if words.instructions:
            count(program)
        else:
            measure(program, words.runs)


if __name__ == "__main__":
    main()
