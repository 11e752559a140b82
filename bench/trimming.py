#!/usr/bin/env python3
"""Tells what nodes that drop their committed places keep, and what a call costs them, with no world round them.

    bench/trimming.py [PROGRAM]

The program that is measured drives the nodes of a group by 32 calls at a time. They keep 256 registers, 256 counters, a
queue and a set of 488 names, so 1,000 keys, or an object that grows by 1,024 bytes with each call. It promises nothing, so it
is no crate of the repository: its text is `bench/trimming/`, each file with `.txt` behind its name. Without PROGRAM it is
proved and built in a copy of the repository, as the crate `trimming_bench`.

Three tables: the most KB that the process had (GNU `time`), after a tenth, all and ten times of 100,000 calls; instructions of a
call by callgrind (valgrind), over 64 calls in which nothing is dropped and over 256 with the drop that each 256 calls bring; and
what a call costs a lone node whose object is long, from the processor time of two runs.
"""
import os
import shutil
import subprocess
import sys
import tempfile

NAME = "trimming_bench"
LINE = f"{NAME}: ring_base ring_object ring_things ring_session ring_node ring_driver bytes\n"
GROUPS = (1, 2, 3)
CALLS = (10_000, 100_000, 1_000_000)
LONG = (2_048, 4_096, 8_192, 15_360, 17_408)
MORE = 1_024

# 77 drops and 160 calls: the next drop comes with the 96th call more.
START, FEW, ROUND = 19_872, 64, 256


def copied(top):
    """Copies the repository, without what was built, to a new folder `top`, and adds the program. Tells its folder."""
    here = os.path.dirname(os.path.dirname(os.path.abspath(__file__)))
    shutil.copytree(os.path.join(here, "crates"), os.path.join(top, "crates"), ignore=shutil.ignore_patterns("out"))
    shutil.copy(os.path.join(here, "HANDLES"), top)
    with open(os.path.join(here, "crates.txt")) as lines, open(os.path.join(top, "crates.txt"), "w") as copy:
        copy.write(lines.read() + LINE)
    texts = os.path.join(here, "bench", "trimming")
    crate = os.path.join(top, "crates", NAME)
    for folder, _, files in os.walk(texts):
        target = os.path.join(crate, os.path.relpath(folder, texts))
        os.makedirs(target, exist_ok=True)
        for file in files:
            shutil.copy(os.path.join(folder, file), os.path.join(target, file.removesuffix(".txt")))
    return crate


def built(crate):
    """Proves and builds the program, and tells where it is."""
    if subprocess.run(["rt", "run", "--", "things", "1", "1000"], cwd=crate).returncode != 0:
        sys.exit(f"{NAME} is not built")
    return os.path.join(crate, "out", NAME)


def run(program, *task):
    """The most KB that a run of the task had, its seconds of processor time, and the line that it prints."""
    words = ["/usr/bin/time", "-f", "%M", program, *map(str, task)]
    child = subprocess.Popen(words, stdout=subprocess.PIPE, stderr=subprocess.PIPE, text=True)
    line, most = child.stdout.read().strip(), child.stderr.read().strip()
    _, status, used = os.wait4(child.pid, 0)
    if status != 0:
        sys.exit(f"{' '.join(words)}: status {status}")
    return int(most), used.ru_utime + used.ru_stime, line


def best(program, *task):
    """The run of the task, of nine, that took the least time."""
    return min((run(program, *task) for _ in range(9)), key=lambda ran: ran[1])


def instructions(program, *task):
    """How many instructions a run of the task takes."""
    with tempfile.TemporaryDirectory(prefix="trimming-") as folder:
        words = ["valgrind", "--tool=callgrind", f"--callgrind-out-file={folder}/out", program, *map(str, task)]
        told = subprocess.run(words, capture_output=True, text=True, check=True).stderr
    return int(next(line for line in told.splitlines() if "Collected" in line).split()[-1])


def memory(program):
    """Prints how many bytes the process has, by nodes and calls."""
    print("| Nodes | " + " | ".join(f"KB, {calls:,} calls" for calls in CALLS) + " | What the first node tells of the last |")
    print("|---|" + "---|" * (len(CALLS) + 1))
    for nodes in GROUPS:
        ran = [run(program, "things", nodes, calls) for calls in CALLS]
        print(f"| {nodes} | " + " | ".join(f"{most:,}" for most, _, _ in ran) + f" | {ran[-1][2]} |", flush=True)


def cost(program):
    """Prints how many instructions a call costs, without and with the drop that each 256 calls bring."""
    print("| Nodes | Instructions a call, nothing dropped | With what is dropped | The second by the first |")
    print("|---|---|---|---|")
    for nodes in GROUPS:
        begun, few, round_ = (instructions(program, "things", nodes, START + more) for more in (0, FEW, ROUND))
        plain, whole = (few - begun) / FEW, (round_ - begun) / ROUND
        print(f"| {nodes} | {plain:,.0f} | {whole:,.0f} | {whole / plain:.2f} |", flush=True)


def long_objects(program):
    """Prints what a call costs a lone node, by how long its object is."""
    print("| The object's MB | Microseconds a call | Most KB of the process | What the node tells |")
    print("|---|---|---|---|")
    for calls in LONG:
        few, many = best(program, "diary", 1, calls - MORE), best(program, "diary", 1, calls)
        print(f"| {calls / 1024:.0f} | {(many[1] - few[1]) / MORE * 1e6:.0f} | {many[0]:,} | {many[2]} |", flush=True)


def measure(program):
    """Prints the tables."""
    memory(program)
    print()
    cost(program)
    print()
    long_objects(program)


def main():
    if len(sys.argv) > 1:
        measure(sys.argv[1])
        return
    with tempfile.TemporaryDirectory(prefix="trimming-") as top:
        measure(built(copied(top)))


if __name__ == "__main__":
    main()
