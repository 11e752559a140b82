"""Commands a second, memory, and what an idle group costs."""
from __future__ import annotations

import argparse
import itertools
import os
import re
import statistics
import subprocess
import time
from pathlib import Path
from time import monotonic

import corosync
from networks import Namespaces
from service_group import Group, ask, members

CLIENT = Path(__file__).resolve().parent / "resp_client.c"
COROSYNC = {"corosync, each call told by itself": 1, "corosync, calls told together": 1 << 30}  # bench/cpg_client.c: MOST


def benchmark(address: tuple[str, int], count: int, *words: str) -> float:
    """Commands a second by redis-benchmark."""
    line = ["redis-benchmark", "-h", address[0], "-p", str(address[1]), "-n", str(count), *words]
    done = subprocess.run([str(word) for word in line], check=False, capture_output=True, text=True, timeout=600)
    if done.returncode != 0:
        raise SystemExit(f"redis-benchmark ended with status {done.returncode}: {done.stdout[-200:]} {done.stderr[-500:]}")
    return float(re.findall(r"([\d.]+) requests per second", done.stdout)[-1])


def load(program: Path, options: argparse.Namespace) -> list[str]:
    if options.namespaces:
        return beside(program, options)
    group = Group(program, options)
    try:
        group.wait_until_ready()
        print("| Nodes | Connections at node 1 | Commands sent at once | Commands | Commands a second | Load |\n|---|---|---|---|---|---|")
        for connections, pipeline, count in ((1, 1, options.calls // 20), (50, 1, options.calls), (50, 16, options.calls)):
            speed = benchmark(group.address(1), count, "-c", connections, "-P", pipeline, "INCRBY", "c0", "1")
            print(f"| {group.nodes} | {connections} | {pipeline} | {count:,} | {speed:,.0f} | {os.getloadavg()[0]:.1f} |", flush=True)
        wanted = 2 * options.calls + options.calls // 20
        got = ask(group.address(group.nodes), "GET", "c0")
    finally:
        wrong = group.end()
    return wrong + ([] if got == b"$%d\r\n%d\r\n" % (len(str(wanted)), wanted) else [f"the counter is {got!r} after {wanted} commands"])


def beside(program: Path, options: argparse.Namespace) -> list[str]:
    """Calls a second of corosync and of ours, in turns."""
    network, client, wrong = Namespaces(options.nodes, options.port), corosync.built(program.parent), list[str]()
    subprocess.run(["cc", "-O2", "-Wall", "-Wextra", "-Werror", "-o", program.parent / "resp_client", CLIENT], check=True)
    found: dict[tuple[int, str], list[int]] = {}
    try:
        for _, in_flight in itertools.product(range(options.runs), (1, 64)):
            parts = [in_flight // options.nodes + (i < in_flight % options.nodes) for i in range(options.nodes)]
            for name, most in COROSYNC.items():
                found.setdefault((in_flight, name), []).extend(corosync.calls(client, network, parts, most, int(options.seconds)))
            ours, faults = calls_a_second(program, options, network, parts)
            found.setdefault((in_flight, "ours"), []).extend(ours)
            wrong += faults
    finally:
        network.end()
    print("| Calls in flight | Of | Calls a second, median | Slowest and fastest second | Ours by it |\n|---|---|---|---|---|")
    for (in_flight, name), calls in found.items():
        part = statistics.median(found[in_flight, "ours"]) / statistics.median(calls)
        print(f"| {in_flight} | {name} | {statistics.median(calls):,.0f} | {min(calls):,}, {max(calls):,} | {part:.2f} |")
    print(f"{options.nodes} nodes, {options.runs} turns of {int(options.seconds)} s; load {os.getloadavg()[0]:.1f} on {os.cpu_count()} processors")
    return wrong


def calls_a_second(program: Path, options: argparse.Namespace, network: Namespaces, in_flight: list[int]) -> tuple[list[int], list[str]]:
    """The group's answered calls in each second, with so many connections at each node, from the second second of calls on."""
    group, clients, counts = Group(program, options, network, has_key=False), list[subprocess.Popen](), list[int]()
    try:
        group.wait_until_ready()
        for me, count in enumerate(in_flight, 1):
            words = [*network.words_before(me), program.parent / "resp_client", *group.address(me), count]
            if count > 0:
                clients.append(subprocess.Popen([str(word) for word in words]))
        begin = monotonic() + 1
        for second in range(int(options.seconds) + 1):
            time.sleep(max(0.0, begin + second - monotonic()))
            counts.append(sum(int(re.search(rb"answered:(\d+)", ask(group.address(me), "INFO"))[1]) for me in group.processes))
    finally:
        for process in clients:
            process.kill()
            process.wait()
        wrong = group.end()
    return [after - before for before, after in zip(counts, counts[1:])], wrong


def kilobytes(process: subprocess.Popen) -> list[int]:
    texts = [Path(f"/proc/{number}/status").read_text(encoding="ascii") for number in members(process)]
    return [int(re.search(r"VmRSS:\s+(\d+)", text)[1]) for text in texts]


def memory(program: Path, options: argparse.Namespace) -> list[str]:
    # The unproved program has an address sanitizer, which would keep 256 MB of freed memory.
    os.environ["ASAN_OPTIONS"] = "quarantine_size_mb=1:thread_local_quarantine_size_kb=64"
    group, sizes, step = Group(program, options), [], options.calls // 10
    try:
        group.wait_until_ready()
        for part in range(11):
            if part > 0:
                benchmark(group.address(1), step, "-c", 50, "-P", 16, "INCRBY", "c0", "1")
            sizes.append([kilobytes(process) for process in group.processes.values()])
            print(f"{part * step:,} calls: kB of service and node: {sizes[-1]}", flush=True)
    finally:
        wrong = group.end()
    # The first tenth may make buffers; what comes after it may not.
    grown = [(before, after) for first, last in zip(sizes[1], sizes[10]) for before, after in zip(first, last) if after > 1.02 * before + 64]
    return wrong + [f"{before} kB became {after} kB" for before, after in grown]


def idle(program: Path, options: argparse.Namespace) -> list[str]:
    group, seconds = Group(program, options), options.seconds
    try:
        group.wait_until_ready()
        time.sleep(1)
        before = [cpu_seconds(process) for process in group.processes.values()]
        time.sleep(seconds)
        used = [(after - start) / seconds for after, start in zip((cpu_seconds(process) for process in group.processes.values()), before)]
    finally:
        wrong = group.end()
    print(f"{group.nodes} nodes, idle for {seconds} s: of a processor a node: {', '.join(f'{part:.3f}' for part in used)}; "
          f"load {os.getloadavg()[0]:.1f} on {os.cpu_count()} processors")
    return wrong


def cpu_seconds(process: subprocess.Popen) -> float:
    fields = [Path(f"/proc/{number}/stat").read_text(encoding="utf-8").rsplit(")", 1)[1].split() for number in members(process)]
    return sum(int(field[11]) + int(field[12]) for field in fields) / os.sysconf("SC_CLK_TCK")
