"""How long faults keep the nodes of a group from answering."""
from __future__ import annotations

import argparse
import os
import random
import signal
import socket
import statistics
import threading
import time
from contextlib import suppress
from pathlib import Path
from time import monotonic

from networks import Loopback, Relay
from service_group import Group, network_of

FAULTS = "kill holder stop0.5 stop2 stop5 cut_one cut_minority".split()
LIMIT = 15.0  # seconds until a node must answer again


class Prober(threading.Thread):
    """Adds 1 at each node again and again, and keeps the times of its answers."""

    def __init__(self, group: Group) -> None:
        super().__init__()
        self.times = {me: list[float]() for me in group.processes}
        self.group, self.has_to_end = group, False

    def run(self) -> None:
        threads = [threading.Thread(target=self.probe, args=(me,)) for me in self.times]
        for thread in threads:
            thread.start()
        for thread in threads:
            thread.join()

    def probe(self, me: int) -> None:
        while not self.has_to_end:
            with suppress(OSError), socket.create_connection(self.group.address(me), 1) as sock:
                sock.settimeout(20)
                while not self.has_to_end:
                    sock.sendall(b"INCR c0\r\n")
                    reply = sock.recv(4096)
                    if not reply:
                        break
                    if reply.startswith(b":"):
                        self.times[me].append(monotonic())
                    time.sleep(0.004)
            time.sleep(0.02)

    def wait_for(self, nodes: list[int], since: float) -> bool:
        """Waits until each node answered after this time. Returns whether each did."""
        while monotonic() < since + LIMIT:
            if all(self.times[me] and self.times[me][-1] > since for me in nodes):
                return True
            time.sleep(0.05)
        return False


def outage(times: list[float], fault_at: float) -> float:
    """The time from the fault to the end of the last pause of 50 ms or more that began within a second of it."""
    moments = [fault_at] + [at for at in times if at > fault_at]
    ends = [end for begin, end in zip(moments, moments[1:]) if begin < fault_at + 1 and end - begin >= 0.05]
    return max(ends, default=moments[1]) - fault_at


def do_fault(fault: str, group: Group, network: Loopback, victim: int, draws: random.Random) -> tuple[float, float, set[int]]:
    """Does a fault. Returns its begin, its end, and the nodes that it hit."""
    begin, side = monotonic(), {victim}
    if fault == "kill":
        group.send(victim, signal.SIGKILL)
    elif fault == "holder" and isinstance(network, Relay):
        network.holder[1] = group.processes[victim].pid
        network.holder[0] = victim
        while network.holder[0] and monotonic() < begin + 5:
            time.sleep(0.001)
        begin = monotonic()
    elif fault.startswith("stop"):
        group.send(victim, signal.SIGSTOP)
        time.sleep(float(fault[4:]))
        group.send(victim, signal.SIGCONT)
    else:
        side = side if fault == "cut_one" else set(draws.sample(range(1, group.nodes + 1), (group.nodes - 1) // 2))
        network.cut(side)
        time.sleep(2)
        network.cut(set())
    return begin, monotonic(), side


def recover_once(program: Path, options: argparse.Namespace, fault: str, draws: random.Random) -> tuple[list[float], list[float], list[str]]:
    """One fault of a new group. Returns the outages of the other nodes, those of the nodes that it hit, and what is wrong."""
    network = network_of(options)
    group = Group(program, options, network)
    prober = Prober(group)
    try:
        group.wait_until_ready()
        prober.start()
        time.sleep(draws.uniform(0.5, 1.5))
        begin, end, side = do_fault(fault, group, network, draws.randrange(1, options.nodes + 1), draws)
        others = [me for me in group.processes if me not in side]
        back = [] if fault in ("kill", "holder") else sorted(side)
        has_all = prober.wait_for(others, begin + 0.1) and prober.wait_for(back, end + 0.1)
        time.sleep(1.2)
    finally:
        prober.has_to_end = True
        wrong = group.end()
        if prober.is_alive():
            prober.join()
        network.end()
    if not has_all:
        return [], [], wrong + [f"{fault}: a node has no answer within {LIMIT:.0f} s"]
    return [outage(prober.times[me], begin) for me in others], [outage(prober.times[me], end) for me in back], wrong


def recovery(program: Path, options: argparse.Namespace) -> list[str]:
    draws, wrong = random.Random(options.seed), []
    print("| Fault | Nodes | Times | Others: median, greatest s | Nodes that came back: median, greatest s | Load |\n|---|---|---|---|---|---|")
    for fault in (fault for fault in options.faults.split(",") if fault != "holder" or not options.namespaces):
        others, back = list[float](), list[float]()
        for _ in range(options.runs):
            found = recover_once(program, options, fault, draws)
            others, back, wrong = others + found[0], back + found[1], wrong + found[2]
        texts = [f"{statistics.median(times):.2f}, {max(times):.2f}" if times else "" for times in (others, back)]
        print(f"| {fault} | {options.nodes} | {options.runs} | {texts[0]} | {texts[1]} | {os.getloadavg()[0]:.1f} |", flush=True)
    return wrong
