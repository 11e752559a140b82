"""Outside clients of a group under faults; whether their histories have one order."""
from __future__ import annotations

import argparse
import random
import re
import signal
import socket
import threading
import time
from pathlib import Path
from time import monotonic

from histories import Try, counter_faults, register_faults, try_checkers
from networks import Loopback, Relay
from service_group import Group, encoded, network_of

PATIENCE = 0.25  # seconds until a client goes on to the next node


class Client(threading.Thread):
    """A client with one command under way, which goes on to the next node where it has no answer."""

    def __init__(self, number: int, group: Group, mode: str, seed: int, end_at: float) -> None:
        super().__init__()
        self.number, self.group, self.mode, self.end_at = number, group, mode, end_at
        self.draws, self.at, self.count, self.tries, self.retries = random.Random(seed * 1000 + number), number, 0, list[Try](), 0
        self.seen: dict[int, int] = {}
        self.wrong: list[str] = []
        self.sock: socket.socket | None = None

    def run(self) -> None:
        while monotonic() < self.end_at - 1.5:
            self.count += 1
            drawn = self.draw()
            while monotonic() < self.end_at and not self.has_answer(drawn):
                self.at += 1
                self.retries += 1

    def draw(self) -> tuple[str, int, tuple[int, ...]]:
        if self.mode == "counter":
            return ("get" if self.draws.random() < 0.25 else "add", 0, ())
        key, value, chance = int(monotonic() * 4) % 64, self.number << 24 | self.count, self.draws.random()
        if chance < 0.4:
            return "get", key, ()
        return ("put", key, (value,)) if chance < 0.75 else ("cas", key, (self.seen.get(key, 0), value))

    def has_answer(self, drawn: tuple[str, int, tuple[int, ...]]) -> bool:
        """Tries the command at one node."""
        operation, key, values = drawn
        name = f"c{key}" if self.mode == "counter" else f"r{key}"
        words = ({"add": "INCR", "get": "GET", "put": "SET", "cas": "CAS"}[operation], name, *map(str, values))
        tried = Try(operation, monotonic(), key=key, values=values)
        reply = self.reply_to(encoded(words))
        if reply is None or b"may still take effect" in reply:
            self.tries.append(tried)  # it may take effect
            return False
        if reply.startswith(b"-TRYAGAIN"):
            return False
        if reply[:1] == b"-":
            self.wrong.append(f"{words} was answered {reply!r}")
            return True
        tried.end = monotonic()
        tried.answer = None if reply == b"+OK\r\n" else int(re.fullmatch(rb"(?::|\$\d+\r\n)(\d+)\r\n", reply)[1])
        self.seen[key] = values[-1] if tried.answer is None else tried.answer
        self.tries.append(tried)
        return True

    def reply_to(self, command: bytes) -> bytes | None:
        """The reply of a node, if it comes soon."""
        try:
            if not self.sock:
                self.sock = socket.create_connection(self.group.address(1 + self.at % self.group.nodes), PATIENCE)
                self.sock.settimeout(PATIENCE)
            self.sock.sendall(command)
            reply = self.sock.recv(4096)
            if reply.endswith(b"\r\n") and (reply[:1] != b"$" or reply.count(b"\r\n") == 2):
                return reply
        except OSError:
            pass
        if self.sock:
            self.sock.close()
        self.sock = None
        return None


def disturb(group: Group, network: Loopback, draws: random.Random, end_at: float) -> list[str]:
    """Faults, one after the other, until shortly before the end. Returns what was done."""
    done, killed = [], set()
    while monotonic() < end_at - 3:
        time.sleep(draws.uniform(0.2, 0.8))
        chance, live = draws.random(), [me for me in group.processes if me not in killed]
        if chance < 0.35:
            victim = draws.choice(live)
            group.send(victim, signal.SIGSTOP)
            time.sleep(draws.uniform(0.3, 2.0))
            group.send(victim, signal.SIGCONT)
            done.append(f"stop {victim}")
        elif chance < 0.75:
            side = set(draws.sample(range(1, group.nodes + 1), draws.randrange(1, group.nodes)))
            network.cut(side)
            time.sleep(draws.uniform(0.5, 2.0))
            network.cut(set())
            done.append(f"cut {sorted(side)}")
        elif chance < 0.88 and isinstance(network, Relay):
            network.percents[0] = 15
            time.sleep(draws.uniform(0.5, 1.5))
            network.percents[0] = 1
            done.append("loss")
        elif len(killed) < (group.nodes - 1) // 2:
            killed.add(victim := draws.choice(live))
            group.send(victim, signal.SIGKILL)
            done.append(f"kill {victim}")
    return done


def check(program: Path, options: argparse.Namespace) -> list[str]:
    try_checkers()
    wrong = []
    for run in range(options.runs):
        mode, draws = ("register", "counter")[run % 2], random.Random(options.seed + run)
        network = network_of(options)
        group = Group(program, options, network)
        try:
            group.wait_until_ready()
            if isinstance(network, Relay):
                network.percents[:] = [1, 2, 2]
            end_at = monotonic() + options.seconds
            clients = [Client(number, group, mode, options.seed + run, end_at) for number in range(10)]
            for client in clients:
                client.start()
            done = disturb(group, network, draws, end_at)
            for client in clients:
                client.join()
        finally:
            ends = group.end()
            network.end()
        history = [tried for client in clients for tried in client.tries]
        faults = ends + [fault for client in clients for fault in client.wrong] + (register_faults if mode == "register" else counter_faults)(history)
        answered = sum(tried.has_answer for tried in history)
        print(f"{mode}, {options.nodes} nodes: {answered} answers, {len(history) - answered} tries without one, "
              f"{sum(client.retries for client in clients)} went on to the next node; {', '.join(done)}; {len(faults)} faults", flush=True)
        wrong += faults + ([] if answered else ["nothing was answered"])
    return wrong
