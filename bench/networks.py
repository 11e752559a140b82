"""Networks between the nodes of a group on this machine, for trials. Each tells the options that a node needs in it."""
from __future__ import annotations

import multiprocessing
import os
import random
import select
import signal
import socket
import subprocess
import time

HOST = "127.0.0.1"
MOST = 17  # processors are 1 to 16
ENVELOPE_HEAD, ENVELOPE, KIND_AT, TOKEN = 18, 50, 3, 2  # examples/service/peers.h and docs/FORMATS.md, Frames


class Loopback:
    """The loopback interface itself. Node I has the UDP port `port` + I."""

    def __init__(self, nodes: int, port: int) -> None:
        self.nodes, self.port = nodes, port

    def others(self, me: int) -> list[int]:
        return [i for i in range(1, self.nodes + 1) if i != me]

    def host_of(self, me: int) -> str:
        """Where clients and nodes reach a node."""
        return HOST

    def peers_of(self, me: int) -> str:
        """The option --peers of a node."""
        return ",".join(f"{self.host_of(to)}:{self.port + to}" for to in self.others(0))

    def words_before(self, me: int) -> list[str]:
        """What stands before a node's command."""
        return []

    def cut(self, side: set[int]) -> None:
        """Lets nothing pass between these nodes and the others. No node is on the side once the cut heals."""
        raise NotImplementedError

    def end(self) -> None:
        """Ends what was started."""


class Namespaces(Loopback):
    """A network namespace for each node, within that of this process, which must be its own (`unshare -n`). Node I has the address
    10.9.0.I at a bridge of its own side, and 10.8.0.I at the bridge of the clients. A cut moves nodes to the other side's bridge."""

    SIDES, CLIENTS = ("side0", "side1"), "clients"

    def __init__(self, nodes: int, port: int) -> None:
        super().__init__(nodes, port)
        self.holders: dict[int, subprocess.Popen] = {}
        run("ip", "link", "set", "lo", "up")
        for bridge in (*self.SIDES, self.CLIENTS):
            run("ip", "link", "add", bridge, "type", "bridge", "forward_delay", "0")
            run("ip", "link", "set", bridge, "up")
        run("ip", "address", "add", "10.8.0.100/24", "dev", self.CLIENTS)
        for me in self.others(0):
            self.holders[me] = subprocess.Popen(["unshare", "-n", "sleep", "3600"])
            while os.readlink(f"/proc/{self.holders[me].pid}/ns/net") == os.readlink("/proc/self/ns/net"):
                time.sleep(0.01)
            run(*self.words_before(me), "ip", "link", "set", "lo", "up")
            self.join(me, f"ring{me}", "ring", self.SIDES[0], f"10.9.0.{me}/24")
            self.join(me, f"client{me}", "client", self.CLIENTS, f"10.8.0.{me}/24")

    def join(self, me: int, outside: str, inside: str, bridge: str, address: str) -> None:
        """Connects a node with a bridge."""
        run("ip", "link", "add", outside, "type", "veth", "peer", "name", inside, "netns", str(self.holders[me].pid))
        run("ip", "link", "set", outside, "master", bridge, "up")
        run(*self.words_before(me), "ip", "address", "add", address, "dev", inside)
        run(*self.words_before(me), "ip", "link", "set", inside, "up")

    def host_of(self, me: int) -> str:
        return f"10.8.0.{me}"

    def peers_of(self, me: int) -> str:
        return ",".join(f"10.9.0.{to}:{self.port + to}" for to in self.others(0))

    def words_before(self, me: int) -> list[str]:
        return ["nsenter", "-t", str(self.holders[me].pid), "-n"]

    def cut(self, side: set[int]) -> None:
        for me in self.others(0):
            run("ip", "link", "set", f"ring{me}", "master", self.SIDES[me in side])

    def end(self) -> None:
        for holder in self.holders.values():
            holder.kill()
            holder.wait()
        for me in self.others(0):  # a namespace goes some time after its last process
            run("ip", "link", "delete", f"ring{me}", check=False)
            run("ip", "link", "delete", f"client{me}", check=False)
        for bridge in (*self.SIDES, self.CLIENTS):
            run("ip", "link", "delete", bridge)


def run(*words: str, check: bool = True) -> None:
    subprocess.run(words, check=check, stderr=None if check else subprocess.DEVNULL)


class Relay(Loopback):
    """A bad network: datagrams pass through a process that loses, repeats, swaps or cuts them. Each node has, in place of each
    other node's address, a port of the relay, so the nodes run unchanged."""

    def __init__(self, nodes: int, port: int) -> None:
        super().__init__(nodes, port)
        self.cuts = multiprocessing.Array("B", MOST * MOST, lock=False)  # 1 at MOST * from + to: nothing passes
        self.percents = multiprocessing.Array("B", 3, lock=False)  # lost, repeated, swapped with the next
        self.holder = multiprocessing.Array("i", 2, lock=False)  # kill the process group [1] as the token goes to [0], which is then 0
        sockets = {(a, b): socket.socket(socket.AF_INET, socket.SOCK_DGRAM) for a in self.others(0) for b in self.others(a)}
        for (sender, receiver), sock in sockets.items():
            sock.setblocking(False)
            sock.bind((HOST, self.port_of(sender, receiver)))
        self.process = multiprocessing.get_context("fork").Process(target=self.pass_all, args=(sockets,), daemon=True)
        self.process.start()
        for sock in sockets.values():
            sock.close()

    def port_of(self, sender: int, receiver: int) -> int:
        return self.port + receiver if sender == receiver else self.port + MOST * sender + receiver

    def peers_of(self, me: int) -> str:
        return ",".join(f"{HOST}:{self.port_of(me, to)}" for to in self.others(0))

    def cut(self, side: set[int]) -> None:
        for sender in self.others(0):
            for receiver in self.others(sender):
                self.cuts[MOST * sender + receiver] = (sender in side) != (receiver in side)

    def end(self) -> None:
        self.process.terminate()
        self.process.join()

    def pass_all(self, sockets: dict[tuple[int, int], socket.socket]) -> None:
        draws, waiting = random.Random(self.port), {}
        poll = select.epoll()
        pairs = {sock.fileno(): pair for pair, sock in sockets.items()}
        for number in pairs:
            poll.register(number, select.EPOLLIN)
        while True:
            for number, _ in poll.poll(1):
                pair = pairs[number]
                try:
                    self.pass_on(sockets[pair], pair, sockets[pair].recv(65535), draws, waiting)
                except (BlockingIOError, ConnectionRefusedError):
                    pass

    def pass_on(self, sock: socket.socket, pair: tuple[int, int], data: bytes, draws: random.Random, waiting: dict) -> None:
        sender, receiver = pair
        if self.holder[0] == receiver and len(data) > ENVELOPE + KIND_AT and data[ENVELOPE_HEAD + KIND_AT] == TOKEN:
            os.killpg(self.holder[1], signal.SIGKILL)
            self.holder[0] = 0
        if self.cuts[MOST * sender + receiver] or draws.randrange(100) < self.percents[0]:
            return
        copies = [data] * (1 + (draws.randrange(100) < self.percents[1]))
        before = waiting.pop(pair, None)
        if before is None and draws.randrange(100) < self.percents[2]:
            waiting[pair] = copies.pop()
        for copy in copies + ([before] if before else []):
            sock.sendto(copy, (HOST, self.port_of(receiver, receiver)))
