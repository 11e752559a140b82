"""The processes of a group of examples/service, and what their clients say."""
from __future__ import annotations

import argparse
import itertools
import os
import signal
import socket
import subprocess
import sys
import time
from contextlib import suppress
from pathlib import Path
from time import monotonic

from networks import Loopback, Namespaces, Relay

TOP = Path(__file__).resolve().parent.parent
FOLDER, COMMON = TOP / "examples" / "service", TOP / "examples" / "common"
GROUPS = itertools.count()


def built(folder: Path, options: argparse.Namespace) -> Path:
    """The service as a program."""
    words = ["cc", "-O2", "-Wall", "-Wextra", "-Werror", "-o", folder / "service", *sorted(FOLDER.glob("*.c")), *sorted(COMMON.glob("*.c")), "-lsodium"]
    words += ["-g", "-fsanitize=address,undefined", "-fno-sanitize-recover=all"] if options.sanitize else []
    if options.library:
        # The part of the toolchain's C library that the library for C calls: its heap.
        words += ["-DTOTEM_LIBRARY", f"-I{TOP / 'include'}", options.totem, Path(options.kit) / "c" / "liblibc_c.a"]
    subprocess.run([str(word) for word in words], check=True)
    return folder / "service"


class Group:
    """The processes of a group. Process I serves clients at port `port` + I."""

    def __init__(self, program: Path, options: argparse.Namespace, network: Loopback | None = None, another_key: bool = False, has_key: bool = True) -> None:
        self.network = network or Loopback(options.nodes, options.port)
        self.nodes, self.port, self.folder, self.processes = options.nodes, options.port + 400, program.parent, {}
        name = f"{os.getpid()}-{next(GROUPS)}"  # a new group has a new name
        for file in ("key", "another_key"):
            (program.parent / file).write_text(f"the text of a trial's key, whose file is {file}", encoding="ascii")
        for me in range(1, self.nodes + 1):
            key = program.parent / ("another_key" if another_key and me == self.nodes else "key")
            words = [*self.network.words_before(me), program, "--me", me, "--totem", options.totem, "--group", name]
            words += ["--key", key] if has_key else []
            words += ["--listen", "%s:%d" % self.address(me), "--peers", self.network.peers_of(me), "--deadline", options.deadline]
            words += ["--periods", options.periods] if options.periods else []
            # A session of its own, so that the node beside it is stopped and killed with it.
            out = open(program.parent / f"{me}.out", "w", encoding="utf-8")
            self.processes[me] = subprocess.Popen([str(word) for word in words], stdout=out, stderr=out, start_new_session=True)
            out.close()

    def address(self, me: int) -> tuple[str, int]:
        """Where a node serves clients."""
        return self.network.host_of(me), self.port + me

    def send(self, me: int, number: signal.Signals) -> None:
        with suppress(ProcessLookupError):
            os.killpg(self.processes[me].pid, number)

    def wait_until_ready(self) -> None:
        """Waits until each node answers a command."""
        for me in self.processes:
            begin = monotonic()
            while is_no_answer(ask(self.address(me), "INCRBY", "c255", "0")):
                if monotonic() - begin > 60 or self.processes[me].poll() is not None:
                    sys.exit(f"node {me} does not answer: {(self.folder / f'{me}.out').read_text(encoding='utf-8')}")
                time.sleep(0.1)

    def end(self) -> list[str]:
        """Ends the nodes that run by SIGTERM. Returns what is wrong with their ends."""
        wrong = []
        for me, process in self.processes.items():
            self.send(me, signal.SIGCONT)
            if process.poll() is None:
                process.terminate()
        for me, process in self.processes.items():
            try:
                status = process.wait(15)
            except subprocess.TimeoutExpired:
                status = None
                self.send(me, signal.SIGKILL)
                process.wait()
            if status not in (0, -signal.SIGKILL):
                wrong.append(f"node {me} ended with status {status}")
        return wrong


def ask(address: tuple[str, int], *words: str) -> bytes:
    """The reply to one command at a connection of its own; empty where the node isn't reached."""
    try:
        with socket.create_connection(address, 5) as sock:
            sock.settimeout(20)
            sock.sendall(encoded(words))
            sock.shutdown(socket.SHUT_WR)
            return b"".join(iter(lambda: sock.recv(65536), b""))
    except OSError:
        return b""


def is_no_answer(reply: bytes) -> bool:
    return not reply or reply.startswith(b"-TRYAGAIN")


def encoded(words: tuple[str, ...]) -> bytes:
    return b"".join([b"*%d\r\n" % len(words)] + [b"$%d\r\n%s\r\n" % (len(word.encode()), word.encode()) for word in words])


def network_of(options: argparse.Namespace) -> Loopback:
    return (Namespaces if options.namespaces else Relay)(options.nodes, options.port)


def members(process: subprocess.Popen) -> list[int]:
    """The processes of a node: the service, and the program beside it."""
    found = [int(file.name) for file in Path("/proc").iterdir() if file.name.isdigit()]
    return sorted(number for number in found if group_of(number) == process.pid)


def group_of(number: int) -> int | None:
    try:
        return os.getpgid(number)
    except ProcessLookupError:
        return None
