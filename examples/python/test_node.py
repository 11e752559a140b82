#!/usr/bin/env python3
"""Runs three nodes on this machine, one of which is killed, and checks what they print.

    python3 examples/python/test_node.py [--totem FILE] [--periods JOIN,RETRANSMIT,CONSENSUS,LOSS] [--seconds 30]

Its status is 0 if all checks hold. It ends after --seconds at the latest, and leaves no process behind.
"""
from __future__ import annotations

import argparse
import queue
import signal
import socket
import subprocess
import sys
import tempfile
import threading
import time
from pathlib import Path

NODE = Path(__file__).resolve().parent / "node.py"
OUT = NODE.parents[2] / "crates" / "totem" / "out"
BUILT = (OUT / "totem", OUT / "quick" / "program")  # what node.py runs without --totem


class Process:
    """A node whose printed lines are read on a thread."""

    def __init__(self, words: list[str], end_at: float) -> None:
        pipes = {"stdin": subprocess.PIPE, "stdout": subprocess.PIPE, "stderr": subprocess.STDOUT}
        self.process = subprocess.Popen([sys.executable, str(NODE), *words], text=True, **pipes)
        self.lines: queue.Queue[str] = queue.Queue()
        self.end_at = end_at
        threading.Thread(target=self.read, daemon=True).start()

    def read(self) -> None:
        for line in self.process.stdout:
            self.lines.put(line.rstrip("\n"))

    def put(self, command: str) -> None:
        self.process.stdin.write(command + "\n")
        self.process.stdin.flush()

    def expect(self, line: str) -> None:
        """Waits for this line. Lines about the node's state may come before it, no others."""
        while True:
            try:
                found = self.lines.get(timeout=max(0.0, self.end_at - time.monotonic()))
            except queue.Empty:
                raise AssertionError(f"`{line}` was not printed in time") from None
            print(found, flush=True)
            if found == line:
                return
            assert found.startswith("node "), f"`{found}` was printed, not `{line}`"

    def status(self) -> int:
        return self.process.wait(timeout=max(0.1, self.end_at - time.monotonic()))


def free_ports(count: int) -> list[int]:
    """Returns ports that no socket had just now."""
    socks = [socket.socket(socket.AF_INET, socket.SOCK_DGRAM) for _ in range(count)]
    for sock in socks:
        sock.bind(("127.0.0.1", 0))
    ports = [sock.getsockname()[1] for sock in socks]
    for sock in socks:
        sock.close()
    return ports


def check_group(nodes: list[Process], common: list[str], end_at: float) -> None:
    def start(me: int) -> Process:
        nodes.append(Process(["--me", str(me), *common], end_at))
        return nodes[-1]

    # Node 1 alone is no majority: its call waits and is tried again, and takes effect once.
    first = start(1)
    first.expect("node 1 is operational in ring 1.1 of 1, not primary")
    first.put("add 0 5")
    time.sleep(1.2)
    assert not any(line.startswith("add") for line in list(first.lines.queue)), "a node without a majority answered"
    second, third = start(2), start(3)
    first.expect("add 0 5: 5")
    third.put("get 0")
    third.expect("get 0: 5")
    second.process.kill()
    first.put("add 0 7")
    first.expect("add 0 7: 12")
    third.put("add 1 1")
    third.put("get 0")
    third.expect("add 1 1: 1")
    third.expect("get 0: 12")
    first.put("get 1")
    first.expect("get 1: 1")
    first.put("get 256")
    first.expect("get 256: not one of add KEY AMOUNT, get KEY, state")
    first.process.stdin.close()
    assert first.status() == 0, "the end of the input is no clean end"
    third.process.send_signal(signal.SIGTERM)
    assert third.status() == 0, "SIGTERM is no clean end"


def check_bad_child(nodes: list[Process], script: str, line: str, end_at: float) -> None:
    """Runs a node beside a shell script, which is no node, and expects this line and a failure."""
    with tempfile.TemporaryDirectory() as folder:
        program = Path(folder) / "totem"
        program.write_text(f"#!/bin/sh\n{script}\nexit 3\n", encoding="ascii")
        program.chmod(0o755)
        words = ["--me", "1", "--peers", f"127.0.0.1:{free_ports(1)[0]}", "--totem", str(program)]
        nodes.append(Process(words, end_at))
        nodes[-1].expect(line)
        assert nodes[-1].status() == 1, "a bad child is no failure"


def main() -> None:
    parser = argparse.ArgumentParser(description=__doc__, formatter_class=argparse.RawDescriptionHelpFormatter)
    parser.add_argument("--totem", help="the program `totem`; without it the default of node.py")
    parser.add_argument("--periods", help="as for node.py")
    parser.add_argument("--seconds", type=float, default=30, help="how long the test takes at most")
    options = parser.parse_args()
    if not options.totem and not any(program.exists() for program in BUILT):
        parser.error("the program is not built: run ./totem-quick --help once, or name another by --totem")
    begun = time.monotonic()
    end_at = begun + options.seconds
    common = ["--peers", ",".join(f"127.0.0.1:{port}" for port in free_ports(3)), "--seconds", str(options.seconds)]
    common += ["--totem", options.totem] if options.totem else []
    common += ["--periods", options.periods] if options.periods else []
    nodes: list[Process] = []
    try:
        short_record = "printf 'E\\0\\001x'; cat >/dev/null"
        check_bad_child(nodes, "", "node 1: the node ended before its input; its exit status is 3", end_at)
        check_bad_child(nodes, short_record, "node 1: the node wrote a record b'E' of 1 bytes; its exit status is 3", end_at)
        check_group(nodes, common, end_at)
    except (AssertionError, subprocess.TimeoutExpired) as fault:
        sys.exit(f"test_node: {fault}")
    finally:
        for node in nodes:
            node.process.kill()
            node.process.wait()
    print(f"test_node: passed in {time.monotonic() - begun:.1f} s")


if __name__ == "__main__":
    main()
