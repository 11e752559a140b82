#!/usr/bin/env python3
"""Runs one node of a group over UDP.

This program owns the socket. It starts `totem node`, brings it the time, and drives it by records over two pipes
(docs/FORMATS.md, Records). It reads commands from standard input, a line each, and prints their answers:

    add KEY AMOUNT    adds to a counter
    get KEY           reads a counter
    state             prints the node's state, its last ring with its members, and the lengths of its log

README.md says how to run a group and what must hold outside. This example is no part of the proof.
"""
from __future__ import annotations

import argparse
import os
import select
import signal
import socket
import struct
import subprocess
import sys
from collections import deque
from contextlib import suppress
from pathlib import Path
from time import monotonic

TOP = Path(__file__).resolve().parents[2]
PROVED, QUICK = TOP / "crates" / "totem" / "out" / "totem", TOP / "totem-quick"
STATES = ("gather", "commit", "recovery", "operational", "stopped")
OPERATIONAL, STOPPED = 3, 4
KIND_AT, TOKEN = 3, 2  # where a frame has its kind, and a token's
RETRY, REST = 0.5, 0.005  # seconds until a call is tried again; the longest rest of an idle token
IDLE_TOKENS = 8  # a ring is idle after more tokens than these in a row that brought nothing
COMMANDS = {"add": (">BBBQ", 1), "get": (">BBB", 2)}  # the layout and the tag of the operation
COUNTERS = 1  # their place in the program's object
# The least and the greatest length of each record that a node writes.
LENGTHS = {b"F": (23, 8194), b"D": (9, 72), b"K": (9, 72), b"R": (9, 9), b"G": (8, 8), b"C": (12, 1036), b"T": (8, 8)}
LENGTHS |= {b"X": (1, 1), b"Q": (37, 37), b"M": (12, 12), b"E": (11, 11)}


class Node:
    """A node with its socket and its client, which has the node's number."""

    def __init__(self, me: int, peers: list[list[str]], periods: list[int], totem: str) -> None:
        self.me = me
        self.rest = min(REST, 0.00075 * periods[1] / len(peers))  # a round of rests is shorter than retransmit
        self.peers = [socket.getaddrinfo(host, port, socket.AF_INET)[0][4] for host, port in peers]
        self.sock = socket.socket(socket.AF_INET, socket.SOCK_DGRAM)
        self.sock.setblocking(False)
        self.sock.bind(self.peers[me - 1])
        words = [totem, "node", "--me", str(me), "--of", str(len(peers)), "--periods", ",".join(map(str, periods))]
        # In a session of its own the child doesn't get the terminal's interrupts.
        self.child = subprocess.Popen(words, stdin=subprocess.PIPE, stdout=subprocess.PIPE, start_new_session=True)
        self.next_time = 0  # when the node wants the time again, in milliseconds
        self.state, self.idle_tokens, self.has_input, self.line = 0, 0, True, b""
        self.calls: deque[tuple[str, bytes]] = deque()  # commands with their operations; the first one is tried
        self.number, self.tickets, self.retry_at = 1, list[int](), 0.0  # of the first call: its number and its tries

    def read(self, length: int) -> bytes:
        """Reads bytes that the node wrote."""
        assert self.child.stdout
        data = self.child.stdout.read(length)
        if len(data) < length:
            raise ChildProcessError("the node ended before its input")
        return data

    def give(self, kind: bytes, data: bytes) -> None:
        """Gives the node an input and handles its records, up to E, which ends them."""
        assert self.child.stdin
        with suppress(BrokenPipeError):  # the first read finds the node's end
            self.child.stdin.write(kind + struct.pack(">H", len(data)) + data)
            self.child.stdin.flush()
        letter = b""
        while letter != b"E":
            letter, length = struct.unpack(">cH", self.read(3))
            least, most = LENGTHS.get(letter, (1, 0))
            if not least <= length <= most:
                raise ChildProcessError(f"the node wrote a record {letter!r} of {length} bytes")
            self.handle_record(letter, self.read(length))

    def handle_record(self, letter: bytes, out: bytes) -> None:
        if letter == b"F":  # bit i - 1 of the first two bytes is for processor i, which may be this one
            for address in (peer for i, peer in enumerate(self.peers) if int.from_bytes(out[:2], "big") >> i & 1):
                with suppress(OSError):  # frames may be lost
                    self.sock.sendto(out[2:], address)
        elif letter in b"DKR" and int.from_bytes(out[:8], "big") in self.tickets:
            answer = int.from_bytes(out[9:], "big") if out[8] == 0 else "unchanged, the sum passes 2^64 - 1"
            print(f"{self.calls.popleft()[0]}: {answer if letter != b'R' else f'refused with {out[8]}'}")
            self.number += letter != b"R"  # a refused call's number is used again
            self.tickets, self.retry_at = [], 0.0
        elif letter == b"T":
            self.tickets.append(int.from_bytes(out, "big"))
        elif letter == b"Q":
            state, number, representative, *lengths, members, primary = struct.unpack(">BQBQQQHB", out)
            text = "committed {} log {} trimmed {}".format(*lengths)
            print(f"node {self.me} {STATES[state]} {number}.{representative} of {self.names(members, primary)} {text}")
        elif letter == b"M":
            number, representative, members, primary = struct.unpack(">QBHB", out)
            print(f"node {self.me} is operational in ring {number}.{representative} of {self.names(members, primary)}")
        elif letter == b"E":
            before = self.state
            self.state, token, brought, self.next_time = struct.unpack(">BBBQ", out)
            if before == OPERATIONAL and self.state != OPERATIONAL:
                print(f"node {self.me} is forming a ring")
            if self.state == STOPPED:
                raise ChildProcessError("the node has stopped")
            if token == 1:  # it was taken
                self.idle_tokens = 0 if brought else self.idle_tokens + 1

    def names(self, members: int, primary: int) -> str:
        """Returns the members of a ring in words."""
        numbers = ",".join(str(i + 1) for i in range(16) if members >> i & 1)
        return f"{numbers}, {'primary' if primary else 'not primary'}"

    def take_frame(self, frame: bytes) -> None:
        """Gives the node a frame. An idle ring's token rests first, until a datagram or a command comes."""
        is_token = frame[KIND_AT : KIND_AT + 1] == bytes([TOKEN])
        if is_token and self.state == OPERATIONAL and self.idle_tokens > IDLE_TOKENS:
            self.wait(self.rest)
        self.give(b"F", frame)

    def wait(self, seconds: float) -> bool:
        """Waits at most this long until a datagram or a command comes. Returns whether a command came."""
        return 0 in select.select([self.sock, 0] if self.has_input else [self.sock], [], [], max(0.0, seconds))[0]

    def read_commands(self) -> None:
        """Reads commands. A call waits for the calls before it; `state` doesn't."""
        data = os.read(0, 4096)
        self.has_input = bool(data)
        *lines, self.line = (self.line + (data or b"\n")).split(b"\n")
        for words in (line.decode(errors="replace").split() for line in lines):
            if words == ["state"]:
                self.give(b"Q", b"")
            elif words:
                try:
                    layout, tag = COMMANDS[words[0]]
                    operation = struct.pack(layout, COUNTERS, tag, *map(int, words[1:]))
                    self.calls.append((" ".join(words), operation))
                except (KeyError, ValueError, struct.error):
                    print(f"{' '.join(words)}: not one of add KEY AMOUNT, get KEY, state")

    def run(self, end_at: float) -> None:
        """Runs until the input has ended and all calls are answered, or until this time."""
        while (self.has_input or self.calls) and monotonic() < end_at:
            if (now := int(monotonic() * 1000)) >= self.next_time:  # at first, and as timeouts are due
                self.give(b"N", struct.pack(">Q", now))
            times = [end_at, self.next_time / 1000] + [self.retry_at] * bool(self.calls)
            if self.wait(min(times) - monotonic()):
                self.read_commands()
            with suppress(BlockingIOError):
                for _ in range(64):  # no more, so that timeouts don't wait long
                    frame, sender = self.sock.recvfrom(65535)
                    if sender in self.peers:  # strays are dropped; this proves no sender
                        self.take_frame(frame)
            if self.calls and monotonic() >= self.retry_at:  # it takes effect once, however often it is tried
                self.idle_tokens, self.retry_at = 0, monotonic() + RETRY
                self.give(b"C", struct.pack(">IQ", self.me, self.number) + self.calls[0][1])


def main() -> None:
    parser = argparse.ArgumentParser(description=__doc__, formatter_class=argparse.RawDescriptionHelpFormatter)
    parser.add_argument("--me", type=int, required=True, help="this processor's number")
    parser.add_argument("--peers", required=True, metavar="HOST:PORT,..", help="the addresses of processors 1, 2, ..")
    parser.add_argument("--totem", default=PROVED if PROVED.exists() else QUICK, help="the program `totem`")
    parser.add_argument("--periods", default="10,20,100,300", metavar="JOIN,RETRANSMIT,CONSENSUS,LOSS", help="in ms")
    parser.add_argument("--seconds", type=float, default=float("inf"), help="how long it runs at most")
    options = parser.parse_args()
    sys.stdout.reconfigure(line_buffering=True)
    signal.signal(signal.SIGTERM, signal.default_int_handler)  # which acts as the terminal's interrupt
    try:
        peers = [peer.rsplit(":", 1) for peer in options.peers.split(",")]
        periods = [int(period) for period in options.periods.split(",")]
        are_ports = all(0 < int(port) < 65536 for _, port in peers)
        if not (1 <= options.me <= len(peers) <= 16 and are_ports and len(periods) == 4 and min(periods) > 0):
            raise ValueError
        node = Node(options.me, peers, periods, options.totem)
    except ValueError:
        parser.error("--peers are 1 to 16 times HOST:PORT, --me is one of 1, 2, .., --periods are four times above 0")
    except OSError as fault:
        parser.error(str(fault))
    faults = []
    try:
        node.run(monotonic() + options.seconds)
    except KeyboardInterrupt:
        pass
    except ChildProcessError as fault:
        faults.append(str(fault))
    node.child.communicate()  # ends its input and waits for its end
    if node.child.returncode != 0:
        faults.append(f"its exit status is {node.child.returncode}")
    sys.exit(f"node {options.me}: {'; '.join(faults)}" if faults else 0)


if __name__ == "__main__":
    main()
