"""Commands whose replies are known, and starts that are to fail."""
from __future__ import annotations

import argparse
import os
import random
import re
import signal
import socket
import subprocess
import threading
import time
from contextlib import suppress
from pathlib import Path
from time import monotonic

from networks import HOST
from service_group import FOLDER, Group, ask, encoded, members


def session(program: Path, options: argparse.Namespace) -> list[str]:
    """Commands at the nodes in turn, and the reply to each."""
    group, wrong, count = Group(program, options), [], 0
    try:
        group.wait_until_ready()
        for line in (FOLDER / "session.txt").read_text(encoding="utf-8").splitlines():
            command, reply = (part.strip() for part in line.split("=>"))
            count += 1
            got = ask(group.address(1 + count % group.nodes), *command.split())
            if got != reply.encode().decode("unicode_escape").encode("latin-1"):
                wrong.append(f"{command}: wanted {reply}, got {got!r}")
        wrong += pipelined(group) + many(group) + malformed(group) + (left_alone(group) if group.nodes > 1 else [])
    finally:
        wrong += group.end()
    print(f"{count} commands with known replies")
    return wrong


def pipelined(group: Group) -> list[str]:
    """1,000 commands of one connection, sent at once, answered in order."""
    with socket.create_connection(group.address(1), 5) as sock:
        sock.settimeout(60)
        commands = b"".join(b"INCR c9\r\nGET c9\r\nPING %d\r\n" % i for i in range(1, 334)) + b"QUIT\r\n"
        sender = threading.Thread(target=sock.sendall, args=(commands,))
        sender.start()
        got = b"".join(iter(lambda: sock.recv(65536), b""))
        sender.join()
    wanted = b"".join(b":%d\r\n$%d\r\n%d\r\n$%d\r\n%d\r\n" % (i, len(str(i)), i, len(str(i)), i) for i in range(1, 334)) + b"+OK\r\n"
    return [] if got == wanted else [f"pipelined commands: {got[:200]!r} .."]


def many(group: Group) -> list[str]:
    """100 connections with a command each at once, more than a node has clients in the group: each is answered once."""
    socks = [socket.create_connection(group.address(1), 5) for _ in range(100)]
    for sock in socks:
        sock.settimeout(60)
        sock.sendall(b"INCR c8\r\n")
    got = sorted(int(sock.recv(100)[1:]) for sock in socks)
    for sock in socks:
        sock.close()
    return [] if got == list(range(1, 101)) else [f"100 connections: {got}"]


def left_alone(group: Group) -> list[str]:
    """Node 1 without all others: at its deadline it says what is known of a command, and that is so once the others are back."""
    others = [me for me in group.processes if me != 1]
    for me in others:
        group.send(me, signal.SIGSTOP)
    first, begin = ask(group.address(1), "INCR", "c7"), monotonic()
    while b"primary:no" not in ask(group.address(1), "INFO") and monotonic() < begin + 30:
        time.sleep(0.2)
    replies = [first] + [ask(group.address(1), "INCR", "c7") for _ in range(2)]
    for me in others:
        group.send(me, signal.SIGCONT)
    group.wait_until_ready()
    known = [b"; the command has no effect\r\n", b"; the command may still take effect\r\n"]
    may, value = replies[0].endswith(known[1]), ask(group.address(2), "GET", "c7")
    wrong = [] if all(reply.startswith(b"-TRYAGAIN") for reply in replies) and (may or replies[0].endswith(known[0])) else [f"alone: {replies}"]
    wrong += [] if all(reply.endswith(known[0]) for reply in replies[1:]) else [f"alone, not in a primary ring: {replies}"]
    # The node still has the first call where it was submitted, and it takes effect in the next primary ring.
    return wrong + ([] if value == b"$1\r\n%d\r\n" % may else [f"the counter is {value!r} after {replies}"])


def malformed(group: Group) -> list[str]:
    """Bytes that are no command get an error and an end, and the node goes on."""
    wrong = []
    for data in (b"*1\r\n:1\r\n", b"*x\r\n", b"*2\r\n$4\r\nPING\r\n$99999999\r\n" + bytes(40000), b"$" * 40000, b"*1\r\n$4\r\nPINGxx"):
        with suppress(ConnectionError), socket.create_connection(group.address(1), 5) as sock:
            sock.settimeout(10)
            sock.sendall(data)
            if not sock.recv(1000).startswith(b"-ERR Protocol error"):
                wrong.append(f"{data[:20]!r} is no command")
    command = encoded(("SET", "r255", "1"))
    for length in range(len(command)):  # a command that ends early
        with socket.create_connection(group.address(1), 5) as sock:
            sock.sendall(command[:length])
    draws = random.Random(1)
    with socket.socket(socket.AF_INET, socket.SOCK_DGRAM) as sock:
        for length in range(0, 200):
            sock.sendto(draws.randbytes(length), (HOST, group.port - 400 + 1))
    return wrong if ask(group.address(1), "GET", "r255") == b"$1\r\n0\r\n" else wrong + ["the node does not go on"]


def starts(program: Path, options: argparse.Namespace) -> list[str]:
    short, marked = program.parent / "short", program.parent / "fresh"
    short.write_bytes(bytes(31))
    marked.mkdir()
    bad = ["--me 4 --of 3", "--me 1", "--of 3", "--me 1 --of 17", "--me 1 --of 3 --deadline 0", "--me x --of 3", "--me 1 --peers 127.0.0.1",
           "--me 1 --of 1 --periods 1,2,3", "--me 1 --of 1 --periods 1,2,3,0", "--me 1 --of 1 --loss 5", "--me 1 --of", "--me 1 --of 1 --group a/b"]
    failing = [("--key", short), ("--key", program.parent / "none"), ("--totem", program.parent / "none"), ("--fresh", short)]
    wrong = [f"{words}: {end}" for words in bad if (end := ended(program, options, *words.split()))[0] != 2 or "usage:" not in end[1]]
    wrong += [f"{words}: {end}" for words in failing if (end := ended(program, options, "--me", 1, "--of", 1, *words))[0] != 1 or not end[1]]
    marker = ("--me", 1, "--of", 1, "--fresh", marked)
    if ended(program, options, *marker)[0] is not None or "before" not in (end := ended(program, options, *marker))[1] or end[0] != 1:
        wrong.append("a second start under one number is not refused")
    print(f"{len(bad) + len(failing) + 2} starts")
    return wrong + (another_key(program, options) if options.nodes > 2 else []) + failing_node(program, options)


def ended(program: Path, options: argparse.Namespace, *words: object) -> tuple[int | None, str]:
    """The status and the standard error of a service that is to end by itself, or no status."""
    line = [program, "--listen", f"{HOST}:{options.port + 440}", "--port", options.port + 400, "--totem", options.totem, *words]
    with subprocess.Popen([str(word) for word in line], stdout=subprocess.DEVNULL, stderr=subprocess.PIPE, text=True) as process:
        try:
            return process.wait(5), process.stderr.read() if process.stderr else ""
        except subprocess.TimeoutExpired:
            process.terminate()
            return None, ""


def another_key(program: Path, options: argparse.Namespace) -> list[str]:
    """The first nodes form a ring without the last, which has another key."""
    group, last = Group(program, options, another_key=True), options.nodes
    try:
        begin, wanted = monotonic(), f"members:{','.join(str(me) for me in range(1, last))}\r\n".encode()
        while wanted not in (info := ask(group.address(1), "INFO")) and monotonic() < begin + 30:
            time.sleep(0.2)
        alone = ask(group.address(last), "INFO")
    finally:
        wrong = group.end()
    are_refused = all(int(re.search(rb"datagrams_refused:(\d+)", text)[1]) > 0 for text in (info, alone))
    return wrong + ([] if wanted in info and b"primary:no" in alone and are_refused else [f"with another key: {info!r}, {alone!r}"])


def failing_node(program: Path, options: argparse.Namespace) -> list[str]:
    """Where the program beside it is killed, the service ends with status 1."""
    if options.library:
        return []
    group = Group(program, options)
    try:
        group.wait_until_ready()
        process = group.processes.pop(1)
        os.kill(max(members(process)), signal.SIGKILL)
        status = process.wait(10)
    finally:
        wrong = group.end()
    return wrong + ([] if status == 1 else [f"its node was killed, and the status is {status}"])
