#!/usr/bin/env python3
"""Runs the example examples/service on this machine, and checks or measures it.

    bench/service.py TOTEM --session                    commands of each kind, at three nodes, whose replies are known
    bench/service.py TOTEM --starts                     bad options, a second start, another key, a node that fails
    bench/service.py TOTEM --check [--runs 40]          outside clients on a bad network; their histories are checked
    bench/service.py TOTEM --recovery [--runs 20]       how long faults keep nodes from answering
    bench/service.py TOTEM --load                       commands a second, by redis-benchmark; with --namespaces beside corosync
    bench/service.py TOTEM --memory [--calls 1000000]   whether calls take memory that is not given back
    bench/service.py TOTEM --idle                       the processor time of a node whose group has no calls
    bench/service.py LIBRARY --library ..               the same with the library for C in the service itself

TOTEM is the program, proved (`crates/totem/out/totem`) or `totem-quick`. `--nodes N`, `--periods JOIN,RETRANSMIT,CONSENSUS,LOSS` and
`--sanitize` (address and undefined-behaviour sanitizers) go with each; on a machine whose processors are all busy give the
periods 50,100,500,1000. In `--check` and `--recovery` the datagrams pass through a relay on this machine; or, with `--namespaces`
(as root), through bridges between a network namespace for each node, where none are lost, repeated or swapped (`networks.py`).

`--check`: each client has one command under way. Where it has no answer after 250 ms it sends the command to the next node. That
is another try of the same command, and may take effect beside the first. Meanwhile datagrams are lost, repeated and swapped,
nodes stopped, cut off and killed, a minority at most. `histories.py` decides whether the tries of all clients fit one order.

`--recovery`: a client at each node adds 1, again and again. Of each node is taken how long after the fault (for nodes that were
stopped or cut off: after its end) the last pause ended that began within a second of it. Wanted: at most 1 s, 2 s on a machine
with a load of 10. The status is 1 where a node has no answer within 15 s.
"""
from __future__ import annotations

import argparse
import os
import sys
import tempfile
from collections.abc import Callable
from pathlib import Path

from service_check import check
from service_group import built
from service_recovery import FAULTS, recovery
from service_replies import session, starts
from service_speed import idle, load, memory


def main() -> None:
    jobs: dict[str, Callable[[Path, argparse.Namespace], list[str]]] = {
        "session": session, "starts": starts, "check": check, "recovery": recovery, "load": load, "memory": memory, "idle": idle}
    parser = argparse.ArgumentParser(description=__doc__, formatter_class=argparse.RawDescriptionHelpFormatter)
    parser.add_argument("totem", metavar="TOTEM", type=os.path.abspath)
    parser.add_argument("--library", action="store_true")
    parser.add_argument("--kit", default="/opt/rattle", help="the toolchain's folder")
    parser.add_argument("--sanitize", action="store_true")
    parser.add_argument("--namespaces", action="store_true")
    for name in jobs:
        parser.add_argument(f"--{name}", action="append_const", dest="jobs", const=name)
    parser.add_argument("--nodes", type=int, default=3)
    parser.add_argument("--runs", type=int, default=4)
    parser.add_argument("--seconds", type=float, default=10)
    parser.add_argument("--calls", type=int, default=100_000)
    parser.add_argument("--port", type=int, default=21000)
    parser.add_argument("--seed", type=int, default=1)
    parser.add_argument("--deadline", type=int, default=2000, help="in milliseconds")
    parser.add_argument("--faults", default=",".join(FAULTS), help=" ".join(FAULTS))
    parser.add_argument("--periods", help="JOIN,RETRANSMIT,CONSENSUS,LOSS in milliseconds")
    options = parser.parse_args()
    if options.namespaces and os.readlink("/proc/self/ns/net") == os.readlink(f"/proc/{os.getppid()}/ns/net"):
        os.execvp("unshare", ["unshare", "-n", sys.executable, *sys.argv])  # in a network of its own
    with tempfile.TemporaryDirectory() as folder:
        program, wrong = built(Path(folder), options), []
        for job in options.jobs or ["session"]:
            wrong += jobs[job](program, options)
        texts = {file.name: file.read_text(encoding="utf-8") for file in Path(folder).glob("*.out")}
    wrong += [f"{name}: {text[:2000]}" for name, text in texts.items() if "Sanitizer" in text or "runtime error" in text]
    for fault in wrong:
        print(fault)
    sys.exit(1 if wrong else 0)


if __name__ == "__main__":
    main()
