"""A group of corosync, a node in each network namespace, whose clients (cpg_client.c) make calls: to be measured beside ours."""
from __future__ import annotations

import subprocess
import time
from pathlib import Path
from time import monotonic

from networks import Namespaces

CLIENT = Path(__file__).resolve().parent / "cpg_client.c"
# Without ciphers, by unicast. It holds no processor for itself, as ours doesn't.
SECTIONS = {
    "totem": ["version: 2", "cluster_name: load", "transport: udpu", "crypto_cipher: none", "crypto_hash: none"],
    "system": ["sched_rr: no", "move_to_root_cgroup: no", "state_dir: {folder}"],
    "resources": ["watchdog_device: off"],
    "logging": ["to_stderr: no", "to_syslog: no", "to_logfile: yes", "logfile: {folder}/log"],
    "quorum": [],
}
# It keeps its process number in /run, and its clients find it by the namespace.
START = "mount --make-rprivate / && mount -t tmpfs none /run && mkdir /run/corosync && exec corosync -f -c {file}"


def built(folder: Path) -> Path:
    """The client as a program."""
    subprocess.run(["cc", "-O2", "-Wall", "-Wextra", "-Werror", "-o", folder / "cpg_client", CLIENT, "-lcpg"], check=True)
    return folder / "cpg_client"


def configuration(folder: Path, nodes: list[int]) -> str:
    members = [section("node", [f"nodeid: {i}", f"name: n{i}", f"ring0_addr: 10.9.0.{i}"]) for i in nodes]
    return "".join(section(name, [line.format(folder=folder) for line in lines]) for name, lines in SECTIONS.items()) + section("nodelist", members)


def section(name: str, lines: list[str]) -> str:
    return "\n".join([name + " {", *lines, "}\n"])


def calls(client: Path, network: Namespaces, in_flight: list[int], most: int, seconds: int) -> list[int]:
    """The group's answered calls in each second, with so many in flight at each node, from its second second of calls on. `most`
    calls are told together."""
    processes, outs = [], []
    try:
        for me in network.others(0):
            folder = client.parent / f"corosync{me}"
            folder.mkdir(exist_ok=True)
            (folder / "conf").write_text(configuration(folder, network.others(0)), encoding="ascii")
            words = [*network.words_before(me), "unshare", "-m", "sh", "-c", START.format(file=folder / "conf")]
            processes.append(subprocess.Popen(words, stdout=subprocess.DEVNULL, stderr=subprocess.DEVNULL))
        for me, count in zip(network.others(0), in_flight):
            outs.append(client.parent / f"corosync{me}" / "calls")
            with open(outs[-1], "w", encoding="ascii") as out:
                words = [*network.words_before(me), client, network.nodes, count, most]
                processes.append(subprocess.Popen([str(word) for word in words], stdout=out))
        return in_seconds(outs, seconds)
    finally:
        for process in reversed(processes):  # clients first; corosync removes its shared memory at its end
            process.terminate()
            try:
                process.wait(10)
            except subprocess.TimeoutExpired:
                process.kill()
                process.wait()


def in_seconds(outs: list[Path], seconds: int) -> list[int]:
    begin = monotonic()
    while monotonic() < begin + 60 + seconds:
        columns = [[int(line) for line in out.read_text(encoding="ascii").split()] for out in outs]
        totals = [sum(second) for second in zip(*columns)]
        first = next((i for i, total in enumerate(totals) if total > 0), len(totals)) + 1
        if len(totals) >= first + seconds:
            return totals[first:first + seconds]
        time.sleep(0.2)
    raise SystemExit("corosync's clients had no answers")
