#!/usr/bin/env python3
"""Runs the example examples/udp on this machine, and checks or measures it.

    bench/udp.py TOTEM [--nodes 3] [--seconds 60] [--clients 4]     one run on a bad network, whose logs are checked
    bench/udp.py TOTEM --table                                      calls a second, with 1 and 16 in flight at a node
    bench/udp.py TOTEM --recovery [--kills 20]                      how long a kill of one node keeps the others from answering
    bench/udp.py TOTEM --idle                                       the processor time of a node whose group has no calls
    bench/udp.py LIBRARY --library ..                               the same with the library for C in the node's own program, after
                                                                    the example examples/library has run

`--periods JOIN,RETRANSMIT,CONSENSUS,LOSS` is handed to the nodes (milliseconds): on a machine whose processors are all busy, where a
process may wait longer for its turn than the defaults allow, give 50,100,500,1000.

In the checked run each node loses 2 of a hundred datagrams that arrive, takes 2 twice and swaps 2 with the next. After a third
of the run the last node's processes are stopped for two seconds; after two thirds node 1's are killed. A client tries a call
again, at another process, when it has waited half a second. The logs of all nodes are compared:

- the committed calls of all nodes form one list, each call at its place: a node's log has them in order from the first on, or
  from behind the places of a snapshot that it was given;
- in that list, repeats left out, each answer is what the counter makes of the calls up to its own, so no call takes effect
  twice, and a read returns the sum of all adds before it;
- an answer counts each add that was answered before its call was made, by one clock for all.

The status is 1 where one of these does not hold, or where nothing was answered after the kill. With `--recovery` each kill
meets a new group: a random node is killed at a random moment, and of each survivor the end of the longest pause in its answers is
taken, from the kill on. The status is 1 where a survivor has no answer within 15 seconds.
"""
import argparse
import os
import random
import resource
import signal
import statistics
import subprocess
import sys
import tempfile
import time
from pathlib import Path

TOP = Path(__file__).resolve().parent.parent
EXAMPLE = [TOP / "examples" / "udp" / "udp_node.c", *sorted((TOP / "examples" / "common").glob("*.c"))]
COUNTER = TOP / "examples" / "library" / "counter.c"
ADD, READ = "0101" + "00", "0102" + "00"


def built(totem, folder, options):
    """The example as a program, which runs the program `totem` beside it, or has the library within it."""
    sanitizers = ["-g", "-fsanitize=address,undefined", "-fno-sanitize-recover=all"] if options.sanitize else []
    if not options.library:
        return compiled(folder / "udp_node", sanitizers + EXAMPLE)
    # The part of the toolchain's C library that the library for C calls: its heap.
    parts = [f"-I{TOP / 'include'}", totem, Path(options.kit) / "c" / "liblibc_c.a"]
    counter = compiled(folder / "counter", ["-fsanitize=address", COUNTER, *parts])
    print(subprocess.run([counter], check=True, stdout=subprocess.PIPE, text=True, timeout=60).stdout, end="", flush=True)
    return compiled(folder / "udp_node", [*sanitizers, "-DTOTEM_LIBRARY", *EXAMPLE, *parts])


def compiled(program, words):
    subprocess.run(["cc", "-O2", "-Wall", "-Wextra", "-Werror", "-o", program, *words], check=True)
    return program


def start(program, totem, me, folder, options):
    words = [program, "--me", me, "--of", options.nodes, "--totem", totem, "--port", options.port]
    words += ["--seconds", options.seconds, "--clients", options.clients, "--seed", options.seed, "--log", folder / f"{me}.log"]
    words += ["--periods", options.periods] if options.periods else []
    if not (options.table or options.recovery or options.idle):
        words += ["--lose", 2, "--repeat", 2, "--swap", 2]
    # A session of its own, so that the node beside it is stopped and killed with it.
    return subprocess.Popen([str(word) for word in words], stdout=subprocess.PIPE, text=True, start_new_session=True)


def trouble(processes, seconds):
    """Stops the last node for a while, and kills the first. Returns the time of the kill."""
    time.sleep(seconds / 3)
    os.killpg(processes[-1].pid, signal.SIGSTOP)
    time.sleep(2)
    os.killpg(processes[-1].pid, signal.SIGCONT)
    time.sleep(seconds / 3)
    os.killpg(processes[0].pid, signal.SIGKILL)
    return time.clock_gettime(time.CLOCK_MONOTONIC)


def read_log(path):
    """The calls and answers of a node's log, each with its time, and by its place each call that it committed."""
    timed, committed, place = {"call": [], "answer": []}, {}, 0
    for line in path.read_text(encoding="ascii").splitlines(keepends=True):
        words = line.split()
        if not line.endswith("\n"):  # a killed node's last line may be cut off
            continue
        if words[1] == "restored":
            place = max(place, int(words[2]))
        elif words[1] == "committed":
            committed[place] = ((int(words[2]), int(words[3])), words[4])
            place += 1
        else:
            timed[words[1]].append((float(words[0]), (int(words[2]), int(words[3])), words[4:]))
    return timed | {"committed": committed}


def one_list(logs):
    """The calls that the nodes committed, in the order of their places, and where nodes differ."""
    places, wrong = {}, []
    for me, log in enumerate(logs, 1):
        for place, call in log["committed"].items():
            if places.setdefault(place, call) != call:
                wrong.append(f"node {me}'s committed call at {place} is another")
    missing = set(range(len(places))) - set(places)
    return [places[place] for place in sorted(places)], wrong + [f"no node has the call at {place}" for place in sorted(missing)]


def replayed(order):
    """The reply to each call of the list, and the counter after it. A repeated call takes no effect."""
    replies, value, adds = {}, 0, {}
    for call, operation in order:
        if call in replies:
            continue
        value += int(operation[6:], 16) if operation.startswith(ADD) else 0
        adds[call] = value
        replies[call] = "00" + value.to_bytes(8, "big").hex()
    return replies, adds


def faults(logs, killed_at):
    """What the logs show that must not be."""
    order, wrong = one_list(logs)
    replies, values = replayed(order)
    answers = [answer for log in logs for answer in log["answer"]]
    for _, call, (kind, reply) in answers:
        if kind != "R" and replies.get(call) != reply:
            wrong.append(f"call {call} was answered {reply}, and the list makes {replies.get(call)}")
    tries = sorted((at, call) for log in logs for at, call, _ in log["call"])
    called = {call: at for at, call in reversed(tries)}  # the first try of each
    added = {call for log in logs for _, call, rest in log["call"] if rest[0].startswith(ADD)}
    # Answers by time: a call that is made later counts all adds that were answered before.
    moments = sorted([(at, 1, call) for at, call, (kind, _) in answers if kind != "R" and call in added]
                     + [(called[call], 0, call) for _, call, (kind, _) in answers if kind != "R" and call in called])
    done = 0
    for _, is_answer, call in moments:
        if is_answer:
            done += 1
        elif values.get(call, 0) < done + (call in added):
            wrong.append(f"call {call} does not count {done} adds that were answered before")
    if not any(at > killed_at + 1 for at, _, _ in answers):
        wrong.append("nothing was answered after the kill")
    counts = f"{len(answers)} answers, {len(tries) - len(called)} calls tried again, {len(order)} committed calls, {len(order) - len(replies)} of them repeats"
    return wrong, counts


def run(totem, folder, options):
    program = built(totem, folder, options)
    processes = [start(program, totem, me, folder, options) for me in range(1, options.nodes + 1)]
    try:
        killed_at = trouble(processes, options.seconds)
        for process in processes:
            process.communicate(timeout=options.seconds + 10)
    finally:
        end(processes)
    logs = [read_log(folder / f"{me}.log") for me in range(1, options.nodes + 1)]
    wrong, counts = faults(logs, killed_at)
    print(f"{options.nodes} nodes, {options.seconds} seconds: {counts}; {len(wrong)} faults")
    for fault in wrong[:20]:
        print(fault)
    return 1 if wrong else 0


def end(processes):
    for process in processes:
        try:
            os.killpg(process.pid, signal.SIGKILL)
        except ProcessLookupError:
            pass
        process.wait()


def table(totem, folder, options):
    program = built(totem, folder, options)
    print("| Nodes | Calls in flight at a node | Calls a second, all nodes |\n|---|---|---|")
    for nodes in (3, 5):
        for clients in (1, 16):
            options.nodes, options.clients, options.port = nodes, clients, options.port + 20
            processes = [start(program, totem, me, folder, options) for me in range(1, nodes + 1)]
            try:
                texts = [process.communicate(timeout=options.seconds + 10)[0] for process in processes]
            finally:
                end(processes)
            ends = [line for text in texts for line in text.splitlines() if " ends: " in line]
            answered = sum(int(line.split()[3]) for line in ends)
            print(f"| {nodes} | {clients} | {answered / options.seconds:,.0f} |", flush=True)
    return 0


def answer_times(path):
    lines = path.read_text(encoding="ascii").splitlines() if path.exists() else []
    return [float(line.split(" ", 1)[0]) for line in lines if " answer " in line]


def wait_for_answers(paths, since, count):
    """Waits until each log has `count` answers later than `since`, for 15 seconds at most. Returns whether each has."""
    for _ in range(60):
        if all(sum(at > since for at in answer_times(path)) >= count for path in paths):
            return True
        time.sleep(0.25)
    return False


def outage(answers, killed_at):
    """The time from the kill to the end of the longest pause that began in the second after it, or before it."""
    times = [killed_at] + [at for at in answers if at > killed_at]
    return max((end - begin, end) for begin, end in zip(times, times[1:]) if begin < killed_at + 1)[1] - killed_at


def recovery(totem, folder, options):
    program, draws, outages, failed = built(totem, folder, options), random.Random(options.seed), [], 0
    options.seconds, port = 60, options.port
    for kill in range(options.kills):
        options.port = port + 20 * (kill % 50)
        logs = [folder / f"{me}.log" for me in range(1, options.nodes + 1)]
        for log in logs:
            log.unlink(missing_ok=True)
        processes = [start(program, totem, me, folder, options) for me in range(1, options.nodes + 1)]
        try:
            if not wait_for_answers(logs, 0, 20):
                print("a group did not answer within 15 seconds", flush=True)
                return 1
            time.sleep(draws.uniform(0.3, 1.3))
            victim = draws.randrange(options.nodes)
            os.killpg(processes[victim].pid, signal.SIGKILL)
            killed_at = time.clock_gettime(time.CLOCK_MONOTONIC)
            survivors = logs[:victim] + logs[victim + 1:]
            has_all = wait_for_answers(survivors, killed_at + 0.2, 5)
            time.sleep(1)
        finally:
            end(processes)
        failed += not has_all
        if has_all:
            outages += [outage(answer_times(log), killed_at) for log in survivors]
    if outages:
        print(f"{options.kills} kills, {options.nodes} nodes, {len(outages)} survivors: median {statistics.median(outages):.2f} s, "
              f"greatest {max(outages):.2f} s", end="; ")
    print(f"{failed} kills left a survivor without answers; load {os.getloadavg()[0]:.1f} on {os.cpu_count()} processors")
    return 1 if failed else 0


def idle(totem, folder, options):
    program, options.clients, options.seconds = built(totem, folder, options), 0, 10
    before = resource.getrusage(resource.RUSAGE_CHILDREN)
    processes = [start(program, totem, me, folder, options) for me in range(1, options.nodes + 1)]
    try:
        for process in processes:
            process.communicate(timeout=options.seconds + 10)
    finally:
        end(processes)
    after = resource.getrusage(resource.RUSAGE_CHILDREN)
    used = after.ru_utime + after.ru_stime - before.ru_utime - before.ru_stime
    print(f"{options.nodes} nodes, idle for {options.seconds} s: {used / options.seconds / options.nodes:.3f} of a processor a node, its start included; "
          f"load {os.getloadavg()[0]:.1f} on {os.cpu_count()} processors")
    return 0


def main():
    parser = argparse.ArgumentParser(description=__doc__, formatter_class=argparse.RawDescriptionHelpFormatter)
    parser.add_argument("totem", metavar="TOTEM")
    parser.add_argument("--library", action="store_true")
    parser.add_argument("--sanitize", action="store_true", help="address and undefined-behaviour sanitizers")
    parser.add_argument("--kit", default="/opt/rattle", help="the toolchain's folder")
    parser.add_argument("--nodes", type=int, default=3)
    parser.add_argument("--seconds", type=int, default=60)
    parser.add_argument("--clients", type=int, default=4)
    parser.add_argument("--port", type=int, default=47100)
    parser.add_argument("--seed", type=int, default=1)
    parser.add_argument("--table", action="store_true")
    parser.add_argument("--recovery", action="store_true")
    parser.add_argument("--idle", action="store_true")
    parser.add_argument("--kills", type=int, default=20)
    parser.add_argument("--periods", help="JOIN,RETRANSMIT,CONSENSUS,LOSS in milliseconds")
    options = parser.parse_args()
    options.seconds = max(10, min(options.seconds, 120))
    with tempfile.TemporaryDirectory() as folder:
        job = table if options.table else recovery if options.recovery else idle if options.idle else run
        sys.exit(job(os.path.abspath(options.totem), Path(folder), options))


main()
