#!/usr/bin/env python3
"""Decides whether the history of one counter, or of registers, has a linearization.

    bench/histories.py        tries the checkers on histories whose verdict is known

A history is a list of tries. A try without an answer may take effect at any time after its begin, or never. `bench/service.py
--check` uses these checkers.
"""
from __future__ import annotations

import bisect
from dataclasses import dataclass
from math import inf

MOST_STATES = 500_000


@dataclass
class Try:
    """An operation as one client tried it at one node: `add` or `get` of the counter, `get`, `put` or `cas` of a register."""

    operation: str
    begin: float
    end: float = inf  # without an answer
    key: int = 0
    values: tuple[int, ...] = ()  # the arguments
    answer: int | None = None  # the value that was answered; of `put`, and of a `cas` that changed the value, none

    @property
    def has_answer(self) -> bool:
        return self.end < inf


def counter_faults(history: list[Try]) -> list[str]:
    """Decides about adds of 1 and gets of one counter, by arithmetic.

    An add has the position of the value that it answers, a get half a position behind that. Wanted: the values of adds differ; a
    try that began after another ended is not before it; each value that no add answered belongs to an add without an answer
    that began before all tries at or behind that position ended.
    """
    done = sorted((tried.answer + (tried.operation == "get") / 2, tried.begin, tried.end) for tried in history if tried.has_answer)
    adds = [position for position, _, _ in done if position == int(position)]
    wrong = [f"value {value} was answered to two adds" for value, after in zip(adds, adds[1:]) if value == after]
    others = [tried.begin for tried in history if not tried.has_answer and tried.operation == "add"]
    return wrong + order_faults(done) + gap_faults(done, set(adds), others)


def order_faults(done: list[tuple[float, float, float]]) -> list[str]:
    """Tries that stand before one that had ended when they began."""
    ends, greatest, wrong = sorted((end, position) for position, _, end in done), -inf, []
    for position, begin, _ in sorted(done, key=lambda tried: tried[1]):
        while ends and ends[0][0] < begin:
            greatest = max(greatest, ends.pop(0)[1])
        if position < greatest or position == greatest == int(position):
            wrong.append(f"position {position} began at {begin}, when position {greatest} had ended")
    return wrong


def gap_faults(done: list[tuple[float, float, float]], adds: set[float], begins: list[float]) -> list[str]:
    """Values that can be of no add without an answer. `begins` has the times at which these began."""
    missing = [value for value in range(1, int(max((position for position, _, _ in done), default=0)) + 1) if value not in adds]
    positions, least_ends = [position for position, _, _ in done], [inf] * (len(done) + 1)
    for i in range(len(done) - 1, -1, -1):
        least_ends[i] = min(least_ends[i + 1], done[i][2])
    limits = sorted(least_ends[bisect.bisect_left(positions, value)] for value in missing)
    # The add that began first is given to the value that must begin first.
    found = 0
    for limit, begin in zip(limits, sorted(begins)):
        found += begin < limit
    if found < len(missing):
        return [f"{len(missing)} values were answered to no add, and at most {found} of {len(begins)} adds without an answer explain them"]
    return []


def register_faults(history: list[Try]) -> list[str]:
    """Decides about registers that begin with 0: a search by Wing and Gong for each key, which keeps what it has seen."""
    keys: dict[int, list[Try]] = {}
    for tried in history:
        keys.setdefault(tried.key, []).append(tried)
    return [f"register {key}: {why}" for key, tries in sorted(keys.items()) if (why := register_fault(tries))]


def needed_tries(tries: list[Try]) -> list[Try]:
    """Leaves out tries without an answer whose value nobody saw: an order without them is one, too."""
    answered, others = [tried for tried in tries if tried.has_answer], [tried for tried in tries if not tried.has_answer and tried.values]
    seen = {tried.answer for tried in answered} | {tried.values[0] for tried in answered if tried.operation == "cas"}
    before = -1
    while before != len(seen):  # a value that was seen may be the new one of a `cas`, which saw the old one
        before = len(seen)
        seen |= {tried.values[0] for tried in others if tried.operation == "cas" and tried.values[1] in seen}
    return sorted(answered + [tried for tried in others if tried.values[-1] in seen], key=lambda tried: tried.begin)


def register_fault(tries: list[Try]) -> str | None:
    tries = needed_tries(tries)
    wanted = sum(1 << i for i, tried in enumerate(tries) if tried.has_answer)
    seen, states = set(), [(0, 0)]
    while states:
        state = states.pop()
        if state in seen:
            continue
        done, value = state
        if done & wanted == wanted:
            return None
        seen.add(state)
        if len(seen) > MOST_STATES:
            return f"the search of {len(tries)} tries was given up"
        for i in candidates(tries, done):
            after = value_after(tries[i], value)
            if after is not None:
                states.append((done | 1 << i, after))
    return f"no order of {len(tries)} tries"


def candidates(tries: list[Try], done: int) -> list[int]:
    """The tries that may come next: those that began before the end of each that is left. Of tries without an answer that do the
    same only the first is one."""
    least_end, found, others = inf, [], set()
    first_left = (~done & (done + 1)).bit_length() - 1
    for i in range(first_left, len(tries)):
        tried = tries[i]
        if tried.begin > least_end:
            break
        same = (tried.operation, tried.values)
        if done >> i & 1 or not tried.has_answer and same in others:
            continue
        found.append(i)
        least_end = min(least_end, tried.end)
        if not tried.has_answer:
            others.add(same)
    return [i for i in reversed(found) if tries[i].begin <= least_end]


def value_after(tried: Try, value: int) -> int | None:
    """The register's value after a try, or nothing where its answer can't be this."""
    if tried.operation == "get":
        return value if tried.answer == value else None
    if tried.operation == "put":
        return tried.values[0]
    old, new = tried.values
    is_changed = value == old
    if tried.has_answer and (tried.answer is None) != is_changed or tried.answer not in (None, value):
        return None
    return new if is_changed else value


def try_checkers() -> None:
    """Histories whose verdict is known: each wrong one must be found out."""
    counter = [Try("add", 0, 1, answer=1), Try("add", 0.5, 2, answer=2)]
    more = [Try("get", 3, 4, answer=2), Try("add", 2), Try("get", 5, 6, answer=3)]
    assert not counter_faults(counter + more)
    for name, wrong in {
        "an old value is read": counter + [Try("get", 3, 4, answer=1)],
        "a value is answered twice": counter + [Try("add", 3, 4, answer=2)],
        "a value comes from nowhere": counter + [Try("get", 3, 4, answer=3)],
        "against time": [Try("add", 0, 1, answer=2), Try("add", 2, 3, answer=1)],
        "the try without an answer began too late": [Try("add", 0, 1, answer=2), Try("add", 2)],
        "one try without an answer takes effect twice": counter + [Try("add", 2), Try("get", 3, 4, answer=4)],
    }.items():
        assert counter_faults(wrong), name
    register = [Try("put", 0, 1, values=(5,)), Try("get", 2, 3, answer=5), Try("cas", 2, 4, values=(5, 7)), Try("get", 5, 6, answer=7)]
    assert not register_faults(register)
    assert not register_faults([Try("put", 0, values=(5,)), Try("get", 2, 3, answer=5), Try("get", 4, 5, answer=5)])
    assert not register_faults(register + [Try("cas", 7, 8, values=(5, 9), answer=7)])
    # Two tries without an answer, one after the other, make the value that is read.
    chain = [Try("put", 0, values=(5,)), Try("cas", 0, values=(5, 6)), Try("put", 1, values=(8,)), Try("get", 2, 3, answer=6)]
    assert not register_faults(chain)
    for name, wrong in {
        "an old value is read": register[:3] + [Try("get", 5, 6, answer=5)],
        "a value that is not there is replaced": register + [Try("cas", 7, 8, values=(5, 9))],
        "a value that is there is not replaced": register + [Try("cas", 7, 8, values=(7, 9), answer=7)],
        "a value comes and goes": [Try("put", 0, values=(5,)), Try("get", 2, 3, answer=5), Try("get", 4, 5, answer=0)],
        "a try without an answer takes effect before it began": [Try("get", 0, 1, answer=5), Try("put", 2, values=(5,))],
        "a value is lost": [Try("put", 0, 1, values=(5,)), Try("get", 2, 3, answer=0)],
        "the first link of a chain began too late": [Try("put", 4, values=(5,))] + chain[1:],
        "a value comes three times of two tries": [Try("put", 0, values=(5,))] * 2 + [
            Try("get", 1, 2, answer=5), Try("put", 3, 4, values=(6,)), Try("get", 5, 6, answer=5), Try("put", 7, 8, values=(7,)),
            Try("get", 9, 10, answer=5), Try("put", 11, 12, values=(8,)), Try("get", 13, 14, answer=5)],
    }.items():
        assert register_faults(wrong), name


if __name__ == "__main__":
    try_checkers()
    print("the checkers find each planted fault")
