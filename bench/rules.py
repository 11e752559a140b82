#!/usr/bin/env python3
"""Checks the lines `Rules: ..` and `Formats: ..` in comments against docs/PROTOCOL.md and docs/FORMATS.md.

    python3 bench/rules.py          lists rules that are named and do not exist, and rules that no file of code names
    python3 bench/rules.py --list   lists each rule of the protocol with the files that name it

A comment names rules by a heading of docs/PROTOCOL.md and numbers below it, as in `Rules: Gather 4 and 5; Recovery 1, 3 to 6`, or
by the heading alone, which is all its rules. `Formats: Frames; Payloads` names headings of docs/FORMATS.md.
The status is 1 where something is wrong.
"""
import re
import sys
from collections import defaultdict
from pathlib import Path

TOP = Path(__file__).resolve().parent.parent
LINE = re.compile(r"^\s*(?://[/!]?|--)\s?(Rules|Formats): (.*?)\.?\s*$", re.M)


def rules():
    """The numbers of the rules of the protocol, by heading."""
    found, heading = defaultdict(set), None
    for line in (TOP / "docs/PROTOCOL.md").read_text(encoding="utf-8").splitlines():
        if line.startswith("## "):
            heading = line[3:].strip()
            found[heading] = set()
        elif heading and (number := re.match(r"(\d+)\. ", line)):
            found[heading].add(int(number[1]))
    return found


def headings():
    """The headings of the formats."""
    text = (TOP / "docs/FORMATS.md").read_text(encoding="utf-8")
    return {it.strip() for it in re.findall(r"(?m)^#{2,3} (.*)$", text)}


def numbers(text):
    """The numbers of `1, 3 to 6 and 8`."""
    for part in re.split(r",| and ", text):
        ends = [int(it) for it in re.findall(r"\d+", part)]
        yield from range(ends[0], ends[-1] + 1) if ends else ()


def main():
    known, formats, named, wrong = rules(), headings(), defaultdict(set), []
    for file in sorted((TOP / "crates").glob("*/s*/**/*")):
        if file.suffix not in (".rt", ".antt"):
            continue
        place = str(file.relative_to(TOP))
        text = re.sub(r";\n\s*(?://[/!]?|--)\s*", "; ", file.read_text(encoding="utf-8"))  # a list may go on in the next line
        for kind, said in LINE.findall(text):
            for part in re.split(";" if kind == "Rules" else "[;,]", said):
                heading, ends = re.fullmatch(r"\s*(.*?)((?:\s\d[\d\s,toand]*)?)\s*", part).groups()
                if kind == "Formats":
                    wrong += [] if heading in formats else [f"{place}: FORMATS has no heading {heading!r}"]
                elif heading not in known:
                    wrong.append(f"{place}: PROTOCOL has no heading {heading!r}")
                else:
                    for number in list(numbers(ends)) or known[heading]:
                        wrong += [] if number in known[heading] else [f"{place}: {heading} has no rule {number}"]
                        named[heading, number].add(place)
    if "--list" in sys.argv:
        for heading, them in known.items():
            for number in sorted(them):
                print(f"{heading} {number}: {' '.join(sorted(named[heading, number]))}")
    unnamed = [f"{heading} {it}" for heading, them in known.items() for it in sorted(them) if not any(place.endswith(".rt") for place in named[heading, it])]
    print("\n".join([*wrong, *(f"no file of code names {it}" for it in unnamed)]))
    print(f"{sum(map(len, known.values()))} rules, {len(unnamed)} named by no file of code, {len(wrong)} wrong names")
    return 1 if wrong or unnamed else 0


if __name__ == "__main__":
    sys.exit(main())
