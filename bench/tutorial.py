#!/usr/bin/env python3
"""Checks that docs/TUTORIAL.md and docs/template/ have the lock table of crates/totem_examples, or writes them anew.

    python3 bench/tutorial.py                     lists the blocks and files that are not the example's; the status is then 1
    python3 bench/tutorial.py --write             copies the example to the template and to the whole files of the tutorial,
                                                  then checks
    python3 bench/tutorial.py --rename FOLDER     removes .txt from the names of a copied template's files

A fence of the tutorial names a file of the template, as ```src/locks.rt. The files of WHOLE have one block each, with all
their lines. Every other block is an excerpt: consecutive lines of its file. `--write` leaves excerpts as they are: where the
example has changed, they are edited by hand.

The files of SHARED are the example's, with the template's name in place of the example's. The template's other files are its
own: the main module, the lists of its files, and the expected output, which is a part of the example's. Sources of the template
end in .txt, since no source of the toolchain may be outside crates/.
"""
import os
import re
import sys

TOP = os.path.dirname(os.path.dirname(os.path.abspath(__file__)))
EXAMPLE = os.path.join(TOP, "crates", "totem_examples")
TUTORIAL = os.path.join(TOP, "docs", "TUTORIAL.md")
TEMPLATE = os.path.join(TOP, "docs", "template", "my_object")
SHARED = ["specs/LockVocabulary.antt", "specs/Locks.antt", "specs/LocksLaws.antt", "src/lock_operation.rt", "src/lock_clients.rt",
          "src/lock_threads.rt", "src/lock_tools.rt", "src/lock_vocabulary.rt", "src/locks.rt"]
OWN = ["proofs/Lib.antt", "specs/Lib.antt", "src/main.rt", "stdout"]
WHOLE = ["src/lock_operation.rt", "specs/Locks.antt", "src/locks.rt", "stdout"]
BLOCK = re.compile(r"^```(\S+)\n(.*?)^```$", re.MULTILINE | re.DOTALL)


def read(path):
    with open(path, encoding="utf-8") as file:
        return file.read()


def write(path, text):
    os.makedirs(os.path.dirname(path), exist_ok=True)
    with open(path, "w", encoding="utf-8") as file:
        file.write(text)


def files_of(folder):
    """The paths of the files below a folder."""
    return sorted(os.path.relpath(os.path.join(place, name), folder) for place, _, names in os.walk(folder) for name in names)


def in_template(path):
    """Where the template has this file."""
    return os.path.join(TEMPLATE, path + ".txt" if path.endswith((".rt", ".antt")) else path)


def text_of(path):
    """What must stand in this file of the template."""
    if path in SHARED:
        return read(os.path.join(EXAMPLE, path)).replace("totem_examples", "my_object")
    return read(in_template(path))


def is_excerpt(text, whole):
    """Whether the text is consecutive lines of the whole."""
    some, all_lines = text.splitlines(), whole.splitlines()
    return some != [] and any(all_lines[first:first + len(some)] == some for first in range(len(all_lines)))


def faults_of_tutorial():
    """The blocks of the tutorial that are not the template's, and the files that it doesn't name."""
    tutorial = read(TUTORIAL)
    blocks = BLOCK.findall(tutorial)
    if len(re.findall("^```", tutorial, re.MULTILINE)) != 2 * len(blocks):
        yield "docs/TUTORIAL.md: a fence without a file"
    for path in WHOLE:
        if [text for name, text in blocks if name == path] != [text_of(path)]:
            yield f"docs/TUTORIAL.md: {path} is not there once, whole, as in the example"
    for path, text in blocks:
        if path not in SHARED + OWN:
            yield f"docs/TUTORIAL.md: the template has no file {path}"
        elif path not in WHOLE and not is_excerpt(text, text_of(path)):
            yield f"docs/TUTORIAL.md: an excerpt of {path} is not consecutive lines of the example: {text.splitlines()[:1]}"
    for path in SHARED + ["src/main.rt"]:
        if path not in tutorial:
            yield f"docs/TUTORIAL.md: doesn't name {path}"


def faults_of_template():
    """The files of the template that are not the example's."""
    wanted = sorted(os.path.relpath(in_template(path), TEMPLATE) for path in SHARED + OWN)
    if files_of(TEMPLATE) != wanted:
        yield f"docs/template/my_object: not the files {', '.join(wanted)}"
    for path in SHARED:
        if not os.path.exists(in_template(path)) or read(in_template(path)) != text_of(path):
            yield f"docs/template/my_object: {path} is not the example's"
    if text_of("stdout") not in read(os.path.join(EXAMPLE, "stdout")):
        yield "docs/template/my_object: stdout is no part of the example's"


def write_all():
    for path in SHARED:
        write(in_template(path), text_of(path))
    write(TUTORIAL, BLOCK.sub(lambda block: f"```{block[1]}\n{text_of(block[1])}```" if block[1] in WHOLE else block[0], read(TUTORIAL)))


def rename(folder):
    for path in files_of(folder):
        if path.endswith((".rt.txt", ".antt.txt")):
            os.rename(os.path.join(folder, path), os.path.join(folder, path[: -len(".txt")]))


def main():
    if sys.argv[1:2] == ["--rename"] and len(sys.argv) == 3:
        rename(sys.argv[2])
        return
    if sys.argv[1:2] == ["--write"]:
        write_all()
    found = [*faults_of_template(), *faults_of_tutorial()]
    print("\n".join(found) or "the tutorial and the template have the example's code")
    sys.exit(1 if found else 0)


if __name__ == "__main__":
    main()
