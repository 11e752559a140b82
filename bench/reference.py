#!/usr/bin/env python3
"""Prints what the sources say of themselves: definitions, promises, wrong bodies.

    python3 bench/reference.py definitions [WORD]     the words of the contracts: file, comment
    python3 bench/reference.py promises [WORD]        the public functions: crate, file, signature, clauses
    python3 bench/reference.py wrong-bodies [WORD]    the wrong bodies: file, function that each changes, change

It works from any folder, reads the sources alone and changes nothing. Crates come in the order of crates.txt.

WORD selects by whole name, and `*` in it stands for any text. It is a name (`IsFront`, `run`), a name with its type
(`World::run`), a crate (`ring_world`), or a file (`Group.antt`, `world.rt`). For wrong bodies it is the name of the file, of a
function or of a crate. With no match the status is 1.

definitions   Each name that a file in specs/ declares, with the comment above it; and each public type, trait and type alias
              and each constant of src/. A comment may stand above several names: then the first has it. With WORD the whole
              declaration is printed behind the comment.
promises      Each `pub fn`, each function of a public trait, and each function of an `impl` of a trait that has clauses of its
              own. Each is a block of lines: crate, file and name; signature; a line for each clause. White space is made
              one space, so two lists can be compared with diff. A law's clauses are the theorem. A function without
              clauses promises only that nothing undefined happens and, unless it may wait, that it ends.
wrong-bodies  Each edit of crates/CRATE/must-fail (tried by the gate) and wrong_bodies/CRATE (tried by wrong_bodies.py),
              with the function around each change. The name of the file says what the body does wrong.
"""
import re
import sys
from fnmatch import fnmatchcase

sys.dont_write_bytecode = True
import wrong_bodies
from wrong_bodies import ROOT

SPEC = re.compile(r"(?: *(?:abbrev|unfoldable) (?:pub )?| *pub (?:record|data) |(?:record|data|pub) )([^\s({:]+)(?: [({].*)? :(?: |$)")
ITEM = re.compile(r"(?:pub (?:struct|enum|trait|type)|(?:pub(?:\(crate\))? )?const) (\w+)")
GHOST = re.compile(r" +ghost (\w+): ")
FUNCTION = re.compile(r'( *)(pub )?(?:const )?(?:unsafe )?(?:extern "C" )?fn (\w+)')
OWNER = re.compile(r"(pub )?(?:unsafe )?(impl|trait)\b(.*)")
CLAUSE = re.compile(r" *(?:requires|ensures)\b")


def lines_of(path):
    return path.read_text(encoding="utf-8").splitlines()


def sources(folder, ending):
    """Yields (crate, path) of each file of this folder of each crate."""
    for crate in wrong_bodies.crates():
        for path in sorted((ROOT / "crates" / crate / folder).rglob("*" + ending)):
            yield crate, path


def one_line(lines):
    """These lines as one, with white space made one space."""
    return " ".join(" ".join(line for line in lines if not line.lstrip().startswith("//")).split())


def is_selected(word, *names):
    return not word or any(fnmatchcase(name, word) for name in names)


def comment_above(lines, at, mark):
    """The comment that ends above this line; attributes may stand between."""
    found = []
    while at and lines[at - 1].lstrip().startswith((mark, "#[")):
        at -= 1
        if lines[at].lstrip().startswith(mark):
            found.insert(0, lines[at].strip())
    return found


def declaration(lines, at):
    """The lines of a declaration: to the next empty line or the next comment that is not indented further."""
    depth = len(lines[at]) - len(lines[at].lstrip())
    end = at + 1
    while end < len(lines) and lines[end].strip() and not re.match(rf" {{0,{depth}}}--", lines[end]):
        end += 1
    return lines[at:end]


def definitions(word):
    """Yields the block of each definition."""
    for crate, path in sources("specs", ".antt"):
        lines, seen = lines_of(path), set()
        for at, line in enumerate(lines):
            head = SPEC.match(line)
            if head and head[1] not in seen and is_selected(word, head[1], crate, path.name):
                seen.add(head[1])
                yield block(path, head[1], comment_above(lines, at, "--"), declaration(lines, at) if word else [])
    for crate, path in sources("src", ".rt"):
        lines = lines_of(path)
        for at, line in enumerate(lines):
            head = ITEM.match(line) or GHOST.match(line)
            if head and is_selected(word, head[1], crate, path.name):
                is_short = re.search(r"\b(?:const|type) ", line)
                yield block(path, head[1], comment_above(lines, at, "///"), [line] if word or is_short else [])


def block(path, name, *parts):
    """A head line and indented lines."""
    return "\n    ".join([f"{path.relative_to(ROOT / 'crates')}: {name}", *(line for part in parts for line in part)])


def owner_of(line):
    """The type or trait whose block this line opens, and whether functions in it are public, or of a trait."""
    head = OWNER.match(line)
    text = head[3]
    while "<" in text and text != (less := re.sub(r"<[^<>]*>", "", text.replace("->", "=="))):
        text = less
    name = re.search(r"\w+", text.partition(" for ")[2] or text)
    return name[0] if name else "", bool(head[1]), head[2] == "impl" and " for " in text


def contract(lines, at, depth):
    """The signature of the function at this line, and its clauses."""
    parts, line = [[lines[at]]], lines[at]
    while not (line.endswith(("{", "{}", ";")) and len(parts) == 1) and at + 1 < len(lines):
        at, line = at + 1, lines[at + 1]
        if line in (depth + "{", depth + "{}"):
            break
        if CLAUSE.match(line):
            parts.append([])
        parts[-1].append(line)
        if line.endswith(";"):
            break
    signature, *clauses = [one_line(part) for part in parts]
    return re.sub(r" ?(\{\}?|;)$", "", signature), [clause.removesuffix(";") for clause in clauses]


def promises(word):
    """Yields the block of each public function."""
    for crate, path in sources("src", ".rt"):
        lines, owner, is_open, is_impl = lines_of(path), "", False, False
        for at, line in enumerate(lines):
            if OWNER.match(line):
                owner, is_open, is_impl = owner_of(line)
            elif line.startswith("}"):
                owner, is_open, is_impl = "", False, False
            head = FUNCTION.match(line)
            name = head and (f"{owner}::{head[3]}" if owner else head[3])
            if not head or not is_selected(word, name, head[3], crate, owner, path.name):
                continue
            signature, clauses = contract(lines, at, head[1])
            if head[2] or is_open or (is_impl and clauses):
                yield block(path, name, [signature], ["    " + clause for clause in clauses])


def bodies(word):
    """Yields the block of each wrong body."""
    for body in wrong_bodies.wrong_bodies(wrong_bodies.crates()):
        found, changes = [], []
        for file, old, new in wrong_bodies.pairs(body.path.read_text(encoding="utf-8")):
            path = ROOT / "crates" / body.crate / file
            text = path.read_text(encoding="utf-8") if path.is_file() else ""
            place = text.find(old)
            around = [name for begin, end, name in wrong_bodies.functions(text) if begin <= place < end]
            found += around[-1:]
            where = f"fn {around[-1]}" if around else "in no function"
            changes += [f"{file}, {where}", f"    - {old.strip()}", f"    + {new.strip()}"]
        if is_selected(word, body.name, body.crate, *found):
            yield "\n    ".join([str(body.path.relative_to(ROOT)), *changes])


def main():
    lists = {"definitions": definitions, "promises": promises, "wrong-bodies": bodies}
    if len(sys.argv) not in (2, 3) or sys.argv[1] not in lists:
        sys.exit(__doc__)
    found = list(lists[sys.argv[1]](sys.argv[2] if len(sys.argv) == 3 else ""))
    print("\n\n".join(found))
    return 0 if found else 1


if __name__ == "__main__":
    try:
        sys.exit(main())
    except BrokenPipeError:
        sys.exit(0)
