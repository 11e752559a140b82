#!/usr/bin/env python3
"""Makes the text of the page of a run, or checks that it is what the page's files say.

    bench/page_text.py [--write]

The files are crates/ring_trace_page/page/: `page.html` with comments where style, lines, picture and script go, `page.css` and
`page.js`. The text is crates/ring_trace_page/src/page_text.rt: constants of the parts before the lines, before the picture, and
behind it. Without --write nothing is written, and the exit status is 1 where the text is not that of the files.
"""
import pathlib
import sys

CRATE = pathlib.Path(__file__).resolve().parent.parent / "crates" / "ring_trace_page"
TEXT = CRATE / "src" / "page_text.rt"
HEAD = """\
//! The parts of the page of a run. `bench/page_text.py --write` makes this file from those in `page/`.
//! Formats: The command line
"""
PART = """
/// The part of the page {where}.
pub(crate) const {name}: &str = r##"{text}"##;
"""


def page_of_files():
    """Returns the page with its style and its script."""
    page = (CRATE / "page" / "page.html").read_text()
    for name in ("page.css", "page.js"):
        before, behind = page.split(f"<!--{name}-->\n")
        page = before + (CRATE / "page" / name).read_text() + behind
    return page


def text_of_files():
    """Returns the text that the page's files say."""
    page = page_of_files()
    head, rest = page.split("<!--lines-->\n")
    middle, tail = rest.split("<!--picture-->\n")
    if '"##' in page:
        sys.exit('page_text: the page has the characters "##, which end a constant')
    parts = {"HEAD": ("before the lines", head), "MIDDLE": ("between the lines and the picture", middle), "TAIL": ("behind the picture", tail)}
    return HEAD + "".join(PART.format(where=where, name=name, text=text) for name, (where, text) in parts.items())


def check():
    """Ends the program where the text is not that of the files."""
    if TEXT.read_text() != text_of_files():
        sys.exit("page_text: src/page_text.rt is not that of page/: bench/page_text.py --write")


def main():
    if "--write" in sys.argv[1:]:
        TEXT.write_text(text_of_files())
    else:
        check()


if __name__ == "__main__":
    main()
