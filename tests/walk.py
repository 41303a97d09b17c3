#!/usr/bin/env python3
"""Writes docs/WALK.md: the files of definitions that the top call's clauses cite, whole, each before those that it cites."""
import os
import re
import sys

TOP = os.path.dirname(os.path.dirname(os.path.abspath(__file__)))
CRATES = os.path.join(TOP, "crates")
ROOT = ("cc_driver", "Answers")
# What the other commands come to, and how an image is made, have sections of their own.
OTHERS = ["Run", "Means", "Exec", "Layout", "Check", "Asm", "Dis", "Gen", "Debug", "Pre", "Join", "Profile"]
MADE = [("cc_compile", "Made"), ("cc_compile", "Images")]
ALSO = [("cc_driver", "Telling"), ("cc_driver", "Completeness"), ("cc_driver", "Meanings"), ("cc_driver", "Stored"),
        ("cc_shelf", "Told"), ("cc_shelf", "SinkAnswers"), ("cc_compile", "Limits")]

HEAD = """# The walk

The definitions that the clauses of the top call cite (`crates/cc_driver/src/command.rt`), whole: each file before those that it cites, with
what it defines. A path is `crates/CRATE/specs/FILE.antt`. Types of the code stand as `specs.declared.FILE.TYPE` of their crate, in its
`src/FILE.rt`; what a shelf and a sink promise is in `crates/cc_shelf/src/shelf.rt` and `sink.rt`, and what compilation promises in
`crates/cc_compile/src/phases.rt`. `∥ P ∥₁` says that P holds, without a witness that could be taken out of it. docs/PROMISES.md, "The walk
through it", says what is found where. This list is made by `tests/walk.py`, and the gate compares it.
"""


def names_below(crate):
    """The other crates' definitions that a crate passes on, by the name under which it does."""
    found = {}
    path = os.path.join(CRATES, crate, "specs", "Lib.antt")
    if os.path.exists(path):
        for line in open(path, encoding="utf-8"):
            match = re.match(r"pub use Rattle\.([\w]+)\.specs(?:\.([\w.]+))? as (\w+)", line)
            if match:
                found[match.group(3)] = (match.group(1), (match.group(2) or "").split("."))
    return found


BELOW = {crate: names_below(crate) for crate in sorted(os.listdir(CRATES)) if os.path.isdir(os.path.join(CRATES, crate))}


def path_of(crate, name):
    return os.path.join(CRATES, crate, "specs", name + ".antt")


def file_of(dotted):
    """The file that a `use` of this path reads, or none for the library and for types of the code."""
    parts = dotted.split(".")
    if len(parts) < 3 or parts[1] != "specs":
        return None
    crate, rest = parts[0], parts[2:]
    while rest and rest[0] in BELOW.get(crate, {}):
        low, inner = BELOW[crate][rest[0]]
        crate, rest = low, [part for part in inner if part] + rest[1:]
    if not rest or rest[0] == "declared":
        return None
    name = rest[0]
    return (crate, name) if os.path.exists(path_of(crate, name)) else None


def cited_by(node):
    found = []
    for line in open(path_of(*node), encoding="utf-8"):
        match = re.match(r"(?:pub )?use Rattle\.([\w.]+?)(?:\.\{.*\})?(?: as \w+)?\s*$", line)
        target = file_of(match.group(1)) if match else None
        if target and target != node and target not in found:
            found.append(target)
    return found


def ordered(roots, seen, cut):
    """The files that roots cite, directly or not, each before those that it cites; none that was seen, and nothing across a cut."""
    done = []

    def visit(node):
        if node in seen or node in cut:
            return
        seen.add(node)
        for target in cited_by(node):
            visit(target)
        done.append(node)

    for root in reversed(roots):
        visit(root)
    return done[::-1]


def first_words(node):
    """The comment at a file's head."""
    words = []
    for line in open(path_of(*node), encoding="utf-8"):
        if not line.startswith("-- "):
            break
        words.append(line[3:].strip())
    text = " ".join(words)
    return text.replace("|", "\\|")


def section(title, text, nodes):
    lines = [f"## {title}", "", text, "", "| File | What it defines |", "|---|---|"]
    lines += [f"| `{crate}`, `{name}` | {first_words((crate, name))} |" for crate, name in nodes]
    return "\n".join(lines) + "\n"


def text():
    others = [("cc_driver", name) for name in OTHERS]
    seen = set()
    first = ordered([ROOT], seen, set(others) | set(MADE))
    laws = ordered(ALSO, seen, set(others) | set(MADE))
    second = ordered(others, seen, set(MADE))
    third = ordered(MADE, seen, set())
    return "\n".join([
        HEAD,
        section("From the top call to what `build` promises", "Nothing here cites selection, accumulator code's runs or routines.", first),
        section("What else laws and traits speak of", "Laws of cc_driver and cc_compile, and what the calls of a shelf and a sink answer.", laws),
        section("What the other commands come to", "A row of `cc_driver`, `Commands`, each.", second),
        section("How an image is made", "What `IsMade` and the fault of code that finds no room cite, beside the files above.", third),
    ])


if __name__ == "__main__":
    sys.stdout.write(text())
