"""Writes docs/PLANTED.md: the planted bugs of crates/*/must-fail, and the fact for which the prover refused each.

usage: planted.py LOG..

A LOG is what .ci/run or `rt must-fail` printed, with a line for each bug that was tried; of several, later ones go before
earlier ones. Run it at the top of a checkout. What stands on the page below the mark of its second part is kept.
"""

import glob
import os
import re
import sys

PAGE = "docs/PLANTED.md"
MARK = "## Tried once\n"
LINE = re.compile(r"must-fail (\w+)/(\w+)\.edit: refused, as it must be: (.*)")
AT = re.compile(r"(src/[\w/]+\.rt):(\d+):\d+")
GOAL = re.compile(r"`([\w+\-]+)`")
ANSWER = re.compile(r"\./proofs/([\w/]+)/(?:Answers|Invariants)\.antt")

HEAD = """# Planted bugs

Each row is a change of the code that keeps its shape and turns its meaning, `was` to `is`. The gate applies each to a
copy of its crate, and the prover has to refuse it for want of a fact: the goal of a function's contract, of a loop's
invariant or of what a call asks for. A goal is named as the prover names it.

"""


def pairs(path):
    """The file that a bug changes, and each text with what it becomes."""
    lines = open(path).read().splitlines()
    fields = [line.split(":", 1) for line in lines if ":" in line]
    texts = [text.strip() for _, text in fields]
    return texts[0], list(zip(texts[1::2], texts[2::2]))


def function_at(crate, path, line):
    """The function around a line of a source file."""
    found = "?"
    for number, text in enumerate(open(os.path.join("crates", crate, path)), 1):
        if number > line:
            break
        name = re.match(r"\s*(?:pub(?:\(\w+\))? )?fn (\w+)", text)
        found = name.group(1) if name else found
    return found


def fact(crate, said):
    """The function and the goal that failed."""
    goal = GOAL.findall(said)
    answer = ANSWER.search(said)
    if answer:
        return answer.group(1).split("/")[-1], goal[0] if goal else "?"
    at = AT.search(said)
    named = [name for name in goal if name not in ("search", "set_gap")]
    return function_at(crate, at.group(1), int(at.group(2))) if at else "?", named[0] if named else "?"


def cell(text):
    return "`" + text.replace("|", "\\|") + "`"


def rows(crate, facts):
    for path in sorted(glob.glob(f"crates/{crate}/must-fail/*.edit")):
        bug = os.path.basename(path)[:-5]
        file, changes = pairs(path)
        function, goal = facts.get((crate, bug), ("?", "?"))
        was = "<br>".join(cell(old) for old, _ in changes)
        now = "<br>".join(cell(new) for _, new in changes)
        yield f"| {bug} | {file} | {was} | {now} | `{function}`, {goal} |"


def main():
    logs = "\n".join(open(path, encoding="utf-8", errors="replace").read() for path in sys.argv[1:])
    facts = {(crate, bug): fact(crate, said) for crate, bug, said in LINE.findall(logs)}
    crates = [line.split(":")[0] for line in open("crates.txt") if ":" in line]
    out = [HEAD]
    for crate in crates:
        table = list(rows(crate, facts))
        if table:
            out.append(f"## {crate}\n| bug | file | was | is | refused at |\n|---|---|---|---|---|\n" + "\n".join(table) + "\n\n")
    kept = open(PAGE).read().split(MARK)[1:] if os.path.exists(PAGE) else []
    text = "".join(out) + (MARK + kept[0] if kept else "")
    open(PAGE, "w").write(text.rstrip("\n") + "\n")


if __name__ == "__main__":
    main()
