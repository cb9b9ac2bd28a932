#!/usr/bin/env python3
"""Prints what each public function of a crate does and which clauses it has, from the sources.

    python3 checks/contracts.py             prints each crate with how many functions have a contract
    python3 checks/contracts.py CRATE..     prints the functions of these crates, file by file

A function is public if it is `pub`, or in a public trait. Its line has the first sentence of its comment. A function of an `impl` of a
trait is not listed: its clauses are those of the trait. The labels of the clauses follow. A clause without a label is
shown by its first words.
"""

import re
import sys

import clauses
import counts

TYPE = re.compile(r"^(?:pub )?(?:trait|impl)\b(?:<.*?>)? *(?:[\w:]+(?:<.*?>)? for )?(\w+)")
CLAUSE = re.compile(r"\s*\*?(requires|ensures)\*?\s*(\w*)\s*\{(.*)\}\s*$", re.S)
WORDS = 5


def first_sentence(lines, head):
    """The first sentence of the comment above the head of a function, or nothing."""
    at = head
    while at and not lines[at - 1].strip().startswith("///") and lines[at - 1].strip().startswith("#["):
        at -= 1
    comment = []
    while at and lines[at - 1].strip().startswith("///"):
        at -= 1
        comment.insert(0, lines[at].strip()[3:].strip())
    text = " ".join(comment[: comment.index("")] if "" in comment else comment)
    return re.split(r"(?<=\.) ", text)[0]


def label(clause):
    """The label of a clause, or its first words if it has none. A `requires` is named as such."""
    kind, name, formula = CLAUSE.match(clause).groups()
    words = formula.split()
    shown = name or " ".join(words[:WORDS]) + (" .." if len(words) > WORDS else "")
    return f"requires {shown}" if kind == "requires" else shown


def owner(lines, head):
    """The type or the trait that a function belongs to, or nothing."""
    if not lines[head].startswith(" "):
        return ""
    for line in reversed(lines[:head]):
        if TYPE.match(line):
            return TYPE.match(line).group(1) + "::"
    return ""


def contracts(folder):
    """For each source file of a crate its public functions with a contract: name, sentence and labels."""
    for path in sorted((folder / "src").rglob("*.rt")):
        text = path.read_text(encoding="utf-8")
        lines = text.split("\n")
        heads, rows = set(counts.public_heads(lines)), []
        for head, name, found in clauses.functions_of(text):
            if head in heads:
                rows.append((owner(lines, head) + name, first_sentence(lines, head), [label(it) for it in found]))
        if rows:
            yield path.relative_to(folder), rows


def show(folder):
    for path, rows in contracts(folder):
        print(f"{folder.name}/{path}")
        for name, sentence, found in rows:
            print(f"  {name}: {sentence}" if sentence else f"  {name}")
            print("    " + "; ".join(found))


def main():
    folders = {it.name: it for it in counts.folders()}
    unknown = [it for it in sys.argv[1:] if it not in folders]
    if unknown:
        print(f"no crate of this name: {unknown[0]}", file=sys.stderr)
        return 2
    for name in sys.argv[1:]:
        show(folders[name])
    if not sys.argv[1:]:
        for name, folder in folders.items():
            print(f"{name}: {sum(len(rows) for _, rows in contracts(folder))}")
    return 0


if __name__ == "__main__":
    sys.exit(main())
