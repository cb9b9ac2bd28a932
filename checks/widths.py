#!/usr/bin/env python3
"""Finds the definitions with the most arguments and the functions with the most parameters.

    python3 checks/widths.py [N]    prints the N widest of each, 10 if not given

An argument of a definition is a pattern on the left of its equation, or a name in the head of a record. Arguments in braces and
those of the module around it are not counted. A parameter of a function is any but `self`.
"""

import re
import sys

DECLARED = re.compile(r"\b(?:abbrev|unfoldable) (?:pub )?(\w+) :|^ *(?:pub )?record (\w+)")
FUNCTION = re.compile(r"\bfn (\w+)")


def without_comments(text):
    return re.sub(r"(?m)^[ \t]*--.*$", "", text)


def top_level(text):
    """The parts of a text that are separated by spaces outside of brackets."""
    parts, depth, word = [], 0, ""
    for char in text + " ":
        depth += {"(": 1, "{": 1, ")": -1, "}": -1}.get(char, 0)
        if depth == 0 and char.isspace():
            parts += [word] if word else []
            word = ""
        else:
            word += char
    return parts


def names_of(head):
    """How many names the binders in parentheses of the head of a record have."""
    return sum(len(it[1:].split(":")[0].split()) for it in top_level(head) if it.startswith("("))


def left_side(lines, at):
    """The patterns of the equation that begins at a line, or nothing if none does."""
    parts = []
    for part in top_level(" ".join(lines[at : at + 8])):
        if part == "=":
            return parts[1:]
        if not re.match(r"[\w({\[]", part):
            return []
        parts.append(part)
    return []


def definitions(paths):
    """Each definition of these files of `specs/` with how many arguments it has."""
    found = {}
    for path in paths:
        lines = without_comments(path.read_text(encoding="utf-8")).split("\n")
        crate, declared = path.parts[path.parts.index("specs") - 1], set()
        for at, line in enumerate(lines):
            head = DECLARED.search(line)
            first = (line.split() or [""])[0]
            if head and head[1]:
                declared.add(head[1])
            elif head:
                found[f"{crate} {head[2]}"] = names_of(re.split(r"Type \d\s+where", " ".join(lines[at : at + 8]))[0])
            elif first in declared:
                name = f"{crate} {first}"
                width = sum(not it.startswith("{") for it in left_side(lines, at))
                found[name] = max(width, found.get(name, 0))
    return found


def parameters(text, at):
    """How many parameters the function has whose name ends there, without `self`."""
    if text[at] == "<":
        depth = 0
        while True:
            depth += {"<": 1, ">": -1}.get(text[at], 0) if text[at - 1] != "-" else 0
            at += 1
            if depth == 0:
                break
    depth, end = 0, at
    while True:
        depth += {"(": 1, ")": -1}.get(text[end], 0)
        end += 1
        if depth == 0:
            break
    inner = re.sub(r"<[^<>]*>|\([^()]*\)", "", text[at + 1 : end - 1])
    return sum(bool(it.strip()) and not re.search(r"\bself$", it.strip()) for it in inner.split(","))


def functions(paths):
    """Each function of these files with how many parameters it has."""
    found = {}
    for path in paths:
        text = re.sub(r"(?m)^\s*//.*$", "", path.read_text(encoding="utf-8"))
        for match in FUNCTION.finditer(text):
            if text[match.end()] in "<(":
                name = f"{path.parts[path.parts.index('src') - 1]}/{path.name} {match[1]}"
                found[name] = max(parameters(text, match.end()), found.get(name, 0))
    return found


def main():
    # counts.py counts by this module.
    import counts

    count = int(sys.argv[1]) if len(sys.argv) > 1 else 10
    both = (("arguments", definitions(counts.files_in("specs", ".antt"))), ("parameters", functions(counts.files_in("src", ".rt"))))
    for what, found in both:
        for name, width in sorted(found.items(), key=lambda it: -it[1])[:count]:
            print(f"{width} {what}: {name}")


if __name__ == "__main__":
    main()
