#!/usr/bin/env python3
"""Counts the lines of definitions that a reader must read to know what the main theorem says: the definitions in specs/ that the
clauses of Server::run and of World::run cite, and those that these cite in turn. The same for serve_turns, which says what the
program serves, and for run_serve, which says it of a ledger in a file: for all their clauses, and for what is served alone. That is
one clause or field of each, without printing, days, the guard, the ends and refusals.

    python3 checks/definition_lines.py           how many definitions and lines, for each function and for the first two
    python3 checks/definition_lines.py --names   also the definitions file by file, the types and the kit's words

A clause or a definition cites each word in it that is defined in its own file or that a `use` line brings in. A definition within
a module also cites the module's head. Comments, empty lines and `use` lines are not counted. Two kinds of cited names are listed
and have no counted lines: types of the code (`declared`), and words of the kit (`std`, `sqlite` and the crates below it)."""
import os
import re
import sys

CRATES = os.path.join(os.path.dirname(os.path.realpath(__file__)), "..", "crates")
FUNCTIONS = [("s10_ends", "server.rt", "Server::run"), ("s10_world", "world.rt", "World::run")]
SERVING = [("s10_jobs", "turns.rt", "serve_turns"), ("s10_host", "serve.rt", "run_serve")]
SERVED = {"serve_turns": ("s10_jobs", "Serving", "ServesLink"), "run_serve": ("s10_host", "Jobs", "ServesFiles")}
USE = re.compile(r"use Rattle\.(s10_\w+|std|sqlite\w*)\.specs\.([\w.]+?)(?:\.\{([^}]*)\}| as (\w+))")
HEAD = re.compile(r"(?:pub )?(?:abbrev|unfoldable|record|data) (?:pub )?([\w']+)")
HEAD_IN_MODULE = re.compile(r"  (?:pub (?:record|data)|(?:abbrev|unfoldable) pub) ([\w']+)")
WORD = re.compile(r"[A-Za-z_][\w']*")
files, modules = {}, {}


class Cited:
    """What clauses cite: lines by definition, types of the code, words of the kit."""

    def __init__(self):
        self.definitions, self.types, self.kit = {}, set(), set()

    def add(self, other):
        self.definitions.update(other.definitions)
        self.types |= other.types
        self.kit |= other.kit

    def lines(self):
        return sum(self.definitions.values())

    def without(self, other):
        """What only this one cites."""
        rest = Cited()
        rest.definitions = {target: lines for target, lines in self.definitions.items() if target not in other.definitions}
        rest.types, rest.kit = self.types - other.types, self.kit - other.kit
        return rest

    def names(self):
        """The names of the definitions, each with its crate and file. The head of a module has none."""
        return [target for target in self.definitions if not target[2].startswith("module ")]


def read(*path):
    with open(os.path.join(CRATES, *path), encoding="utf-8") as file:
        return file.read()


def scope_of(text):
    """The names that the `use` lines of a text bring in, each with its crate, file and name there."""
    scope = {}
    for crate, file, names, _ in USE.findall(text):
        for name in filter(None, map(str.strip, names.split(","))):
            there, _, here = name.partition(" as ")
            scope[here or there] = (crate, file, there)
    return scope


def definitions_of(crate, file):
    """The definitions of a file with their lines, and what its `use` lines bring in."""
    if (crate, file) not in files:
        text = read(crate, "specs", file + ".antt")
        found, name, module = {}, None, None
        for index, line in enumerate(text.split("\n")):
            if not line.strip() or re.match(r"\s*--|use |ghost use |pub mod ", line):
                continue
            head, inner = HEAD.match(line), HEAD_IN_MODULE.match(line)
            if line.startswith("module "):
                name = module = f"module {index}"
            elif head:
                name = head.group(1)
            elif inner:
                name = inner.group(1)
                modules[crate, file, name] = (crate, file, module)
            found.setdefault(name, []).append(line)
        files[crate, file] = found, scope_of(text)
    return files[crate, file]


def occurs(name, text):
    """Whether a name, or each part of an operator such as `◌≡◌`, occurs in a text."""
    if WORD.fullmatch(name):
        return name in WORD.findall(text)
    return all(part in text for part in name.split("◌"))


def cite_text(text, own, scope, cited):
    """Adds what a text cites: definitions of its own file, and names in scope."""
    for name, target in scope.items():
        if occurs(name, text):
            cite(target, cited)
    for word in set(WORD.findall(text)) & set(own):
        cite(own[word], cited)


def cite(target, cited):
    """Adds a definition (crate, file, name), and all that it cites."""
    crate, file, name = target
    if not crate.startswith("s10_"):
        cited.kit.add(name)
    elif file.startswith("declared."):
        cited.types.add(next(part for part in file.split(".") if part[0].isupper()))
    elif target not in cited.definitions:
        found, scope = definitions_of(crate, file)
        cited.definitions[target] = len(found[name])
        cite_text("\n".join(found[name]), {word: (crate, file, word) for word in found}, scope, cited)
        if target in modules:
            cite(modules[target], cited)


def clauses_of(crate, file, function):
    """The lines of a function's clauses, and what its file's `use` lines bring in."""
    text = read(crate, "src", file)
    head = re.search(rf"^( *)pub(?:\(crate\))? fn {function.split('::')[-1]}[(<]", text, re.M)
    lines = text[head.start() : text.index(f"\n{head.group(1)}{{\n", head.start())].split("\n")
    lines = [line for line in lines if line.strip() and not line.strip().startswith("//")]
    first = next(index for index, line in enumerate(lines) if line.strip().startswith(("requires", "ensures")))
    return lines[first:], scope_of(text)


def main_theorem():
    """For each function its clauses' lines and what they cite; and the same for the first two together."""
    both, clause_lines, each = Cited(), 0, []
    for crate, file, function in FUNCTIONS + SERVING:
        lines, scope = clauses_of(crate, file, function)
        cited = Cited()
        cite_text("\n".join(lines), {}, scope, cited)
        each.append((function, len(lines), cited))
    for _, lines, cited in each[: len(FUNCTIONS)]:
        both.add(cited)
        clause_lines += lines
    return each, (clause_lines, both)


def served():
    """What is cited by the clause or field that says what is served, for each function that has one."""
    found = {function: Cited() for function in SERVED}
    for function, cited in found.items():
        cite(SERVED[function], cited)
    return found


def print_names(cited):
    for place in sorted({target[:2] for target in cited.names()}):
        names = [name for crate, file, name in cited.names() if (crate, file) == place]
        print(f"{place[0]}/specs/{place[1]}.antt: {' '.join(sorted(names))}")
    print(f"types: {' '.join(sorted(cited.types))}")
    print(f"kit: {' '.join(sorted(cited.kit))}")


def main():
    each, (clause_lines, both) = main_theorem()
    for function, lines, cited in each:
        print(f"{function}: {lines} lines of clauses, {len(cited.names())} definitions of {cited.lines()} lines")
    for function, cited in served().items():
        print(f"what {function} serves, {SERVED[function][2]}: {len(cited.names())} definitions of {cited.lines()} lines")
    print(f"the first two: {clause_lines} lines of clauses, {len(both.names())} definitions of {both.lines()} lines,", end=" ")
    print(f"over {len(both.types)} types and {len(both.kit)} words of the kit")
    if "--names" in sys.argv[1:]:
        print_names(both)
        for function, _, cited in each[len(FUNCTIONS) :]:
            print(f"only {function}:")
            print_names(cited.without(both))


if __name__ == "__main__":
    main()
