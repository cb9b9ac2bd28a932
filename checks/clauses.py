#!/usr/bin/env python3
"""Compares the clauses of public functions of two commits, word by word, and prints the words that differ.

  python3 checks/clauses.py OLD [NEW]

NEW is a commit, or the files as they are. Clauses are `requires`, `ensures` and their starred forms of each `pub fn`, of each
function of a trait and of each `impl` of a trait; white space does not count, nor does a comma or a semicolon before a bracket that closes. Two lists are the same but for renamed words if
they have as many clauses, each clause has as many words, and every other word is equal. The words that differ are printed as
OLD -> NEW, with the number of times, for each crate. Exit status 1 if a clause was added, dropped or changed otherwise."""
import collections
import re
import subprocess
import sys

WORD = re.compile(r"[A-Za-z_][\w']*(?:-[A-Za-z_][\w']*)*|\"(?:\\.|[^\"\\])*\"|\S")
HEAD = re.compile(r"^([ \t]*)(?:#\[.*\] )?(pub )?(?:const )?fn (\w+)", re.M)
CLAUSE = re.compile(r"\s*(\*?(?:requires|ensures))\b")
NAME = re.compile(r"[A-Za-z_\"]")
LAST_SEPARATOR = re.compile(r"[,;](?=\s*[)\]}])")


def git(*words):
    return subprocess.run(["git", *words], capture_output=True, text=True, check=True).stdout


def read(commit, path):
    if commit:
        return git("show", f"{commit}:{path}")
    with open(path, encoding="utf-8") as file:
        return file.read()


def sources(commit):
    """The source files of a commit, without those of tests."""
    names = git("ls-tree", "-r", "--name-only", commit) if commit else git("ls-files", "-co", "--exclude-standard")
    return [it for it in names.split("\n") if re.match(r"crates/(?!\w+_tests/|s10_test_help/)\w+/src/.*\.rt$", it)]


def moved(old, new):
    """The new path of each file that was moved."""
    rows = git("diff", "-M5%", "--diff-filter=R", "--name-status", old, *([new] if new else []), "--", "crates/*/src/*.rt")
    return dict(row.split("\t")[1:] for row in rows.split("\n") if row)


def without_comments(text):
    return re.sub(r"(?m)^[ \t]*//.*$", "", text)


def clause_at(text, at):
    """The end of the clause that begins at an offset: after the brace that closes it."""
    depth, end = 0, text.index("{", at)
    while True:
        depth += {"{": 1, "}": -1}.get(text[end], 0)
        end += 1
        if depth == 0:
            return end


def is_public(text, start, is_pub, indent):
    """Whether a function can be called from outside: `pub`, or of a trait or of an `impl` of one."""
    if is_pub:
        return True
    opener = re.findall(r"(?m)^(?:pub )?(trait \w+|impl\b[^\n]*)", text[:start])
    return bool(indent) and bool(opener) and (opener[-1].startswith("trait") or " for " in opener[-1])


def functions_of(text):
    """The public functions of a file that have clauses: (line from 0, function, text of each clause)."""
    text = without_comments(text)
    for match in HEAD.finditer(text):
        if not is_public(text, match.start(), match[2], match[1]):
            continue
        at, found = match.end(), []
        body = re.compile(r"^" + match[1] + r"(\{|\}|fn )|;\s*$", re.M)
        stop = body.search(text, at)
        while (clause := re.compile(r"(?m)^" + CLAUSE.pattern).search(text, at)) and (not stop or clause.start() < stop.start()):
            at = clause_at(text, clause.start())
            found.append(text[clause.start() : at])
            stop = body.search(text, at)
        if found:
            yield text.count("\n", 0, match.start()), match[3], found


def clauses_of(text):
    """The clauses of public functions of a file: (function, words)."""
    return [(function, WORD.findall(LAST_SEPARATOR.sub("", it))) for _, function, found in functions_of(text) for it in found]


def compare(old, new):
    paths, there = moved(old, new), set(sources(new))
    renamed, count, wrong = collections.Counter(), 0, []
    for path in sources(old):
        to = paths.get(path, path)
        before = clauses_of(read(old, path))
        after = clauses_of(read(new, to)) if to in there else []
        there.discard(to)
        if len(before) != len(after):
            wrong.append(f"{path}: {len(before)} clauses, {to}: {len(after)}")
            continue
        for (name, one), (now, two) in zip(before, after):
            count += 1
            differ = [pair for pair in zip(one, two) if pair[0] != pair[1]]
            if len(one) != len(two) or any(not (NAME.match(a) and NAME.match(b)) for a, b in differ):
                wrong.append(f"{path}, {name}: {' '.join(one)}\n  {to}, {now}: {' '.join(two)}")
            renamed.update((path.split("/")[1], *pair) for pair in differ)
    wrong += [f"{path}: only in the new list" for path in sorted(there) if clauses_of(read(new, path))]
    return count, renamed, wrong


def main():
    count, renamed, wrong = compare(sys.argv[1], sys.argv[2] if len(sys.argv) > 2 else None)
    for (crate, one, two), times in sorted(renamed.items()):
        print(f"{crate}: {one} -> {two}: {times}")
    for line in wrong:
        print("differs:", line)
    print(f"{count} clauses, {sum(renamed.values())} words renamed, {len(wrong)} differ otherwise")
    sys.exit(1 if wrong else 0)


if __name__ == "__main__":
    main()
