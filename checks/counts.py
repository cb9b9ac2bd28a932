#!/usr/bin/env python3
"""Counts what the pages say in numbers, and compares.

In a page a counted number is between two markers that Markdown does not show: <!--count:NAME-->606<!--/-->. The names are those
that `--names` prints.

    python3 checks/counts.py            prints each marker whose number is wrong or whose name is unknown; exits 1 if there is one
    python3 checks/counts.py --write    writes the right numbers into the pages
    python3 checks/counts.py --names    prints each name with its number
"""

import re
import sys
from pathlib import Path

import definition_lines
import widths

ROOT = Path(__file__).resolve().parent.parent
CRATES = ROOT / "crates"
OPEN = re.compile(r"<!--\s*count\b")
MARKER = re.compile(r"<!--count:([\w-]+)-->([^<]*)<!--/-->")
CODE = re.compile(r"^```.*?^```|`[^`\n]*`", re.M | re.S)
TRAIT = re.compile(r"^pub trait ")
HEAD = re.compile(r"^\s*(pub )?fn \w+")
CLAUSE = re.compile(r"\b(requires|ensures)\b")


def pages():
    """The pages of the repository."""
    found = [*ROOT.glob("*.md"), *ROOT.glob("docs/*.md"), *ROOT.glob("contrib/**/*.md")]
    return sorted(found)


def folders():
    """The folders of the crates, without those of tests."""
    return [it for it in sorted(CRATES.iterdir()) if (it / "src").is_dir() and not it.name.endswith(("_tests", "_test_help"))]


def sources(names):
    """The lines of each source file of these folders."""
    return [path.read_text(encoding="utf-8").split("\n") for it in names for path in sorted((it / "src").rglob("*.rt"))]


def files_in(part, ending):
    """The files of one part of each crate: of `src`, `specs` or `proofs`."""
    return [path for it in folders() for path in sorted((it / part).rglob("*" + ending))]


def lines_in(part, ending):
    return sum(path.read_text(encoding="utf-8").count("\n") for path in files_in(part, ending))


def all_crates():
    return [it for it in CRATES.iterdir() if (it / "src").is_dir()]


def libraries():
    """The libraries of the service: all but those of the C library."""
    rows = [line.split(":")[0].split() for line in (ROOT / "crates.txt").read_text(encoding="utf-8").split("\n")]
    exported = {row[0] for row in rows if "staticlib" in row} | {"s10_plain"}
    return [it for it in folders() if (it / "src/lib.rt").exists() and it.name not in exported]


def tests():
    return sum(line.strip() == "#[test]" for lines in sources(all_crates()) for line in lines)


def has_clause(lines, head):
    """Whether the function whose head is at that index has a clause before its body, or before the `;` of a trait's function."""
    for line in lines[head : head + 200]:
        line = line.split("//")[0]
        if CLAUSE.search(line):
            return True
        if line.rstrip().endswith((";", "{", "}")):
            return False
    return False


def public_heads(lines):
    """The indices of the heads of public functions: each `pub fn`, and each `fn` of a public trait."""
    in_trait = False
    for index, line in enumerate(lines):
        in_trait = bool(TRAIT.match(line)) or (in_trait and line != "}")
        head = HEAD.match(line)
        if head and (head.group(1) or in_trait):
            yield index


def public_functions():
    return sum(has_clause(lines, head) for lines in sources(folders()) for head in public_heads(lines))


def theorem_counts():
    """The numbers of checks/definition_lines.py: of the first two functions together, of each, and of what the program serves."""
    each, (clause_lines, both) = definition_lines.main_theorem()
    counts = {
        "clause-lines": clause_lines,
        "definitions": len(both.names()),
        "definition-lines": both.lines(),
        "types": len(both.types),
        "kit-words": len(both.kit),
    }
    for function, lines, cited in each:
        name = function.split("::")[0].lower().replace("_", "-")
        counts[f"{name}-clause-lines"] = lines
        counts[f"{name}-definitions"] = len(cited.names())
        counts[f"{name}-definition-lines"] = cited.lines()
        counts[f"{name}-types"] = len(cited.types)
        counts[f"{name}-kit-words"] = len(cited.kit)
    for function, cited in definition_lines.served().items():
        name = "served-by-" + function.replace("_", "-")
        counts[f"{name}-definitions"] = len(cited.names())
        counts[f"{name}-definition-lines"] = cited.lines()
        counts[f"{name}-types"] = len(cited.types)
        counts[f"{name}-kit-words"] = len(cited.kit)
    return counts


def house_counts():
    """How wide definitions and functions are, how often the ghost `may_find` is declared, and how long the pages of docs are."""
    functions = widths.functions(files_in("src", ".rt")).values()
    stated = [path.read_text(encoding="utf-8") for part in ("specs", "proofs") for path in files_in(part, ".antt")]
    return {
        "most-arguments": max(widths.definitions(files_in("specs", ".antt")).values()),
        "most-parameters": max(functions),
        "wide-functions": sum(it > 6 for it in functions),
        "may-find-declared": sum(text.count("may_find :") for text in stated),
        "page-lines": sum(path.read_text(encoding="utf-8").count("\n") for path in ROOT.glob("docs/*.md")),
    }


def counts():
    """Each name that a marker may have, with its number."""
    return {
        "libraries": len(libraries()),
        "crates": len(all_crates()),
        "crates-of-tests": len(all_crates()) - len(folders()),
        "wrong-bodies": len(list(CRATES.glob("*/must-fail/*.edit"))),
        "tests": tests(),
        "public-functions": public_functions(),
        "source-lines": lines_in("src", ".rt"),
        "source-files": len(files_in("src", ".rt")),
        "specs-lines": lines_in("specs", ".antt"),
        "specs-files": len(files_in("specs", ".antt")),
        "proofs-lines": lines_in("proofs", ".antt"),
        "proofs-files": len(files_in("proofs", ".antt")),
        **house_counts(),
        **theorem_counts(),
    }


def wrong_in(page, text, known):
    """What is wrong with the markers of a page, outside its code."""
    text, wrong = CODE.sub("", text), []
    for name, shown in MARKER.findall(text):
        if name not in known:
            wrong.append(f"{page}: unknown marker {name}")
        elif shown != f"{known[name]:,}":
            wrong.append(f"{page}: {name} is {known[name]:,}, the page says {shown}")
    broken = len(OPEN.findall(text)) - len(MARKER.findall(text))
    return wrong + [f"{page}: {broken} broken markers"] * (broken > 0)


def check():
    """The wrong markers of all pages, one line each."""
    known = counts()
    return [it for path in pages() for it in wrong_in(path.relative_to(ROOT), path.read_text(encoding="utf-8"), known)]


def write():
    """Writes the right numbers into the pages. A marker of an unknown name stays as it is."""
    known = counts()

    def right(marker):
        name, shown = marker.groups()
        return f"<!--count:{name}-->{known[name]:,}<!--/-->" if name in known else marker.group(0)

    for path in pages():
        text = path.read_text(encoding="utf-8")
        new = MARKER.sub(right, text)
        if new != text:
            path.write_text(new, encoding="utf-8")
            print(f"written: {path.relative_to(ROOT)}")


def main():
    if "--names" in sys.argv[1:]:
        print("\n".join(f"{name} {number:,}" for name, number in counts().items()))
        return 0
    if "--write" in sys.argv[1:]:
        write()
    wrong = check()
    print("\n".join(wrong or ["each counted number is right"]))
    return 1 if wrong else 0


if __name__ == "__main__":
    sys.exit(main())
