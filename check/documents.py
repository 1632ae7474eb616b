#!/usr/bin/env python3
"""Holds the documents to the source: what they name is there.

In README.md and docs/*.md every link leads to a file, every path under crates/ exists, every item written `crate::item` or
`module::item` is in the source, and every crate that README's and ARCHITECTURE's tables list is one of crates.txt and the other way
round. In docs/DEMANDS.md every edit, written `crate/label`, and every theorem, written in kebab-case, exists, and every word in snake_case is
a theorem, a definition, a crate or an item of the source. docs/EDITS.md has a row for each must-fail edit, with the edit's own words.
docs/TRUST.md has a row for each file of definitions, and its count of their lines is right to the hundred.

    documents.py              judges the documents
    documents.py --edits      prints the rows of docs/EDITS.md as the edits have them
    documents.py --self-test  shows that each fault is found
"""
import pathlib
import re
import sys

ROOT = pathlib.Path(__file__).resolve().parent.parent


def faults_in(name, text, exists, crates, edits, theorems, specs, items, words):
    """What a document says that is not so, in words. `exists` tells whether a path is there, `edits` has the row of each edit, `words` are definitions."""
    found = []
    folder = pathlib.PurePosixPath(name).parent
    for link in re.findall(r"\]\(([^)#:]+)\)", text):
        if not exists(folder / link):
            found.append(f"links to {link}, which is not there")
    for path in re.findall(r"`(crates/[\w./-]+)`", text):
        if "CRATE" not in path and not exists(pathlib.PurePosixPath(path)):
            found.append(f"names {path}, which is not there")
    for item in re.findall(r"`([a-z]\w*::\w+)", text):
        if item not in items:
            found.append(f"names {item}, which is not there")
    if name in ("README.md", "docs/ARCHITECTURE.md"):
        table = re.search(r"^\| Crate \|.*\n\|[-| ]+\n((?:\|.*\n?)+)", text, re.M)
        rows = re.findall(r"`(\w+)`", "".join(re.findall(r"^\|([^|]*)\|", table[1], re.M))) if table else []
        found += [f"has no row for the crate {crate}" for crate in crates if crate not in rows]
        found += [f"has a row for {row}, which is no crate" for row in rows if row not in crates]
    if name == "docs/DEMANDS.md":
        told = set(re.findall(r"`(\w+/\w+)`", text))
        found += [f"names the edit {edit}, which is not there" for edit in sorted(told - edits.keys())]
        found += [f"names the theorem {law}, which is not there" for law in re.findall(r"`([a-z0-9]+(?:-[a-z0-9]+)+)`", text) if law not in theorems]
        known = {*theorems, *words, *crates, *(item.partition("::")[2] for item in items)}
        found += [f"names {word}, which is not there" for word in re.findall(r"`([a-z0-9]+(?:_[a-z0-9]+)+)`", text) if word not in known]
    if name == "docs/EDITS.md":
        rows = re.findall(r"^\| `\w+/\w+` .*$", text, re.M)
        found += [f"lacks: {row}" for row in edits.values() if row not in rows]
        found += [f"has a row that no edit has: {row}" for row in rows if row not in edits.values()]
    if name == "docs/TRUST.md":
        rows = re.findall(r"^\| `(\w+)` \| `(\w+)` \|", text, re.M)
        found += [f"has no row for the definitions {crate}/{spec}" for crate, spec in specs if (crate, spec) not in rows]
        found += [f"has a row for {crate}/{spec}, which is not there" for crate, spec in rows if (crate, spec) not in specs]
        count = re.search(r"([\d,]+) lines", text)
        lines = sum(specs.values())
        if not count or abs(int(count[1].replace(",", "")) - lines) > 50:
            found.append(f"does not say that the definitions have about {round(lines, -2):,} lines")
    return found


def edit_row(path):
    """The row of an edit: its name, whether it changes code or a definition, and the rule that it breaks, in its own words."""
    lines = path.read_text(encoding="utf-8").splitlines()
    words = " ".join(line[1:].strip() for line in lines if line.startswith("#"))
    changed = {"code" if line.startswith("file: src/") else "definition" for line in lines if line.startswith("file: ")}
    return f"| `{path.parts[-3]}/{path.stem}` | {' and '.join(sorted(changed))} | {words} |"


def self_test():
    """Each fault is found in a text that has it, and none in a text that has none."""
    there = {"docs/A.md", "crates/a/src"}.__contains__
    exists = lambda path: there(str(path))
    demands = "| a | `to-be`, `can_be`, `call` | `a/one` |\n"
    table = "| Crate | Holds |\n|---|---|\n| `a` | x |\n"
    tests = [
        ("docs/B.md", "[A](A.md) `crates/a/src`", 0),
        ("docs/B.md", "[C](C.md)", 1),
        ("docs/B.md", "`crates/b/src`", 1),
        ("docs/B.md", "`a::call(x)` `Type::call`", 0),
        ("docs/B.md", "`b::call`", 1),
        ("README.md", table, 0),
        ("README.md", table.replace("`a`", "`b`"), 2),
        ("README.md", "nothing", 1),
        ("docs/DEMANDS.md", demands, 0),
        ("docs/DEMANDS.md", demands.replace("a/one", "a/two"), 1),
        ("docs/DEMANDS.md", demands.replace("to-be", "not-to-be"), 1),
        ("docs/DEMANDS.md", demands.replace("can_be", "can_not_be"), 1),
        ("docs/DEMANDS.md", demands.replace("can_be", "a_call"), 0),
        ("docs/EDITS.md", "| `a/one` | code | x |\n", 0),
        ("docs/EDITS.md", "| `a/one` | code | y |\n", 2),
        ("docs/TRUST.md", "100 lines\n| `a` | `Sizes` | x |\n", 0),
        ("docs/TRUST.md", "300 lines\n| `a` | `Bits` | x |\n", 3),
    ]
    for name, text, expected in tests:
        found = faults_in(name, text, exists, ["a"], {"a/one": "| `a/one` | code | x |"}, {"to-be"}, {("a", "Sizes"): 120}, {"a::call", "a::a_call"}, {"can_be"})
        if len(found) != expected:
            sys.exit(f"documents: self-test: expected {expected} faults in {text!r}, found {found}")


def main(edits_only):
    crates = re.findall(r"^(\w+)[^:#\n]*:", (ROOT / "crates.txt").read_text(encoding="utf-8"), re.M)
    edits = {f"{crate}/{path.stem}": edit_row(path) for crate in crates for path in sorted((ROOT / "crates" / crate / "must-fail").glob("*.edit"))}
    if edits_only:
        print("\n".join(edits.values()))
        return
    proofs = "\n".join(path.read_text(encoding="utf-8") for path in ROOT.glob("crates/*/proofs/*.antt"))
    theorems = set(re.findall(r"^ *(?:pub )?([a-z0-9]+(?:[-_][^\s:]+)+) :", proofs, re.M))
    stated = "\n".join(path.read_text(encoding="utf-8") for path in ROOT.glob("crates/*/specs/*.antt"))
    words = set(re.findall(r"^ *(?:(?:unfoldable|abbrev|pub) )*([a-z0-9]\w*) :", stated, re.M))
    specs = {
        (crate, path.stem): len(path.read_text(encoding="utf-8").splitlines())
        for crate in crates
        for path in sorted((ROOT / "crates" / crate / "specs").glob("*.antt"))
        if path.stem != "Lib" and not path.stem.startswith("Inner")
    }
    items = {
        f"{place}::{item}"
        for crate in crates
        for path in (ROOT / "crates" / crate / "src").glob("*.rt")
        for place in (crate, path.stem)
        for item in re.findall(r"\b(?:fn|struct|enum|const|mod) (\w+)", path.read_text(encoding="utf-8"))
    }
    documents = [ROOT / "README.md", *sorted((ROOT / "docs").glob("*.md"))]
    count = 0
    for path in documents:
        name = str(path.relative_to(ROOT))
        for fault in faults_in(name, path.read_text(encoding="utf-8"), lambda p: (ROOT / p).exists(), crates, edits, theorems, specs, items, words):
            count += 1
            print(f"{name} {fault}")
    print(f"documents: {len(documents)} read, {count} faults")
    sys.exit(1 if count else 0)


if __name__ == "__main__":
    self_test() if sys.argv[1:] == ["--self-test"] else main(sys.argv[1:] == ["--edits"])
