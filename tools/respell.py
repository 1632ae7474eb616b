#!/usr/bin/env python3
"""Brings the names of definitions and lemmas to the spelling of today's Rattle: words in snake case, types in camel case.

Run once, at the top, after the kit's port.py; respelled.tsv, beside this file, has the names, a line each: kind, old, new.
  lemma   a lemma that would get the name of a definition: it keeps its hyphens. Changed first.
  name    changed in specs/, proofs/, src/, must-fail/ and the documents.
  ported  port.py changed it in the code: changed in must-fail/ and the documents.
In the documents only what stands between backticks changes, and docs/landings/ and CHANGELOG.md keep the names of their day.
"""
import pathlib
import re

TOP = pathlib.Path(__file__).resolve().parent.parent
NAME = re.compile(r"(?<![\w'′-])[A-Za-z_][\w'′₀-₉]*(?:-[\w'′₀-₉]+)*")


def table():
    """The names by kind: each old name with its new one."""
    kinds = {"lemma": {}, "name": {}, "ported": {}}
    for line in pathlib.Path(__file__).with_name("respelled.tsv").read_text().splitlines():
        kind, old, new = line.split("\t")
        kinds[kind][old] = new
    return kinds


def respelled(text, names):
    return NAME.sub(lambda m: names.get(m[0], m[0]), text)


def change(path, turn):
    text = path.read_text()
    turned = turn(text)
    if turned != text:
        path.write_text(turned)
        print(path.relative_to(TOP))


def main():
    kinds = table()
    edited = kinds["name"] | {old: new for old, new in kinds["ported"].items() if new not in kinds["lemma"]}
    for path in sorted([*TOP.glob("crates/*/proofs/**/*.antt")]):
        change(path, lambda text: respelled(text, kinds["lemma"]))
    for path in sorted([*TOP.glob("crates/*/specs/**/*.antt"), *TOP.glob("crates/*/proofs/**/*.antt"), *TOP.glob("crates/*/src/*.rt")]):
        change(path, lambda text: respelled(text, kinds["name"]))
    for path in sorted(TOP.glob("crates/*/must-fail/**/*.edit")):
        change(path, lambda text: respelled(text, edited))
    for path in sorted([TOP / "README.md", *TOP.glob("docs/*.md")]):
        change(path, lambda text: re.sub(r"`[^`\n]+`", lambda m: respelled(m[0], edited), text))


if __name__ == "__main__":
    main()
