#!/usr/bin/env python3
"""Prints the tables of a run, and puts them between the marks of the page that has them.

    report.py RESULTS PAGE      the folder bench/results, and docs/SPEED.md
"""
import os
import sys

SIDES = ["wikuay", "plain", "search", "swap", "copy", "libosmocore", "gammu", "wireshark"]
HEADS = {"wikuay": "Wikuay", "plain": "plain C loop", "search": "the same, searching", "swap": "swap loop", "copy": "copy"}
SERVICES = {
    "sms": "short message",
    "page": "broadcast page",
    "ussd": "USSD",
    "sms-ucs2": "short message, UCS2",
    "pages": "all pages",
    "pages-ucs2": "all pages, UCS2",
    "built": "the last page",
    "built-ucs2": "the last page, UCS2",
    "lettered": "page with letters",
    "lettered-ucs2": "page with letters, UCS2",
    "meter": "keys of a meter",
    "parts": "all parts",
    "parts-ucs2": "all parts, UCS2",
    "part": "the last part",
    "part-ucs2": "the last part, UCS2",
}
BEGIN, END = "<!-- figures: written by bench/run -->", "<!-- end of figures -->"


def read_table(path):
    about, names, rows = [], None, []
    with open(path, encoding="utf-8") as table:
        for line in table:
            fields = line.rstrip("\n").split("\t")
            if line.startswith("# "):
                about.append((fields[0][2:], fields[1]))
            elif names is None:
                names = fields
            else:
                rows.append(dict(zip(names, fields)))
    return about, rows


def cell(row):
    if row is None or row["answer"] == "none":
        return ""
    if row["answer"] == "differs":
        return "differs"
    if "ns" in row and row["side"] == "wikuay":
        return f"{float(row['ns']):,.0f} ({float(row['ns_low']):,.0f} to {float(row['ns_high']):,.0f})"
    if "ns" in row:
        return f"{float(row['ns']):,.0f} ({float(row['ratio']):.2f}; {float(row['ratio_low']):.2f} to {float(row['ratio_high']):.2f})"
    return f"{int(row['instructions']):,}"


def tables(path):
    about, rows = read_table(path)
    out = ["| What | Value |", "|---|---|"] + [f"| {name} | {value} |" for name, value in about] + [""]
    found = {}
    for row in rows:
        found.setdefault((row["direction"], row["service"], row["text"], row["length"]), {})[row["side"]] = row
    present = [side for side in SIDES if any(row["side"] == side for row in rows)]
    for direction, head in (("write", "Writing"), ("read", "Reading")):
        shown = [side for side in present if any(cell(row.get(side)) for key, row in found.items() if key[0] == direction)]
        out += [f"### {head}", "", "| Service | Text | Length | " + " | ".join(HEADS.get(side, side) for side in shown) + " |",
                "|---|---|--:|" + "--:|" * len(shown)]
        for key, row in found.items():
            # Letters at every length, the other texts at the largest: the raw results have them all.
            largest = max(int(other[3]) for other in found if other[:3] == key[:3])
            if key[0] == direction and (key[2] in ("letters", "han") or int(key[3]) == largest):
                out.append(f"| {SERVICES[key[1]]} | {key[2]} | {key[3]} | " + " | ".join(cell(row.get(side)) for side in shown) + " |")
        out.append("")
    others = [row for row in rows if row["direction"] == "other"]
    if others:
        out += ["### The other calls of the library", "", "| Call | On | Septets | Instructions | Stack, octets |", "|---|---|--:|--:|--:|"]
        out += [f"| `{row['service']}` | {row['text']} | {row['length']} | {cell(row)} | {row['stack']} |" for row in others]
        most = max((int(row["stack"]), row["service"]) for row in rows if row.get("stack", "-") != "-")[0]
        out += ["", f"The deepest call of all takes {most} octets of stack.", ""]
    return out


def main(words):
    if len(words) != 2:
        raise SystemExit(__doc__)
    out = []
    for name, head in (("time.tsv", "## Time"), ("instructions.tsv", "## Instructions")):
        path = os.path.join(words[0], name)
        if os.path.exists(path):
            out += [head, ""] + tables(path)
    text = "\n".join(out)
    print(text)
    with open(words[1], encoding="utf-8") as page:
        before, rest = page.read().split(BEGIN)
    _, after = rest.split(END)
    with open(words[1], "w", encoding="utf-8") as page:
        page.write(f"{before}{BEGIN}\n\n{text}\n{END}{after}")


if __name__ == "__main__":
    main(sys.argv[1:])
