#!/usr/bin/env python3
"""Holds the code to the forms that document 01 names ("Forms for parts of the code"). Each form is looked for in the item of the
source that has it; a form that is gone fails. Comments count for nothing. docs/DECISIONS.md has the forms that could not be had.
"""
import pathlib
import re
import sys

ENUMS = ("Alphabet", "Class", "Language", "Notice")
# The words of document 01, the crate, the item's first words, what stands in it and what does not.
FORMS = [
    ("a struct by value whose fields are enums", "coding", "pub struct Reading",
     [rf"\b{name.lower()}: {name}\b" for name in ENUMS], [r"&"]),
    *[("fields are enums", "fields", f"pub enum {name}", [r"^    [A-Z]\w*"], [r"&"]) for name in ENUMS],
    ("methods of the reading by value: write itself", "coding", "pub fn write(self,", [r"-> Result<u8, Refusal>"], [r"&self", r"mut self"]),
    ("answer whether it holds text", "coding", "pub fn holds(self", [r"-> Result<Held, Refusal>"], [r"&self", r"mut self"]),
    ("hand back a changed copy", "coding", "pub fn with_alphabet(self,", [r"-> (Self|Reading)"], [r"&self"]),
    ("packing by shifts and masks", "groups", "pub fn squeeze(", [r"<<", r">>", r" & "], [r" \* ", r" / ", r" % "]),
    ("unpacking by shifts and masks", "groups", "pub fn stretch(", [r"<<", r">>", r" & "], [r" \* ", r" / ", r" % "]),
    ("packing by shifts and masks: what whole groups leave over", "groups", "pub fn left_over(", [r"<<", r" & "], [r" / "]),
    ("a [13; 93] array, its front overwritten by the text before packing", "closing", "pub fn page_of(", [r"\[13u8; 93\]", r"\[\.\.\w+\]\.copy_from_slice\("], [r"= 13;"]),
    ("an array of 88 octets goes in by value", "blocks", "pub fn read_header(", [r"block: \[u8; 88\]"], [r": &"]),
    ("and out by value, header and text at fixed places", "blocks", "pub fn page_block(", [r"\(head: Header, text: \[u8; 82\]\) -> \[u8; 88\]", r"head\.coding,\s+page,\s+\];", r"block\[\.\.6\]\.copy_from_slice\(", r"block\[6\.\.\]\.copy_from_slice\("], [r"-> &", r"mut block: "]),
    ("a block of a message that is joined, taken out by value", "joining", "fn block(&self,", [r"-> \[u8; 88\]", r"blocks::block_at\("], [r"-> &"]),
    ("and judged by value", "ordering", "fn belongs(", [r"\(first: \[u8; 88\], block: \[u8; 88\]\)"], [r": &"]),
    ("the block of 88 octets, handed over by value", "pages", "pub struct Page", [r"block: \[u8; 88\]"], [r"&"]),
    *[("the meter's small struct lent by &mut", "meter", f"pub fn {key}(", [r"meter: &mut Meter", r"\*meter = "], []) for key in ("add", "take_back", "clear")],
]


def item(text, first):
    """The item of a source file that begins with these words, up to its closing brace, without comments; or None."""
    found = re.search(rf"^( *){re.escape(first)}", text, re.M)
    if not found:
        return None
    closed = re.compile(rf"^{found[1]}\}}$", re.M).search(text, found.start())
    return re.sub(r"//.*", "", text[found.start() : closed.end() if closed else len(text)])


def gone(text, first, wanted, unwanted):
    """What of a form is gone from a source, in words."""
    body = item(text, first)
    if body is None:
        return [f"no `{first}`"]
    code = re.sub(r"^\s*(?:requires|ensures)\b.*", "", body, flags=re.M)
    return [f"`{first}` lacks {one}" for one in wanted if not re.search(one, code, re.M)] + [
        f"`{first}` has {one}" for one in unwanted if re.search(one, code, re.M)
    ]


def self_test():
    """A form is found where it stands, and missed where it is gone, commented out or broken."""
    good = "fn squeeze(x: u64) -> u64\n    ensures { result ≡ x * 2 }\n{\n    (x >> 8) & 7 | (x << 1)\n}\n\nfn other() {\n}\n"
    form = ("fn squeeze(", [r"<<", r">>", r" & "], [r" \* "])
    tests = [
        (good, 0),
        (good.replace("squeeze", "press"), 1),
        (good.replace(" & 7", " % 8"), 1),
        (good.replace("(x << 1)", "x * 2"), 2),
        (good.replace("(x >> 8) & 7 | (x << 1)", "x // (x >> 8) & 7 | (x << 1)"), 3),
    ]
    for text, expected in tests:
        found = gone(text, *form)
        if len(found) != expected:
            sys.exit(f"forms: self-test: expected {expected} faults, found {found}")


def main():
    root = pathlib.Path(__file__).resolve().parent.parent / "crates"
    held = missing = 0
    for words, crate, first, wanted, unwanted in FORMS:
        held += 1
        sources = [path.read_text(encoding="utf-8") for path in sorted((root / crate / "src").rglob("*.rt"))]
        faults = gone("\n".join(sources), first, wanted, unwanted)
        if faults:
            missing += 1
            print(f"{crate}: \"{words}\": {'; '.join(faults)}")
    print(f"forms: {held} places, {missing} without the form that document 01 names")
    sys.exit(1 if missing else 0)


if __name__ == "__main__":
    self_test() if sys.argv[1:] == ["--self-test"] else main()
