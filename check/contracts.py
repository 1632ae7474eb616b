#!/usr/bin/env python3
"""Holds every public call of a library crate to the form of its contract.

A public call has no `requires`. Its `ensures answer` is an equation of the result with a definition, and for each lent `&mut`
buffer one clause is an equation of its new contents. A call that answers nothing has the clauses of its buffers alone, at least
one. The definitions stand in specs/ of a crate, and not in an Inner file.
In proofs/Outcomes.antt of its crate, which Lib.antt names, a lemma states `OneAnswer` of that call's own contract, and one
`OneBuffer` for each lent buffer: any two outcomes coincide. Of a call that borrows a struct they
state `OneResult` and `OneRecord` of its clauses. Of a struct with buffers or tables in it, lent as `&mut self` or handed out, the clauses are
equations of its parts, one of each field, and a lemma states of each part what OneBuffer does; of what is handed out it is `OneShown`. A
part that is handed out may be a number or what was lent. All these statements are of words/proofs/Unique.antt.
docs/OUTCOMES.md has a row for each call, and for nothing else.
A crate X_c, a static library, exports the calls of X to C, all of them and nothing else: each has the name, the parameters and the
clauses of X's call, by the same definitions, and its body is that call. Its contract is held to the same form. It has no lemmas and no
row: a lemma speaks of the clauses, which are those of X's call.
This reads text. That a contract holds is for the proofs to say, and that it says enough is for a reader.

    contracts.py              judges the source
    contracts.py --rows       prints the rows of docs/OUTCOMES.md as the source has them
    contracts.py --self-test  shows that each fault is found
"""
import pathlib
import re
import sys

QUALIFIERS = r'(?:(?:const|unsafe|async|extern(?: "[^"]*")?) )*'
START = re.compile(rf"^(?P<indent> *)pub {QUALIFIERS}fn (?P<name>\w+)", re.M)
IMPL = re.compile(r"^impl(?:<[^>]*>)? (?P<type>\w+)", re.M)
# What is known only once a call has ended: what an equation gives may not lean on it.
AFTER = re.compile(r"(?<![\w.'])result(?![\w'])|\.new(?![\w'])")
CLAUSE = re.compile(r"^\s*(?P<kind>requires|ensures)\b\*? *(?P<name>\w*) *\{(?P<body>.*?)\}\s*(?=^\s*(?:requires|ensures)\b|\Z)", re.M | re.S)
GHOST = re.compile(r"^(?:pub )?ghost use (?P<path>[\w.]+)\.\{(?P<names>[^}]*)\};", re.M)
LISTED = re.compile(r"^(\w+)( staticlib)?(?: \w+=\S+)*:", re.M)
STRUCT = re.compile(r"^(?:pub )?struct (?P<name>\w+)(?:<[^>]*>)? \{\n(?P<body>.*?)^\}", re.M | re.S)
FIELD = re.compile(r"^    (?:pub(?:\([^)]*\))? )?(?P<name>\w+): ", re.M)
DEFINED = re.compile(r"^(?:(?:unfoldable|abbrev|pub) )*(?P<name>[^\s:(){}]+) :", re.M)


def calls(text):
    """The public calls of a source file: name, type of the impl block or None, and the head up to the body."""
    for found in START.finditer(text):
        body = re.compile("^" + found["indent"] + r"\{\s*$", re.M).search(text, found.start())
        head = text[found.start() : body.start() if body else text.index("{", found.start())]
        inside = [block["type"] for block in IMPL.finditer(text, 0, found.start())] if found["indent"] else []
        yield found["name"], inside[-1] if inside else None, head


def parameters(head):
    """The parameters of a call, in order, each as written."""
    inside = re.search(r"fn \w+(?:<[^>]*>)?\((.*?)\)\s*(?:->|\n|$)", head, re.S)[1]
    return [one.strip() for one in re.split(r",(?![^\[]*\]|[^<]*>)", inside) if one.strip()]


def fields_in(texts):
    """The fields of each struct of source files, by its name."""
    return {found["name"]: FIELD.findall(found["body"]) for text in texts for found in STRUCT.finditer(text)}


def lemmas_in(text):
    """The lemmas of a proof file by name, each with the statement on one line, and the modules by the names that it gives them."""
    stated = {m[1]: " ".join(m[2].split()) for m in re.finditer(r"^ *pub (\S+) :(.*?)(?=^ *unfolding |^ *\S+ .*=|\Z)", text, re.M | re.S)}
    modules = {m[2]: m[1] for m in re.finditer(r"^use (\S+) as (\S+)$", text, re.M)}
    return stated, modules


def first_name(equation):
    """The name that the right side of an equation begins with."""
    head = re.match(r"[( ]*([^\s()]+)", equation)
    return head[1] if head else ""


def judged(crate, module, name, kind, head, outcomes, defined, structs):
    """What a call's contract lacks, in words; the definitions of its answer and of its lent buffers; and its lemmas, which are not asked
    for where the outcomes are None. The structs are those of the crate, each with its fields."""
    wants, cited, lemmas, handed = [], [], [], []
    front = re.split(r"^\s*(?:requires|ensures)\b", head, flags=re.M)[0]
    clauses = [(m["kind"], m["name"], " ".join(m["body"].split())) for m in CLAUSE.finditer(head)]
    if any(clause == "requires" for clause, _, _ in clauses):
        wants.append("has a requires")
    silent = "->" not in front

    def parts_of(value):
        """The parts of a struct of which a clause is an equation, each with what it equals; the name of a reference is none of them."""
        found = [re.fullmatch(rf"{value}\.([\w.]+) ≡ (.*)", body) for clause, _, body in clauses if clause == "ensures"]
        return [(part[1], part[2]) for part in found if part and not part[1].endswith("ghost_name") and not AFTER.search(part[2])]

    def untold(struct, parts, whose):
        """What is wanted of a struct's fields, in words: each has its equation. Of a slice its elements are told."""
        told = {part.split(".")[0] for part, _ in parts}
        fields = ["now"] if struct.startswith("&") else structs.get(struct, ["any field"])
        return [f"has no equation of {field} of {whose}" for field in fields if field not in told]

    given = [one.split(":")[0].lstrip("&").removeprefix("mut ") for one in parameters(front)]
    lent = parts_of(r"self\.new") if "&mut self" in parameters(front) else []
    if "&mut self" in parameters(front):
        wants += untold(kind, lent, "self at its end")
    answers = [body for clause, named, body in clauses if (clause, named) == ("ensures", "answer")]
    equation = re.fullmatch(r"result ≡ (.*)", answers[0]) if len(answers) == 1 else None
    if silent:
        cited.append(None)
    elif not answers and parts_of("result"):
        handed = parts_of("result")
        struct = re.match(r"(&|\w+)", front.partition("->")[2].strip())[1]
        wants += untold(kind if struct == "Self" else struct, handed, "the result")
    elif not equation or AFTER.search(equation[1]):
        wants.append("has no `ensures answer` that is an equation of the result")
    else:
        cited.append(first_name(equation[1]))
    buffers = [(at, one.split(":")[0]) for at, one in enumerate(parameters(front)) if re.search(r": &(?:'\w+ )?mut ", one)]
    # A part that is handed out may be a number or what was lent; no other equation gives one of these.
    shown = [first_name(equal) for _, equal in handed]
    cited += [None if one.isdigit() or one.split(".")[0] in given else one for one in shown]
    cited += [first_name(equal) for _, equal in lent]
    if silent and not buffers and "&mut self" not in parameters(front):
        wants.append("answers nothing and lends no buffer")
    # A buffer that is handed out has no end: it is a part of what the call answers.
    kept_for = {one.split(":")[0]: re.search(r": &('\w+) mut ", one) for one in parameters(front)}
    handed_on = [buffer for _, buffer in buffers if kept_for[buffer] and kept_for[buffer][1] in front.partition("->")[2]]
    buffers = [(at, buffer) for at, buffer in buffers if buffer not in handed_on]
    for _, buffer in buffers:
        left = [re.fullmatch(rf"«?{buffer}»?\.new ≡ (.*)", body) for clause, _, body in clauses if clause == "ensures"]
        left = [found[1] for found in left if found and not AFTER.search(found[1])]
        if len(left) != 1:
            wants.append(f"has no equation of {buffer} at its end")
        else:
            cited.append(first_name(left[0]))
    wants += [f"cites {one}, which no specs/ outside Inner defines" for one in cited if one and one not in defined]

    if outcomes is None:
        return wants, cited, lemmas
    stated, modules = lemmas_in(outcomes)
    law = name.replace("_", "-")
    stems = [law] + ([f"{kind.lower()}-{law}"] if kind else [])
    own = f"{module}{kind + '.' if kind else ''}{name}"

    # What each name in a lemma's form must stand for: the call's modules of a contract that is read, or the module of its clauses.
    walked = any(re.search(r": &(?:'\w+ )?mut [A-Z]", one) for one in parameters(front))
    answer = "OneResult 𝓤 ENDED CLAUSES" if walked else "OneAnswer KINDS POST"
    kept = r"OneRecord 𝓤 ENDED \(λ κs u\. uPATH\.now\) CLAUSES" if walked else r"OneBuffer KINDS \(λ κs u\. uPATH\.now\) POST"
    ended, read = f"Rattle.{crate}.specs.contracts.{own}", f"Rattle.{crate}.proofs.{own}"
    means = [ended, ended] if walked else [read + ".Kinds", read + ".Kinds", read + ".Reads"]

    def stating(form):
        """The lemma of this call that has this form, over the call's own contract, or None."""
        parts = {"KINDS": r"(\S+)\.ps (\S+)\.r", "POST": r"(\S+)\.Post", "ENDED": r"(\S+)\.ended", "CLAUSES": r"\((\S+)\.clauses 𝓛 mem run\)"}
        for part, spelling in parts.items():
            form = form.replace(part, spelling)
        for stem, statement in stated.items():
            said = re.fullmatch(form, statement)
            if said and any(re.fullmatch(rf"{one}(-\S+)?-unique", stem.replace("_", "-")) for one in stems) and [modules.get(one) for one in said.groups()] == means:
                return stem
        return None

    known = re.search(rf"^use Rattle\.words\.proofs\.Unique\.\{{[^}}]*{answer.split()[0]}", outcomes, re.M)
    lemmas.append(stating(answer) if known else None)
    for form, parts in ((r"OneShown KINDS \(λ κs x\. x\.PART(?: ∷ \[\])?\) POST", handed), (r"OneBuffer KINDS \(λ κs u\. u\.0\.now\.PART(?: ∷ \[\])?\) POST", lent)):
        own = re.search(rf"^use Rattle\.words\.proofs\.Unique\.\{{[^}}]*{form.split()[0]}", outcomes, re.M)
        for part, _ in parts:
            lemmas.append(stating(form.replace("PART", re.escape(part))) if own else None)
            if not lemmas[-1]:
                wants.append(f"has no lemma that is {form.split()[0]} of its part {part} and its contract")
    if not silent and not handed and not lemmas[0]:
        wants.append(f"has no lemma {law}-unique that is {answer.split()[0]} of its contract")
    for at, buffer in buffers:
        lemmas.append(stating(kept.replace("PATH", re.escape(".1" * at + ".0"))))
        if not lemmas[-1]:
            wants.append(f"has no lemma that is {kept.split()[0]} of {buffer} and its contract")
    return wants, cited, lemmas


def paths_of(text):
    """The definitions that a source file brings in for its clauses, by name."""
    return {name.strip(): found["path"] for found in GHOST.finditer(text) for name in found["names"].split(",")}


def one_line(code):
    """Code as it stands on one line: a list that the layout spreads over lines has a comma at its end."""
    return re.sub(r",? \)", ")", " ".join(code.split()).replace("( ", "("))


def exported(library, archive):
    """What is wrong with the exports of an archive, in words, given the sources of its library and its own, by module."""
    wants = []
    made = {(module, name): head for module, text in archive.items() for name, _, head in calls(text)}
    for module, text in library.items():
        source = archive.get(module, "")
        for name, kind, head in calls(text):
            export = None if kind else made.pop((module, name), None)
            if not export:
                wants.append(f"{module}{name}: is not exported")
                continue
            if one_line(export.replace('pub extern "C" fn', "pub fn", 1)) != one_line(head):
                wants.append(f"{module}{name}: the export has other parameters or clauses than the call")
            named = ", ".join(one.split(":")[0] for one in parameters(re.split(r"^\s*(?:requires|ensures)\b", head, flags=re.M)[0]))
            whole = source[source.find(export) + len(export) :]
            path = module.replace(".", "::") + name
            named_so = re.search(rf"^#\[unsafe\(no_mangle\)\]\n{re.escape(export)}", source, re.M)
            if not named_so or one_line(whole[: whole.find("\n}\n")]) != f"{{ LIBRARY::{path}({named})":
                wants.append(f"{module}{name}: the export is not that call alone")
            ours, theirs = paths_of(source), paths_of(text)
            other = [one for one in re.findall(r"[^\s(){}]+", head.partition("ensures")[2]) if ours.get(one) != theirs.get(one)]
            if other:
                wants.append(f"{module}{name}: the export has another {', '.join(other)} than the call")
    return wants + [f"{module}{name}: is exported, and is no call of the library" for module, name in made]


def self_test():
    """Each fault is found in a text that has it, and none in a text that has none."""
    good = (
        "pub fn fill(n: usize, out: &mut [u8]) -> usize\n    ensures answer { result ≡ fills n (length out.old) }\n"
        "    ensures buffer { out.new ≡ fill_leaves n out.old }\n{\n}\n"
    )
    laws = (
        "use Rattle.words.proofs.Unique.{OneAnswer, OneBuffer}\nuse Rattle.a.proofs.fill.Kinds as kinds\nuse Rattle.a.proofs.fill.Reads as fill\n"
        "use Rattle.a.proofs.other.Reads as other\npub fill-unique : OneAnswer kinds.ps kinds.r fill.Post\nfill-unique κs = p\n\n"
        "pub fill-buffer-unique : OneBuffer kinds.ps kinds.r (λ κs u. u.1.0.now) fill.Post\nfill-buffer-unique κs = p\n"
    )
    answer, buffer = good.split("\n")[1:3]
    faults = [
        ("nothing", good, laws, 0),
        ("nothing of a comma within a type", good.replace("n: usize", "n: Result<usize, u8>"), laws, 0),
        ("a requires", good.replace(answer, "    requires { n ≡ 0 }\n" + answer), laws, 1),
        ("a starred requires", good.replace(answer, "    requires* room { n ≡ 0 }\n" + answer), laws, 1),
        ("nothing of tactics asked for", "#[tactic(auto, using(fills_all))]\n" + good, laws, 0),
        ("another clause in the answer's place", good.replace("ensures answer", "ensures other"), laws, 1),
        ("an answer of ⊤", good.replace(answer, "    ensures answer { ⊤ }"), laws, 1),
        ("an answer that is itself", good.replace("≡ fills n", "≡ result"), laws, 1),
        ("an answer by itself", good.replace("≡ fills n", "≡ fills result"), laws, 1),
        ("an answer by what the buffer has then", good.replace("(length out.old)", "(length out.new)"), laws, 1),
        ("nothing of a word that begins as the result does", good.replace("≡ fills n", "≡ fills results'"), laws, 0),
        ("an answer by no definition", good.replace("≡ fills n", "≡ unheard n"), laws, 1),
        ("an answer that is an argument", good.replace("≡ fills n (length out.old)", "≡ n"), laws, 1),
        ("a bound in place of an equation", good.replace("result ≡ fills", "result ≤ fills"), laws, 1),
        ("a buffer of ⊤", good.replace(buffer, "    ensures buffer { ⊤ }"), laws, 1),
        ("a buffer as it came", good.replace("out.new", "out.old"), laws, 1),
        ("a part of a buffer", good.replace("out.new", "length out.new"), laws, 1),
        ("a buffer that is itself", good.replace("fill_leaves n out.old", "fill_leaves n out.new"), laws, 1),
        ("a buffer by the answer", good.replace("fill_leaves n out.old", "fill_leaves result out.old"), laws, 1),
        ("no lemma", good, laws.replace("pub fill-unique", "pub fill-other"), 1),
        ("no lemma of the buffer", good, laws.replace("pub fill-buffer-unique", "pub fill-buffer-other"), 1),
        ("a lemma of another type", good, laws.replace("OneAnswer kinds.ps kinds.r fill.Post", "⊤"), 1),
        ("a lemma of another call", good, laws.replace("kinds.r fill.Post\nfill-unique", "kinds.r other.Post\nfill-unique"), 1),
        ("a lemma of another parameter", good, laws.replace("u.1.0.now", "u.0.now"), 1),
        ("nothing of a lemma in snake case", good, laws.replace("fill-unique", "fill_unique"), 0),
        ("nothing of a buffer lent for a time", good.replace("fill(", "fill<'a>(").replace("&mut", "&'a mut"), laws, 0),
        ("no lemma of a buffer lent for a time", good.replace("fill(", "fill<'a>(").replace("&mut", "&'a mut"), laws.replace("pub fill-buffer-unique", "pub fill-buffer-other"), 1),
        ("no import of what it means", good, laws.replace("words.proofs", "own.proofs"), 1),
    ]
    lent = (
        "pub fn press(m: &mut Meter, n: u16) -> Key\n    ensures answer { result ≡ (fills m.old n).answer }\n"
        "    ensures record { m.new ≡ (fills m.old n).meter }\n{\n}\n"
    )
    walks = (
        "use Rattle.words.proofs.Unique.{OneAnswer, OneResult, OneRecord}\nuse Rattle.a.specs.contracts.press as press\nuse Rattle.a.specs.contracts.other as other\n"
        "module _ where\n  pub press-unique : OneResult 𝓤 press.ended (press.clauses 𝓛 mem run)\n  press-unique κs = p\n\n"
        "  pub press-record-unique : OneRecord 𝓤 press.ended (λ κs u. u.0.now) (press.clauses 𝓛 mem run)\n  press-record-unique κs = p\n"
    )
    faults += [
        ("nothing of a lent record", lent, walks, 0),
        ("no lemma of a lent record's answer", lent, walks.replace("pub press-unique", "pub press-other"), 1),
        ("no lemma of a lent record", lent, walks.replace("pub press-record-unique", "pub press-record-other"), 1),
        ("a lemma of another call's clauses", lent, walks.replace("(press.clauses 𝓛 mem run)\n  press-unique", "(other.clauses 𝓛 mem run)\n  press-unique"), 1),
        ("a lemma of another lent record", lent, walks.replace("u.0.now", "u.1.0.now"), 1),
        ("a lent record as it came", lent.replace("m.new", "m.old"), walks, 1),
    ]
    mute = good.replace(" -> usize", "").replace(answer + "\n", "")
    faults += [
        ("nothing of a call that answers nothing", mute, laws.replace("pub fill-unique", "pub fill-other"), 0),
        ("no equation of its buffer", mute.replace(buffer + "\n", ""), laws, 1),
        ("no lemma of its buffer", mute, laws.replace("pub fill-buffer-unique", "pub fill-buffer-other"), 1),
        ("no buffer", "pub fn rest(n: usize)\n{\n}\n", laws, 1),
    ]
    struct = "pub struct Sheet<'a> {\n    pub buffer: &'a mut [u8],\n    pub end: usize,\n    ghost few: { end ≤ 9 },\n}\n"
    sheet = (
        "impl<'a> Sheet<'a> {\n    pub fn fill(&mut self, n: usize)\n        ensures end { self.new.end ≡ fills self.old.end n }\n"
        "        ensures buffer { self.new.buffer.now ≡ fill_leaves n self.old.buffer.now }\n"
        "        ensures same_reference { self.new.buffer.ghost_name ≡ self.old.buffer.ghost_name }\n    {\n    }\n}\n"
    )
    parts = (
        "use Rattle.words.proofs.Unique.{OneBuffer}\nuse Rattle.a.proofs.Sheet.fill.Kinds as kinds\nuse Rattle.a.proofs.Sheet.fill.Reads as fill\n"
        "pub sheet-fill-unique : OneBuffer kinds.ps kinds.r (λ κs u. u.0.now.end ∷ []) fill.Post\nsheet-fill-unique κs = p\n\n"
        "pub sheet-fill-buffer-unique : OneBuffer kinds.ps kinds.r (λ κs u. u.0.now.buffer.now) fill.Post\nsheet-fill-buffer-unique κs = p\n"
    )
    shown = sheet.replace("(&mut self, n: usize)", "(buffer: &'a mut [u8]) -> Sheet<'a>").replace("self.new", "result").replace("fills self.old.end n", "0").replace("fill_leaves n self.old.buffer.now", "buffer.old")
    shows = parts.replace("OneBuffer", "OneShown").replace("λ κs u. u.0.now.", "λ κs x. x.")
    place = "        ensures end { self.new.end ≡ fills self.old.end n }\n"
    faults += [
        ("nothing of a lent sheet", sheet, parts, 0),
        ("no equation of its parts", sheet.replace("≡ fills", "≤ fills").replace("≡ fill_leaves", "≤ fill_leaves"), parts, 2),
        ("no equation of its place", sheet.replace(place, ""), parts, 1),
        ("no equation of its place beside an answer",
         sheet.replace(place, "        ensures answer { result ≡ fills n }\n").replace("n: usize)", "n: usize) -> usize"),
         laws.replace("pub fill-unique", "pub sheet-fill-unique").replace("proofs.fill", "proofs.Sheet.fill") + parts.partition("\n\n")[2], 1),
        ("a part that is an argument", sheet.replace("≡ fills self.old.end n", "≡ n"), parts, 1),
        ("a part that is a number", sheet.replace("≡ fills self.old.end n", "≡ 0"), parts, 1),
        ("unknown fields", sheet.replace("Sheet", "Other"), parts.replace("Sheet.", "Other.").replace("sheet-", "other-"), 1),
        ("a part by no definition", sheet.replace("≡ fills", "≡ unheard"), parts, 1),
        ("no lemma of its place", sheet, parts.replace("pub sheet-fill-unique", "pub sheet-fill-other"), 1),
        ("no lemma of its buffer", sheet, parts.replace("pub sheet-fill-buffer-unique", "pub sheet-fill-buffer-other"), 1),
        ("nothing of a sheet that is handed out", shown, shows, 0),
        ("no lemma of a part of it", shown, shows.replace("pub sheet-fill-buffer-unique", "pub sheet-fill-buffer-other"), 1),
        ("one part alone", shown.replace("        ensures end { result.end ≡ 0 }\n", ""), shows, 1),
        ("no import of what the lemmas mean", shown, shows.replace("{OneShown}", "{Other}"), 2),
        ("lemmas by a definition of their own", shown, shows.replace("use Rattle.words.proofs.Unique.{OneShown}", "abbrev OneShown : ⊤"), 2),
    ]
    for front in ("const ", "unsafe ", 'extern "C" ', "const unsafe "):
        faults.append((f"a pub {front}fn", good.replace("pub fn", f"pub {front}fn").replace(buffer + "\n", ""), laws, 1))
    call = "ghost use Rattle.a.specs.Calls.{fills};\n\npub fn fill(n: usize) -> usize\n    ensures answer { result ≡ fills n }\n{\n    n\n}\n"
    export = call.replace("pub fn", '#[unsafe(no_mangle)]\npub extern "C" fn').replace("    n\n", "    LIBRARY::fill(n)\n")
    for fault, text, expected in (
        ("nothing of an export", export, 0),
        ("nothing of an export in another layout", export.replace("(n: usize)", "(\n    n: usize,\n)").replace("fill(n)", "fill(\n        n,\n    )"), 0),
        ("no export", "", 1),
        ("an export of another name", export.replace("fn fill(", "fn fills("), 2),
        ("an export with a weaker clause", export.replace("{ result ≡ fills n }", "{ ⊤ }"), 1),
        ("an export with a clause less", export.replace("    ensures answer { result ≡ fills n }\n", ""), 1),
        ("an export by another definition", export.replace("Rattle.a.", "Rattle.b."), 1),
        ("an export with another parameter", export.replace("n: usize", "n: u32"), 1),
        ("an export with a body of its own", export.replace("LIBRARY::fill(n)", "n"), 1),
        ("an export of another call", export.replace("LIBRARY::fill(n)", "LIBRARY::fill(0)"), 1),
        ("no symbol", export.replace("#[unsafe(no_mangle)]\n", ""), 1),
    ):
        found = exported({"": call}, {"": text})
        if len(found) != expected:
            sys.exit(f"contracts: self-test: {fault}: expected {expected} faults, found {found}")
    for fault, text, lemmas, expected in faults:
        found = [judged("a", "", *call, lemmas, {"fills", "fill_leaves"}, fields_in([struct]))[0] for call in calls(text)]
        if [len(wants) for wants in found] != [expected]:
            sys.exit(f"contracts: self-test: {fault}: expected {expected} faults, found {found}")


def sources(crate):
    """The source files of a crate, each with the module that it is and its text."""
    for source in sorted((crate / "src").rglob("*.rt")):
        inside = source.relative_to(crate / "src").with_suffix("").parts
        yield source, "" if inside == ("lib",) else ".".join(inside) + ".", source.read_text(encoding="utf-8")


def main(rows_only):
    root = pathlib.Path(__file__).resolve().parent.parent
    listed = {name: bool(archive) for name, archive in LISTED.findall((root / "crates.txt").read_text(encoding="utf-8"))}
    crates = [root / "crates" / name for name in listed if (root / "crates" / name / "src" / "lib.rt").exists()]
    defined = {
        found["name"]
        for crate in crates
        for spec in (crate / "specs").rglob("*.antt")
        if not spec.stem.startswith("Inner")
        for found in DEFINED.finditer(spec.read_text(encoding="utf-8"))
    }
    rows, faults, exports = [], [], 0
    for crate in crates:
        outcomes, lib = crate / "proofs" / "Outcomes.antt", crate / "proofs" / "Lib.antt"
        named = lib.exists() and re.search(r"^(?:pub )?mod Outcomes$", lib.read_text(encoding="utf-8"), re.M)
        lemmas = outcomes.read_text(encoding="utf-8") if outcomes.exists() and named else ""
        archive = listed[crate.name]
        if archive:
            library = crate.name.removesuffix("_c")
            of_library = {module: text for _, module, text in sources(root / "crates" / library)}
            own = {module: text.replace(f" {library}::", " LIBRARY::") for _, module, text in sources(crate)}
            faults += [f"crates/{crate.name}: {fault}" for fault in exported(of_library, own)]
        structs = fields_in(text for _, _, text in sources(crate))
        for source, module, text in sources(crate):
            for name, kind, head in calls(text):
                wants, cited, laws = judged(crate.name, module, name, kind, head, None if archive else lemmas, defined, structs)
                exports += archive
                call = f"{kind}::{name}" if kind else name
                quoted = [", ".join(f"`{one}`" for one in some if one) for some in (cited[:1], cited[1:], laws)]
                if not archive:
                    rows.append(f"| {crate.name} | `{call}` | {quoted[0]} | {quoted[1]} | {quoted[2]} |".replace("|  |", "| |"))
                if wants:
                    faults.append(f"{source.relative_to(root)}: {name}: {'; '.join(wants)}")
    if rows_only:
        print("\n".join(rows))
        return
    told = re.findall(rf"^\| (?:{'|'.join(listed)}) \| .*$", (root / "docs" / "OUTCOMES.md").read_text(encoding="utf-8"), re.M)
    faults += [f"docs/OUTCOMES.md lacks: {row}" for row in rows if row not in told]
    faults += [f"docs/OUTCOMES.md has a row that the source has not: {row}" for row in told if row not in rows]
    for fault in faults:
        print(fault)
    print(f"contracts: {len(rows)} public calls, {exports} exports, {len(faults)} faults")
    sys.exit(1 if faults or not rows else 0)


if __name__ == "__main__":
    self_test() if sys.argv[1:] == ["--self-test"] else main(sys.argv[1:] == ["--rows"])
