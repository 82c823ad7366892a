#!/usr/bin/env python3
"""Counts the places in src/ that read like an older language, by the eight points of docs/DESIGN-PASS.md.

Run it at the top of a checkout: `python3 tools/forms.py` prints a line for each count, with `--list` each place too.
It reads the text of the .rt files alone, so it also finds places that are fine: docs/DESIGN-PASS.md says which.
"""
import collections
import glob
import re
import sys

KINDS = {"Fate", "Rule", "Call", "SheetFault", "CallFault", "Kind"}


def functions(text):
    """Each function of a file: its name, its parameters, its clauses and its body."""
    head = re.compile(r"^( *)(?:pub(?:\(crate\))? )?(?:extern \"C\" )?fn (\w+)", re.M)
    for m in head.finditer(text):
        indent = m.group(1)
        end = re.search(r"^" + indent + r"\}|\{\}$", text[m.start():], re.M)
        whole = text[m.start(): m.start() + end.end()] if end else text[m.start():]
        opening = re.search(r"^" + indent + r"\{|\) (-> [^{]*)?\{$", whole, re.M)
        if re.search(r";$", whole[: opening.start() if opening else len(whole)], re.M):
            continue  # what a trait declares has no body
        at = opening.end() if opening else len(whole)
        sign = whole[:at]
        params = sign[sign.index("("):]
        clauses = re.findall(r"(?:requires|ensures)[ \w]*\{(.*)\}", sign)
        yield m.group(2), params, clauses, whole[at:]


def skeleton(body):
    """A body with every name and number replaced, so that two that differ in these alone are the same."""
    body = re.sub(r"//.*", "", body)
    words = re.findall(r"\w+|[^\w\s]", body)
    keep = {"if", "else", "match", "while", "for", "in", "loop", "return", "let", "mut", "as", "true", "false", "self"}
    return " ".join(w if w in keep or not re.match(r"\w", w) else "_" for w in words)


def main():
    found = collections.OrderedDict()

    def add(point, what, place):
        found.setdefault((point, what), []).append(place)

    files = sorted(glob.glob("crates/*/src/**/*.rt", recursive=True))
    bodies = collections.defaultdict(list)
    facts = collections.defaultdict(set)
    pairs = collections.defaultdict(set)
    for path in files:
        text = open(path, encoding="utf-8").read()
        place = path.replace("crates/", "").replace("/src/", "/")
        for m in re.finditer(r"^(?:pub(?:\(crate\))? )?enum (\w+)", text, re.M):
            if m.group(1) not in KINDS:
                add(1, "own enums that are no kinds", f"{place} {m.group(1)}")
        for m in re.finditer(
            r"\b(?:kind|n|number|barred|x|e|rec\.kind) (?:==|!=|<|<=) (?:\d+\b|[A-Z_]{3,})|(?:\d+|[A-Z_]{3,}) <=? (?:rec\.)?kind\b"
            r"|lowest_of\(.*\) == 16|return (?:16|12);|settle_with\(16\)|number: \d+,|Wrong\(\d+\)|^ +\d+ => \d",
            text, re.M,
        ):
            line = text.count("\n", 0, m.start()) + 1
            add(1, "numbers for kinds, refusals and none", f"{place}:{line} {m.group(0).strip()}")
        for name, params, clauses, body in functions(text):
            shape = skeleton(body)
            if len(shape.split()) > 12:
                bodies[shape].append(f"{place} {name}")
            for m in re.finditer(r"\bwhile ([^{]*)\{|\bloop \{", body):
                index = re.search(r"\b(\w+) <|< (\w+)\b", m.group(1) or "")
                word = index and (index.group(1) or index.group(2))
                counted = word and re.search(rf"\b{word} (?:\+|-)= 1;|\b{word} = {word} \+ 1;", body)
                add(3, "while loops that count an index" if counted else "other loop and while", f"{place} {name}")
            arms = re.findall(r"=> (.*),", body)
            if re.match(r"\s*match ", body) and arms and all(re.fullmatch(r"[\w:]+|true|false", a) for a in arms):
                add(4, "matches that only name a number, a flag or a variant for each case", f"{place} {name}")
            if re.search(r"^\s+(\w+)\[[^\]]*\bi\b[^\]]*\] = (\w+)\[i\];", body, re.M):
                add(4, "copying loops", f"{place} {name}")
            if re.search(r"/ 256 % 256|256 \*", body):
                add(4, "bytes of numbers by hand", f"{place} {name}")
            if len(re.findall(r"if \w+ == \w+ \{\s*return", body)) > 1:
                add(4, "chains of ifs on one number", f"{place} {name}")
            for clause in clauses:
                for fact in re.split(r"→|×|\(p : Plan\)|\(f : Fates\)", clause):
                    fact = fact.strip().strip("()")
                    if len(fact) > 8 and " : " not in fact and "result" not in fact and ".new" not in fact:
                        facts[fact].add(f"{place} {name}")
            names = re.findall(r"(\w+): ([^,()]+(?:\[[^\]]*\])?)", params.split("ensures")[0].split("requires")[0])
            for i in range(len(names)):
                for j in range(i + 1, len(names)):
                    pairs[(names[i], names[j])].add(f"{place} {name}")
        for struct in re.finditer(r"^(?:pub(?:\(crate\))? )?struct [^{;]*\{(.*?)^\}", text, re.M | re.S):
            for m in re.finditer(r"^    (?:pub )?(\w+): bool,$", struct.group(1), re.M):
                add(1, "flags beside values in structs", f"{place} {m.group(1)}")
            for m in re.finditer(r"^    (?:pub )?(\w*(?:len|count|size))\b: (?:u8|usize),$", struct.group(1), re.M):
                add(6, "lengths beside buffers in structs", f"{place} {m.group(1)}")
        for m in re.finditer(r"\bfn\(|\bdyn\b|: \[fn", text):
            add(7, "function pointers and dyn", f"{place} {m.group(0)}")
    for shape, names in bodies.items():
        if len(names) > 1:
            for name in names:
                add(2, "functions that differ in names and numbers alone", name)
    for fact, names in facts.items():
        if len(names) > 2:
            add(5, "facts in the clauses of three functions or more", f"{fact}: {len(names)} functions")
    for (a, b), names in pairs.items():
        if len(names) > 2:
            add(5, "pairs of parameters in three functions or more", f"{a[0]}, {b[0]}: {len(names)} functions")
    for path in glob.glob("crates/*/proofs/**/*.antt", recursive=True):
        kind = path.rsplit("/", 1)[1] if path.endswith(("Answers.antt", "Invariants.antt")) else "lemmas"
        lines = open(path, encoding="utf-8").read().count("\n")
        found.setdefault((8, f"lines of proofs: {kind}"), []).extend([path] * lines)
    for (point, what), places in sorted(found.items()):
        print(f"{point}. {what}: {len(places)}")
        if "--list" in sys.argv and point != 8:
            for one in places:
                print(f"     {one}")


main()
