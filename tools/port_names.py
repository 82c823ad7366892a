#!/usr/bin/env python3
"""Spells the repository's own definitions and lemmas as today's Rattle does: words in snake case.

usage: python3 tools/port_names.py      at the top of a repository that the kit's port.py has just turned, once

The table is port_names.txt beside this file: an old and a new name a line. In .antt and .rt files a name is changed
wherever it stands alone or in a path; a field of a record that Rattle makes (`c.x.y` in a Proof.antt) is left. In
comments only names of two words without a dash are changed, since dashed words can be English. Must-fail edits are not
read.
"""
import os
import re
import sys

HERE = os.path.dirname(os.path.realpath(__file__))
# A name of antt: all between blanks, brackets, dots, commas and the like.
NAME = re.compile(r"[^\s(){}\[\];,.«»⌜⌝\"`]+")


def table():
    with open(os.path.join(HERE, "port_names.txt"), encoding="utf-8") as f:
        return dict(line.split() for line in f if line.strip())


# Names that are words in snake case already, and have to make way for a definition that gets their spelling. A function
# or a variable of src/ may have the same name, so they are changed in .antt files alone, and not within a path.
MAKE_WAY = {
    "is_open": "found_open",
    "turned_down": "turned_down_lem",
    "has_room": "has_room_lem",
    "front_read": "front_read_lem",
    "held_first": "held_first_lem",
    "ran_on": "ran_on_lem",
    "step_in": "step_in_lem",
    "word_byte": "word_byte_lem",
}


def own_fields(crates):
    """The names of fields and constructors that the repository's own records and data types declare."""
    found = set()
    for path in texts(crates):
        if path.endswith(".antt") and not path.endswith("Proof.antt"):
            with open(path, encoding="utf-8") as f:
                for line in f:
                    m = re.match(r"^  +(?:\| )?(?:pub )?([A-Za-z]\S*) :", line)
                    if m:
                        found.add(m.group(1))
    return found


def texts(crates):
    for folder, dirs, files in os.walk(crates):
        dirs[:] = sorted(d for d in dirs if d != "out")
        for name in sorted(files):
            if name.endswith((".antt", ".rt")):
                yield os.path.join(folder, name)


def foreign(text, own):
    """The names that a file takes from a module outside the repository."""
    found = set()
    for m in re.finditer(r"^(?:pub )?(?:ghost )?use ([^\s{]+?)\.?\{([^}]*)\}", text, re.M):
        path = m.group(1).split(".")
        if path[0] != "Rattle" or path[1] not in own:
            found |= {item.split(" as ")[0].strip() for item in m.group(2).split(",")}
    return found


def turn_line(line, names, fields, proof, source):
    """One line of code, with its comment. proof: of a Proof.antt; source: of src/."""
    head, mark, comment = split_comment(line)
    path = re.match(r"\s*(pub )?(ghost )?use ", line)

    def new(m):
        old = m.group(0)
        after_dot = m.start() > 0 and head[m.start() - 1] == "."
        if old in MAKE_WAY:
            return old if source or after_dot and (path or proof or old not in fields) else MAKE_WAY[old]
        to = names.get(old)
        if to is None:
            return old
        if after_dot and not path and proof and old not in fields:
            return old
        return to

    def in_comment(m):
        old = m.group(0)
        return names.get(old, old) if re.fullmatch(r"[a-z][a-zA-Z0-9]*[A-Z][a-zA-Z0-9]*", old) else old

    return NAME.sub(new, head) + mark + NAME.sub(in_comment, comment)


def split_comment(line):
    m = re.search(r"(^|\s)(--|//)(\s|$)", line)
    if not m:
        return line, "", ""
    at = m.start(2)
    return line[:at], line[at:at + 2], line[at + 2:]


def main():
    names = table()
    fields = own_fields("crates")
    own = set(os.listdir("crates"))
    for path in texts("crates"):
        with open(path, encoding="utf-8") as f:
            text = f.read()
        proof = path.endswith("Proof.antt")
        taken = foreign(text, own)
        here = {old: new for old, new in names.items() if old not in taken}
        out = "".join(turn_line(l, here, fields, proof, path.endswith(".rt")) for l in text.splitlines(keepends=True))
        if out != text:
            with open(path, "w", encoding="utf-8") as f:
                f.write(out)


if len(sys.argv) > 1:
    sys.exit(__doc__)
main()
