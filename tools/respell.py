#!/usr/bin/env python3
"""Spells the repository's own definitions and lemmas as its Rattle does: words in snake case, types in camel case.

usage: tools/respell.py        at the top of the repository, once, after the kit's own script of the same purpose

A name of this repository is one that a file of specs/ or proofs/ declares. `may-commit` becomes `may_commit`, and `Same-sets`
becomes `SameSets`. Names that Rattle makes (goals, steps, a function's own proofs) and names of its library stay as they are. So do
comments, but for names between backquotes. With `--list` it only prints the names, old and new.
"""

import os
import re
import sys

NAME = re.compile(r"[A-Za-z][\w']*(?:-[A-Za-z0-9][\w']*)+")
TOKEN = re.compile(r"(?<![\w'-])[A-Za-z][\w']*(?:-[\w']+)*(?![\w'-])")
DECLARED = re.compile(r"^\s*((?:abbrev |unfoldable |pub )*)(data |record )?([A-Za-z][\w']*(?:-[\w']+)*(?: [A-Za-z][\w']*(?:-[\w']+)*)*)(?: :| \(| \{)")
# Names that Rattle makes from a function's code.
MADE = re.compile(r"^(invariant|decreases)-(loop|of)-|^(decreases|loop|returns|overflow)-|-(requires|requires-\d+|preserved|init|smaller)$")
# A dash joins the names of two functions, and with `_` these would be the library's.
KEPT = {"bit-or", "bit-and"}
# Names that the kit's script left half turned.
FURTHER = {
    "Goes_on": "GoesOn",
    "getD-filled": "get_or_filled",
    "getD-set-either": "get_or_set_either",
    "get_d_beyond": "get_or_beyond",
    "number_of_lem": "number_of_fault",
    "ProofsKeeps": "KeepsProof",
}
# Words of comments that the kit's script took for names.
COMMENTS = [("no_read set", "no-read set"), ("no_write set", "no-write set")]


def files(root, endings):
    for folder, folders, names in os.walk(os.path.join(root, "crates")):
        folders[:] = sorted(f for f in folders if f != "out")
        for name in sorted(names):
            if name.endswith(endings):
                yield os.path.join(folder, name)


def read(path):
    with open(path, encoding="utf-8") as f:
        return f.read()


def new_name(name):
    if name[0].isupper():
        first, *rest = name.split("-")
        return first + "".join(word[0].upper() + word[1:] for word in rest)
    return name.replace("-", "_")


def declared(root):
    found = set()
    for path in files(root, (".antt",)):
        for line in read(path).split("\n"):
            m = DECLARED.match(line)
            if m and not line.lstrip().startswith(("use ", "mod ", "pub mod ", "module ", "--")):
                found.update(m.group(3).split())
    return found


def crates(root):
    return {name for name in os.listdir(os.path.join(root, "crates"))}


def respelled(root):
    every = set()
    made = set()
    own = crates(root)
    for path in files(root, (".antt", ".rt")):
        text = read(path)
        every.update(TOKEN.findall(text))
        made.update(re.findall(r"\bgoal\.([\w'-]+)", text))
        for module, items in re.findall(r"\buse ([\w.+'-]+)\.\{([^}]*)\}", text):
            parts = module.split(".")
            if not (parts[0] == "Rattle" and parts[1] in own) or parts[-1] == "Goals":
                made.update(re.sub(r"\bas [^,]*", "", items).replace(",", " ").split())
    known = declared(root)
    names = {}
    for name in sorted(known | {n for n in every if new_name(n) in known}):
        if not NAME.fullmatch(name) or name in KEPT or name in made or MADE.search(name):
            continue
        names[name] = new_name(name)
    names.update(FURTHER)
    together = {}
    for old, new in names.items():
        together.setdefault(new, []).append(old)
    for new, olds in sorted(together.items()):
        if len(olds) > 1:
            print(f"respell: {' and '.join(olds)} fall together as {new}")
        if new in every:
            print(f"respell: {olds[0]} becomes {new}, which stands in the files already")
    return names


def spelled(text, names):
    """The text with its names in the new spelling; of a comment, only what stands between backquotes."""
    aliases = {name: new_name(name) for name in re.findall(r" as ([A-Za-z][\w']*(?:-[\w']+)+)", text)}
    change = lambda m: names.get(m.group(0), aliases.get(m.group(0), m.group(0)))
    out = []
    for line in text.split("\n"):
        cut = re.search(r"(^|\s)(--|//)\s", line)
        code, comment = (line[: cut.start()], line[cut.start() :]) if cut else (line, "")
        code = TOKEN.sub(change, code)
        code = re.sub(r"«([A-Za-z][\w-]*)»", lambda m: new_name(m.group(1)), code)
        comment = re.sub(r"`[^`]*`", lambda m: TOKEN.sub(change, m.group(0)), comment)
        for wrong, right in COMMENTS:
            comment = comment.replace(wrong, right)
        out.append(code + comment)
    return "\n".join(out)


def main():
    root = os.path.join(os.path.dirname(os.path.realpath(__file__)), "..")
    if len(sys.argv) > 2 and sys.argv[1] == "--in":
        root = sys.argv[2]
    names = respelled(root)
    if "--list" in sys.argv:
        for old, new in names.items():
            print(old, new)
        return
    for path in files(root, (".antt", ".rt")):
        before = read(path)
        after = spelled(before, names)
        if after != before:
            with open(path, "w", encoding="utf-8") as f:
                f.write(after)
    print(f"respell: {len(names)} names")


main()
