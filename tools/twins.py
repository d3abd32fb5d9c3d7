"""Lists functions in crates/*/src whose bodies have one shape: equal once names and constants are taken out.

Run it at the top of the repository. Each line has the number of words in the shape, and where it stands.
Shapes of fewer than eight words are left out.
"""

import collections
import glob
import re

KEPT = set(
    "fn let mut if else match for in return self Self as usize u8 u32 u64 i32 i64 Some None Ok Err true false pub impl while".split()
)
CLAUSE = re.compile(r"\s*(requires|ensures)\*?(\s+\w+)?\s*$")


def closing(text, start):
    depth = 0
    for at in range(start, len(text)):
        if text[at] == "{":
            depth += 1
        elif text[at] == "}":
            depth -= 1
            if depth == 0:
                return at + 1
    return len(text)


def body_after(text, at):
    """The block of the function whose name ends at `at`, past its clauses; None where it has no body."""
    while True:
        mark = re.compile(r"[{;]").search(text, at)
        if not mark or mark.group() == ";":
            return None
        line = text[text.rfind("\n", 0, mark.start()) + 1 : mark.start()]
        end = closing(text, mark.start())
        if not CLAUSE.match(line):
            return text[mark.start() : end]
        at = end


def shape(body):
    names, words = {}, []
    for word in re.findall(r"b?\"[^\"]*\"|b?'[^']*'|\d[\d_]*|[A-Za-z_]\w*|\S", re.sub(r"//.*", "", body)):
        if re.match(r"b?[\"']|\d", word):
            words.append("K")
        elif re.match(r"[A-Za-z_]", word) and word not in KEPT:
            words.append("n%d" % names.setdefault(word, len(names)))
        else:
            words.append(word)
    return tuple(words)


def main():
    found, count = collections.defaultdict(list), 0
    for path in sorted(glob.glob("crates/*/src/**/*.rt", recursive=True)):
        text = open(path).read()
        for name in re.finditer(r"\bfn +(\w+)", text):
            body = body_after(text, name.end())
            if body:
                count += 1
                found[shape(body)].append(path[len("crates/") :] + " " + name.group(1))
    alike = [(words, places) for words, places in found.items() if len(places) > 1 and len(words) >= 8]
    for words, places in sorted(alike, key=lambda pair: -len(pair[0])):
        print(len(words), ", ".join(places))
    print("functions:", count, "groups:", len(alike))


main()
