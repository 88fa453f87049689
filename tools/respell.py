#!/usr/bin/env python3
"""Brings the repository's own names to the spelling that Rattle's library has.

usage: tools/respell.py [FOLDER]      once, right after port.py, at the top of the repository

- A definition, a lemma or a name in camel case goes to snake case: `setOf` is `set_of`.
- What specs/ declares, and each field of a record, has no dash: `starts-are` is `starts_are`. A
  lemma keeps the dash that joins two names: `has-set_of`.
- A lemma that would now have its definition's name gets `_lem`.
- A fact is a type, in upper camel case: `closes` is `HasClosing`.
- The crate `regex` is `meaning`, since the library has a crate of that name.

It reads the .rt, .antt and .edit files below crates/, and crates.txt. Functions of src/, exported
names and strings keep their names. It says where two words of one file come to the same name.
"""
import os
import re
import subprocess
import sys

TOKEN = re.compile(r"(?<![\w'])[A-Za-z_ℕ][\w']*(?:-[\w'*]+)*")
CAMEL = re.compile(r"([a-z0-9])([A-Z])")
# What a lemma is called where its definition takes its name; below these folders.
LEMMAS = {
    "as_one": ("kinds/proofs/Laws.antt",),
    "owner_at": ("rules/proofs/Views.antt",),
    "old_row": ("rules/proofs/Local.antt",),
    "key_in": ("second/proofs/Gathered.antt",),
    "in_tail": ("matched/proofs/",),
    "in_order": ("traced/proofs/", "demands/proofs/Alike.antt"),
    "too_long": ("pattern/proofs/",),
    "is_table": ("demands/specs/Demand1.antt",),
    "set_on": ("",),
    "list_on": ("",),
}
# A string, which stays, and a comment.
STRING = re.compile(r'"(?:[^"\\\n]|\\.)*"')
COMMENT = re.compile(r"(?:--|//)[^\n]*")
# A fact in small letters, what it is called, and where it is that fact.
FACTS = {
    "closes": (
        "HasClosing",
        (
            "demands/specs/Demands.antt",
            "demands/specs/Alone.antt",
            "disputes/specs/Plain.antt",
            "worked/specs/Example.antt",
            "worked/specs/Starts.antt",
        ),
    ),
}
# Names that would fall together with another in snake case.
OTHERS = {
    "empty-window": "window_is_empty",
    "single-start": "start_with_single",
    "bad-bounds": "bounds_are_bad",
    "close-reports": "closed_reports",
    "no-starts": "none_has_starts",
    "needs-start": "start_is_needed",
    "at_start": "at_the_start",
    "atEnd": "at_the_end",
}


def snake(word):
    """The word in snake case; a type or a word that has no lower case first stays."""
    parts = [p if not p or p[0].isupper() else CAMEL.sub(lambda m: f"{m[1]}_{m[2].lower()}", p) for p in word.split("-")]
    return "-".join(parts)


def files(root, *endings):
    for folder, dirs, names in os.walk(os.path.join(root, "crates")):
        dirs[:] = sorted(d for d in dirs if d != "out")
        yield from (os.path.join(folder, n) for n in sorted(names) if n.endswith(endings))


def read(path):
    with open(path, encoding="utf-8") as f:
        return f.read()


def camel(texts):
    """The words in camel case that stand outside of strings and comments."""
    code = (COMMENT.sub("", STRING.sub('""', t)) for t in texts)
    return {w for t in code for w in TOKEN.findall(t) if snake(w) != w}


def dashed(root):
    """The names with a dash that specs/ declares, and those of the fields of records."""
    found = set()
    for path in files(root, ".antt"):
        if "/specs/" not in path and "/proofs/" not in path:
            continue
        depth = None
        for line in read(path).split("\n"):
            indent = len(line) - len(line.lstrip())
            head = re.match(r"\s*(?:pub )?(?:record|data) .*", line)
            if head and " { " not in line and "= record" not in line:
                depth = indent
                continue
            if depth is not None and line.strip() and indent <= depth:
                depth = None
            sign = re.match(r"\s*(?:(?:abbrev|unfoldable) )*(?:pub )?([\w' -]+) : ", line)
            if sign and ("/specs/" in path or (depth is not None and indent == depth + 2)):
                for name in sign[1].split():
                    if re.fullmatch(r"[a-z][\w']*(-[\w']+)+", name):
                        found.add(name)
    return found


def main(root):
    own = dashed(root)
    text = {path: read(path) for path in files(root, ".rt", ".antt", ".edit")}
    cased = camel(t for path, t in text.items() if not path.endswith(".edit"))
    # A crate's name.
    if os.path.isdir(f"{root}/crates/regex"):
        subprocess.run(["git", "mv", "crates/regex", "crates/meaning"], cwd=root, check=True)
        text = {p.replace("/crates/regex/", "/crates/meaning/"): t for p, t in text.items()}
        listed = read(f"{root}/crates.txt")
        with open(f"{root}/crates.txt", "w", encoding="utf-8") as f:
            f.write(re.sub(r"\bregex\b", "meaning", listed))
    for path, t in text.items():
        short = path.split("/crates/", 1)[1]
        new = {}
        came_from = {}

        def turned(m, t=t):
            word = m[0]
            before, after = t[m.start() - 1 : m.start()], t[m.end() : m.end() + 1]
            to = word
            if word in LEMMAS and path.endswith(".antt") and before != "." and after != ".":
                if any(short.startswith(it) for it in LEMMAS[word]):
                    to = word + "_lem"
            elif word in FACTS and short in FACTS[word][1]:
                to = FACTS[word][0]
            elif word in OTHERS and not (word == "at_start" and (before == "." or after in ".(")):
                to = OTHERS[word]
            elif word in own:
                to = snake(word.replace("-", "_"))
            elif word in cased:
                to = snake(word)
            if before not in '."' and path.endswith(".antt") or to != word:
                came_from.setdefault(to, set()).add(word)
            return to

        strings = [m.span() for m in STRING.finditer(t)]
        inside = {i for a, b in strings for i in range(a, b)} if not path.endswith(".edit") else set()

        def outside(m):
            return m[0] if m.start() in inside else turned(m)

        out = TOKEN.sub(outside, t) if not path.endswith(".edit") else t
        out = re.sub(r"\b(Rattle[.·])regex(?=[.·])", r"\1meaning", out)
        out = re.sub(r"`regex::", "`meaning::", out)
        for to, words in came_from.items():
            if len(words) > 1:
                print(f"{short}: {', '.join(sorted(words))} would all be {to}")
        if out != t:
            with open(path, "w", encoding="utf-8") as f:
                f.write(out)


if __name__ == "__main__":
    main(os.path.abspath(sys.argv[1] if len(sys.argv) > 1 else "."))
