#!/usr/bin/env python3
"""Brings this repository's own names to today's spelling, once, after port.py.

usage: python3 tools/respell.py        at the top of the repository, right after the kit's port/port.py
       python3 tools/respell.py --list prints each name that changes, and changes nothing

Definitions, laws, fields of records and variables in specs/ and in the laws of proofs/ go into snake case: `isSound` is
`is_sound`, and `from-frame` is `from_frame`. Types, modules and the names of src/ keep theirs. A name that a library has
stays as the library spells it. What answers a function's own goals, in proofs/FUNCTION/, keeps the names that Rattle makes.
"""

import os
import re
import sys

CRATES = "crates"
# what a name of antt has in it
NAME = re.compile(r"(?<![\w'→-])[^\W\d_][\w'→-]*")
CAMEL = re.compile(r"(?<=[a-z0-9])([A-Z])")
USE = re.compile(r"^(?:ghost )?use\s+(\S+?)(?:\.\{([^}]*)\})?(?:\s+as\s+([^\s;]+))?;?\s*$", re.M | re.S)
SIGNATURE = re.compile(r"^\s*(?:abbrev\s+)?(?:unfoldable\s+)?(?:pub\s+)?([^\s:(){}=]+(?:\s+[^\s:(){}=]+)*)(?:\s+\{[^{}:]*\})*\s+:\s", re.M)
BINDER = re.compile(r"[({]([^(){}:=]+?)\s+:\s")
LET = re.compile(r"\blet\s+\(?([^(){}:=]+?)\)?\s*(?::|=)")
LAMBDA = re.compile(r"λ\s+([^.(){}]+)\.")
COMMENT = re.compile(r"--(?=[\s-]).*")
# Names that would be one with another of their file. A law that would have its function's name gets `_lem`, and a field
# says what it holds. The last four are as port.py left them.
APART = {
    "width-right": "width_is_right",
    "stamp-right": "stamp_is_right",
    "kind-right": "kind_is_right",
    "has-length": "length_is_right",
    "first-wrong": "is_first_wrong",
    "open-frame": "frame_is_open",
    "in_frame": "in_frame_lem",
    "same_test": "same_test_lem",
    "two_bytes": "two_bytes_lem",
    "turn_in": "turn_in_lem",
}
for LAW in (
    "some-made right-row stamp-room check-from open-since sound-symbol group-due longest-frame label-at symbol-of "
    "read-entry line-at turn-behind delivery-due delivery-number group-entry answers-behind"
).split():
    APART[LAW] = LAW.replace("-", "_") + "_lem"
# files of specs/ whose names Rattle now makes itself
FILES = {"Contracts": "CallContracts"}


def own_files():
    for crate in sorted(os.listdir(CRATES)):
        for part in ("specs", "proofs", "src"):
            for folder, _, files in os.walk(os.path.join(CRATES, crate, part)):
                for name in sorted(files):
                    if name.endswith((".antt", ".rt")):
                        yield os.path.join(folder, name)


def is_lemma_file(path):
    """Whether names that a file declares are ours: specs/, and the files that lie right in proofs/."""
    parts = path.split(os.sep)
    return path.endswith(".antt") and (parts[2] == "specs" or parts[2] == "proofs" and len(parts) == 4)


def is_own(module):
    parts = module.split(".")
    return parts[0] == "Rattle" and len(parts) > 1 and os.path.isdir(os.path.join(CRATES, parts[1])) and parts[-1] not in ("Goals", "Given", "Statement", "Tie")


def respelled(name):
    if name[0].isupper() and "-" not in name:
        return name
    words = CAMEL.sub(lambda m: "_" + m[1].lower(), name) if not name[0].isupper() else name
    return words.replace("-", "_")


def survey():
    """The names that change, old to new, and for each file the names that a library lends it."""
    declared, lent = set(), {}
    for path in own_files():
        text = open(path, encoding="utf-8").read()
        bare = COMMENT.sub("", text) if path.endswith(".antt") else text
        lent[path] = set()
        for module, names, alias in USE.findall(bare):
            for each in names.split(","):
                words = each.split(" as ")
                name = words[0].strip()
                if name and not is_own(module):
                    lent[path].add(name)
                if len(words) > 1:
                    declared.add(words[1].strip())
            if alias:
                declared.add(alias)
        if is_lemma_file(path):
            body = USE.sub("", bare)
            for pattern in (SIGNATURE, BINDER, LET, LAMBDA):
                for names in pattern.findall(body):
                    declared.update(re.split(r"[\s,]+", names))
    change = {}
    for name in declared:
        if NAME.fullmatch(name) and APART.get(name, respelled(name)) != name:
            change[name] = APART.get(name, respelled(name))
    return change, lent


def turn(text, change, lent):
    """One text of antt, comments and all, but for the imports from libraries."""

    def named(match):
        name = match[0]
        return name if name in lent else change.get(name, name)

    def outside(piece):
        return NAME.sub(named, piece)

    out, at = [], 0
    for match in USE.finditer(text):
        out.append(outside(text[at : match.start()]))
        whole = match[0]
        if is_own(match[1]):
            whole = NAME.sub(lambda m: change.get(m[0], m[0]), whole)
        elif match[3] or " as " in (match[2] or ""):
            whole = re.sub(r"(?<= as )[^\s,;}]+", lambda m: change.get(m[0], m[0]), whole)
        out.append(whole)
        at = match.end()
    out.append(outside(text[at:]))
    return "".join(out)


def braced(text, start):
    """The end of the braces that open at start."""
    depth = 0
    for at in range(start, len(text)):
        depth += {"{": 1, "}": -1}.get(text[at], 0)
        if not depth:
            return at + 1
    return len(text)


def turn_code(text, change, lent):
    """A file of src/: its ghost imports and its clauses."""
    out, at = [], 0
    for match in re.finditer(r"^ghost use [^;]*;|\b(?:requires|ensures)\*?(?: \w+)? (?=\{)", text, re.M):
        if match.start() < at:
            continue
        out.append(text[at : match.start()])
        end = match.end() if match[0].startswith("ghost") else braced(text, match.end())
        out.append(turn(text[match.start() : end], change, lent))
        at = end
    out.append(text[at:])
    return "".join(out)


def fall_together(path, text, change, lent):
    """Names of one file that would be one."""
    seen, clash = {}, []
    for name in set(NAME.findall(COMMENT.sub("", text))):
        new = name if name in lent else change.get(name, name)
        if new in seen and seen[new] != name:
            clash.append((path, seen[new], name))
        seen[new] = name
    return clash


def main():
    change, lent = survey()
    if "--list" in sys.argv:
        for name in sorted(change):
            print(name, change[name])
        return
    clashes = []
    for path in list(own_files()):
        text = open(path, encoding="utf-8").read()
        if path.endswith(".rt"):
            new = turn_code(text, change, lent[path])
        else:
            clashes += fall_together(path, text, change, lent[path])
            new = turn(text, change, lent[path])
        for old_file, new_file in FILES.items():
            new = re.sub(rf"(\.specs\.){old_file}(?=[.;\s])", rf"\g<1>{new_file}", new)
            if path.endswith(os.path.join("specs", "Lib.antt")):
                new = re.sub(rf"^pub mod {old_file}$", f"pub mod {new_file}", new, flags=re.M)
        if new != text:
            open(path, "w", encoding="utf-8").write(new)
        parts = path.split(os.sep)
        if parts[2] == "specs" and len(parts) == 4 and parts[3][:-5] in FILES:
            os.rename(path, os.path.join(*parts[:3], FILES[parts[3][:-5]] + ".antt"))
    for path, one, other in clashes:
        print(f"fall together: {path}: {one} and {other}")


main()
