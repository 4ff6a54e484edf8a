#!/usr/bin/env python3
"""Brings the must-fail edits and doubt/wrong.txt to today's spelling, once, after port.py, tools/respell.py and the moves of
theorems from specs/ to proofs/.

usage: python3 tools/turn_edits.py OLDER PORT [ROOM]   at the top of the repository; OLDER is a checkout in the older spelling, with
                                                       the edits and the list as they were, and PORT the kit's port.py; ROOM
                                                       is a folder for the copy, or the copy that an earlier run made there

What an edit puts into specs/ or proofs/ is turned by the scripts that turned the crates: into a copy of OLDER's crates goes,
beside each such file, the file as the edit makes it, PORT and respell.py run over the copy, and where the two turned files
differ is the edit. Code keeps its text, and files that moved have their new path. It prints `by hand:` for each text that
does not stand once in today's file, and for each that it can't turn: those of functions' proofs, which were written anew, of
contracts, and of imports that became a line of their own. It takes some ten minutes. A text turned by hand later is lost when it runs again.
"""

import difflib
import os
import re
import shutil
import subprocess
import sys
import tempfile

HERE = os.path.dirname(os.path.abspath(__file__))
LIST = "doubt/wrong.txt"
NAMES = "names.txt"
IMPORT = re.compile(r"^(?:pub )?use (\S+?)\.\{([^}]*)\}", re.M)
TOKEN = re.compile(r"\s+|[\w'→«»-]+|.")
# theorems' modules, which moved from specs/ to proofs/
MOVED = re.compile(r"(?<![\w/])specs/(WireLaws|Laws|Promises|Demands|Figures|Fixed|Views|Contracts|CallContracts)(?![\w])")


class Pair:
    """An `old:` and a `new:` line of a text, and the lines before them that they stand under."""

    def __init__(self, file, mark, old, new, lines):
        self.file, self.mark, self.old, self.new, self.lines = file, mark, old, new, lines


def pairs_of_list(text):
    """The clauses of doubt/wrong.txt, each as its pairs."""
    clauses, pairs, head, file, mark, old = [], None, False, None, None, None
    for number, line in enumerate(text):
        if line.startswith("#"):
            pairs = None
        elif not line.strip():
            continue
        else:
            if pairs is None:
                pairs = []
                clauses.append(pairs)
            word, _, rest = line.strip().partition(" ")
            rest = rest.strip()
            if word == "file:":
                file, mark = ("crates/" + rest, number), None
            elif word == "in:":
                mark = (rest, number)
            elif word == "old:":
                old = (rest, number)
            elif word == "new:":
                pairs.append(Pair(file[0], mark and mark[0], old[0], rest, (file[1], mark and mark[1], old[1], number)))
                mark = None
    return clauses


def pairs_of_edit(crate, text):
    pairs, file, old = [], None, None
    for number, line in enumerate(text):
        if line.startswith("file: "):
            file = (f"crates/{crate}/{line[6:].strip()}", number)
        elif line.startswith("old: "):
            old = (line[5:], number)
        elif line.startswith("new:"):
            pairs.append(Pair(file[0], None, old[0], re.sub(r"\A ", "", line[4:]), (file[1], None, old[1], number)))
    return pairs


def line_of(text, pair):
    """The number of the line that the pair changes, counted from 0."""
    behind = pair.mark is None
    for number, line in enumerate(text.split("\n")):
        if behind and pair.old in line:
            return number
        if pair.mark is not None and pair.mark in line:
            behind = True
    raise SystemExit(f"{pair.file}: not there: {pair.old}")


def put(text, pair):
    lines = text.split("\n")
    number = line_of(text, pair)
    lines[number] = lines[number].replace(pair.old, pair.new, 1)
    return "\n".join(lines), number


def read(path):
    with open(path, encoding="utf-8") as file:
        return file.read()


def today(path, has):
    """The path of a file as it is now, where it moved: of several that could be it the first that has the text."""
    moved = [path, path.replace("/specs/", "/proofs/", 1)]
    for part in ("specs", "proofs"):
        moved.append(path.replace("/specs/Contracts", f"/{part}/CallContracts", 1))
    moved += [path.replace("/Proof.antt", f"/{name}.antt") for name in ("Answers", "Invariants")]
    moved = [it for it in moved if os.path.exists(it)]
    return next((it for it in moved if has and has in read(it)), (moved or [path])[0])


def stretch(before, after, place, size):
    """Where the turned line has what stands in the older line at this place."""
    one, other = TOKEN.findall(before), TOKEN.findall(after)
    starts = lambda tokens: [sum(map(len, tokens[:at])) for at in range(len(tokens) + 1)]
    at_one, at_other = starts(one), starts(other)
    matcher = difflib.SequenceMatcher(None, one, other, autojunk=False)
    begin, end = 0, len(after)
    for block in matcher.get_matching_blocks():
        for step in range(block.size):
            if at_one[block.a + step] <= place:
                begin = at_other[block.b + step] + max(0, min(place - at_one[block.a + step], len(one[block.a + step])))
            if at_one[block.a + step + 1] >= place + size and end == len(after):
                end = at_other[block.b + step + 1] - (at_one[block.a + step + 1] - place - size if at_one[block.a + step] < place + size else 0)
                if at_one[block.a + step] >= place + size:
                    end = at_other[block.b + step]
    return begin, end


def changed(old_line, turned, edited, pair):
    """The pair's two texts in today's spelling: what differs in the two turned lines, and as much around it as the pair had."""
    first = 0
    while first < min(len(turned), len(edited)) and turned[first] == edited[first]:
        first += 1
    last = 0
    while last < min(len(turned), len(edited)) - first and turned[-1 - last] == edited[-1 - last]:
        last += 1
    begin, end = stretch(old_line, turned, old_line.index(pair.old), len(pair.old))
    begin, end = min(begin, first), max(end, len(turned) - last)
    # no word is cut
    while begin > 0 and re.match(r"[\w'«»]", turned[begin - 1]) and begin < len(turned) and re.match(r"[\w'«»]", turned[begin]):
        begin -= 1
    while end < len(turned) and end > 0 and re.match(r"[\w'«»]", turned[end]) and re.match(r"[\w'«»]", turned[end - 1]):
        end += 1
    return turned[begin:end], edited[begin : len(edited) - (len(turned) - end)]


def is_use(lines):
    """Of each line whether it belongs to an import."""
    inside, told = False, []
    for line in lines:
        begins = re.match(r"(pub )?use ", line)
        told.append(bool(begins or inside))
        if begins or inside:
            inside = "{" in line and "}" not in line if begins else "}" not in line
    return told


def partners(one, other):
    """For each line of a text the line of the other that stands for it, or an empty one; and the lines that stand for none."""
    if len(one) == len(other):
        return other, []
    beside, lost = list(one), []
    for word, a, b, c, d in difflib.SequenceMatcher(None, one, other, autojunk=False).get_opcodes():
        if word == "equal":
            continue
        if b - a == d - c:
            beside[a:b] = other[c:d]
            continue
        cost = {(b, d): (0, None)}
        for i in range(b, a - 1, -1):
            for j in range(d, c - 1, -1):
                ways = []
                if i < b and j < d:
                    alike = difflib.SequenceMatcher(None, one[i], other[j], autojunk=False).ratio()
                    ways.append((cost[i + 1, j + 1][0] + 1 - alike, (i + 1, j + 1)))
                if i < b:
                    ways.append((cost[i + 1, j][0] + 0.5, (i + 1, j)))
                if j < d:
                    ways.append((cost[i, j + 1][0] + 0.5, (i, j + 1)))
                if ways:
                    cost[i, j] = min(ways)
        i, j = a, c
        while (i, j) != (b, d):
            _, (k, l) = cost[i, j]
            if k > i:
                beside[i] = other[j] if l > j else ""
            elif other[j].strip():
                lost.append(other[j])
            i, j = k, l
    return beside, lost


class Turned:
    """The files of OLDER as they were, as they are turned, and as each edit makes them, turned."""

    def __init__(self, older, room):
        self.older, self.room = older, room
        self.files = {}

    def made(self, path, tag):
        folder, name = os.path.split(path)
        return os.path.join(self.room, folder, name[: -len(".antt")] + tag + ".antt")

    def add(self, tag, pairs):
        """Puts the file as the pairs make it into the copy, and notes which line each changed."""
        texts, lines = {}, {}
        for pair in pairs:
            if pair.file.endswith(".antt") and not pair.file.endswith("/Proof.antt"):
                texts[pair.file], number = put(texts.get(pair.file) or read(os.path.join(self.older, pair.file)), pair)
                lines.setdefault(pair.file, {}).setdefault(number, []).append(pair)
        for file, text in texts.items():
            with open(self.made(file, tag), "w", encoding="utf-8") as it:
                it.write(text)
        self.files[tag] = lines

    def turn(self, tag, say):
        """Gives each pair of an edit its text of today, where it has one."""
        for file, by_line in self.files[tag].items():
            renamed = file.replace("specs/Contracts.antt", "specs/CallContracts.antt")
            old = read(os.path.join(self.older, file)).split("\n")
            turned = read(os.path.join(self.room, renamed)).split("\n")
            edited = read(self.made(file, tag)).split("\n")
            bare = lambda lines: [line for line, use in zip(lines, is_use(lines)) if not use]
            old_use = is_use(old)
            wanted = [number for number in sorted(by_line) if not old_use[number]]
            one, other = bare(turned), bare(edited)
            plain = [number for number, use in enumerate(old_use) if not use]
            if len(one) != len(plain):
                raise SystemExit(f"{file}: the turned file has not as many lines")
            beside, lost = partners(one, other)
            differ = [plain.index(number) for number in wanted]
            for line in lost:
                say(next(iter(by_line.values()))[0], f"a new line: {line}")
            for number, at in zip(wanted, differ):
                pairs = by_line[number]
                if len(pairs) > 1:
                    for pair in pairs:
                        say(pair, "two texts of one line")
                    continue
                pairs[0].old, pairs[0].new = changed(old[number], one[at], beside[at], pairs[0])
                pairs[0].whole = one[at].strip(), beside[at].strip()
                if pairs[0].mark is not None:
                    where = next((n for n, line in enumerate(old) if pairs[0].mark in line), None)
                    if where is None:
                        say(pairs[0], "its mark is a text that another pair made")
                    else:
                        pairs[0].mark = turned[where - len(old)].strip()
            added = self.added(turned, edited)
            for number in sorted(by_line):
                for pair in by_line[number] if old_use[number] else []:
                    if added:
                        module, names = added.pop(0)
                        pair.old, pair.new = f"use {module}.{{", f"use {module}.{{{', '.join(names)},"
                    else:
                        pair.old = pair.new = pair.mark = None
            for module, names in added:
                say(pairs[0], f"imports {', '.join(names)} from {module}")

    def added(self, turned, edited):
        """The names that the edited file imports and the file as it is does not, by module."""
        found = {}
        for text, way in ((edited, 1), (turned, -1)):
            for module, names in IMPORT.findall("\n".join(text)):
                for name in (it.strip() for it in names.strip(" \n,").split(",")):
                    found[module, name] = found.get((module, name), 0) + way
        modules = {}
        for (module, name), count in found.items():
            if count > 0:
                modules.setdefault(module, []).append(name)
        return list(modules.items())


def placed(line, names, crate):
    """A comment that names the place of a refusal: a law's file and name as they are now. The goals of functions are named anew by hand."""
    match = re.match(r"# (refused|theorem): (\S+) (\S+)$", line)
    if not match:
        return line
    place = MOVED.sub(r"proofs/\1", match[2])
    is_law = os.path.exists(f"crates/{crate}/{place}.antt")
    name = names.get(match[3], match[3].replace("-", "_")) if is_law else match[3]
    return f"# {match[1]}: {place} {name}"


def main():
    older, port = map(os.path.abspath, sys.argv[1:3])
    room = os.path.abspath(sys.argv[3]) if len(sys.argv) > 3 else tempfile.mkdtemp(prefix="turn-edits-")
    is_made = os.path.isdir(os.path.join(room, ".git"))
    if not is_made:
        shutil.copytree(os.path.join(older, "crates"), os.path.join(room, "crates"))
        shutil.copy(os.path.join(older, "crates.txt"), room)
    listed = read(os.path.join(older, LIST)).split("\n")
    clauses = pairs_of_list(listed)
    edits = {}
    for crate in sorted(os.listdir(os.path.join(older, "crates"))):
        folder = os.path.join(older, "crates", crate, "must-fail")
        for name in sorted(os.listdir(folder)) if os.path.isdir(folder) else []:
            text = read(os.path.join(folder, name)).split("\n")
            edits[f"crates/{crate}/must-fail/{name}"] = text, pairs_of_edit(crate, text)
    every = Turned(older, room)
    tags = {f"W{number + 1:03}": pairs for number, pairs in enumerate(clauses)}
    tags |= {f"E{number:02}": pairs for number, (_, pairs) in enumerate(edits.values())}
    if is_made:
        every.made, keep = (lambda path, tag: os.devnull), every.made
    for tag, pairs in tags.items():
        every.add(tag, pairs)
    if is_made:
        every.made = keep
    else:
        git = ["git", "-c", "user.name=turn", "-c", "user.email=turn@localhost"]
        for words in (["init", "-q"], ["add", "-A"], ["commit", "-qm", "older"]):
            subprocess.run([*git, *words], cwd=room, check=True)
        subprocess.run([sys.executable, port], cwd=room, check=True)
        respell = [sys.executable, os.path.join(HERE, "respell.py")]
        with open(os.path.join(room, NAMES), "w", encoding="utf-8") as file:
            subprocess.run([*respell, "--list"], cwd=room, stdout=file, check=True)
        subprocess.run(respell, cwd=room, check=True)
    names = dict(line.split() for line in read(os.path.join(room, NAMES)).splitlines())
    said = {}
    for tag, pairs in tags.items():
        every.turn(tag, lambda pair, why: said.setdefault(id(pair), []).append(why))
    def write(text, pairs, tag, strips):
        texts, stands = {}, None
        for pair in pairs:
            file, mark, old, new = pair.lines
            if pair.old is None:
                text[old] = text[new] = None
                if mark is not None:
                    text[mark] = None
                continue
            path = today(pair.file, pair.old)
            why = said.get(id(pair), [])
            now = texts.get(path) or (read(path) if os.path.exists(path) else "")
            if pair.file.endswith("/Proof.antt"):
                why = ["a function's proof"]
            elif not why:
                count = now.count(pair.old) if pair.mark is None else int(pair.mark in now)
                whole = getattr(pair, "whole", None)
                if count != 1 and pair.mark is None and whole and now.count(whole[0]) == 1:
                    pair.old, pair.new = whole
                    count = 1
                if count != 1:
                    why = [f"{count} times in {path}"]
            if not why:
                try:
                    texts[path], _ = put(now, pair)
                except SystemExit:
                    why = [f"not behind its mark in {path}"]
            bare = path[len("crates/") :] if strips else "/".join(path.split("/")[2:])
            if text[file] is not None and stands is None or file != stands[0]:
                text[file], stands = f"file: {bare}", (file, bare)
            before = mark if mark is not None else old
            if mark is not None:
                text[mark] = f"in: {pair.mark}"
            text[old], text[new] = f"old: {pair.old}", f"new: {pair.new}"
            if stands[1] != bare:
                text[before] = f"file: {bare}\n{text[before]}"
                stands = (file, bare)
            for each in why:
                print(f"by hand: {tag}: {pair.file}: {each}\n    old: {pair.old}\n    new: {pair.new}")
    for number, pairs in enumerate(clauses):
        write(listed, pairs, f"clause {number + 1}, line {pairs[0].lines[0] + 1}", True)
    with open(LIST, "w", encoding="utf-8") as file:
        file.write("\n".join(line for line in listed if line is not None))
    for path, (text, pairs) in edits.items():
        write(text, pairs, path, False)
        text = [placed(line, names, path.split("/")[1]) for line in text if line is not None]
        with open(path, "w", encoding="utf-8") as file:
            file.write("\n".join(text))


main()
