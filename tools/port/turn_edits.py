#!/usr/bin/env python3
"""Brings the must-fail edits of an older commit to the spelling of today's Rattle.

usage: tools/port/turn_edits.py OLD WORK [NAME..]      OLD is the commit before the port, WORK a folder for copies, NAME.. crates (none: all)

A wrong version is turned as the repository was: each edit is made in a copy of OLD, the copy is turned by the kit's port.py and by respell.py, and what differs
from the turned copy without edits is the edit in today's spelling. A copy holds edits of different files only; WORK/0 holds none, WORK/names is the same before
respell.py. A copy takes some minutes, two are made at a time, and one that is there is taken as it is.

An edit that still fits today's files and says what its copy says stays. Of another the old text is the part of the line that the old edit named, widened until
it stands exactly once in today's file. In a line of imports the names that it lacks are put first. Lines that are exchanged go by the word EARLIER. A line that
rt fmt spread over several is put together again. Comments stay. What cannot be turned so is printed with 'left:', and its file stays.
"""
import difflib
import os
import re
import shutil
import subprocess
import sys
from concurrent.futures import ThreadPoolExecutor

ROOT = os.path.dirname(os.path.dirname(os.path.dirname(os.path.realpath(__file__))))
RESPELL = os.path.join(ROOT, "tools/port/respell.py")
# The kit's own script lies beside the page that rt names.
PAGE = subprocess.run(["rt", "doc"], capture_output=True, text=True, check=True).stdout.strip().split("\n")[-1]
PORT = os.path.join(os.path.dirname(PAGE), "port/port.py")
# What port.py said is kept beside the copy, as two run at a time.
RUN = "import sys; sys.path.insert(0, sys.argv[1]); import port; port.SAID = sys.argv[2]; raise SystemExit(port.main([]))"
TOKEN = re.compile(r"\s+|[(){}\[\],;]|[^\s(){}\[\],;]+")
EARLIER = "EARLIER"


def read(path):
    with open(path, encoding="utf-8") as f:
        return f.read()


def write(path, text):
    with open(path, "w", encoding="utf-8") as f:
        f.write(text)


def git(where, *words):
    return subprocess.run(["git", *words], cwd=where, capture_output=True, text=True, check=True).stdout


class Edit:
    """A must-fail edit: its comments, and its pairs (file, old text, new text) in order."""

    def __init__(self, path, text):
        self.path, self.crate, self.comments, self.pairs = path, path.split("/")[1], [], []
        file = old = ""
        for line in text.split("\n"):
            if line.startswith("file: "):
                file = line[len("file: ") :].strip()
            elif line.startswith("old: "):
                old = line[len("old: ") :]
            elif line.startswith("new:"):
                self.pairs.append((file, old, line[len("new:") :].removeprefix(" ")))
            elif line:
                self.comments.append(line)
        self.files = list(dict.fromkeys(p[0] for p in self.pairs))

    def place(self, root, file):
        return os.path.join(root, "crates", self.crate, file)

    def text(self):
        out, file = list(self.comments), ""
        for f, old, new in self.pairs:
            out += ([] if f == file else ["file: " + f]) + ["old: " + old, "new: " + new]
            file = f
        return "\n".join(out) + "\n"


def applied(texts, pairs):
    """The texts of files after the pairs, or None where an old text does not stand exactly once."""
    texts = dict(texts)
    for file, old, new in pairs:
        if texts[file].count(old) != 1:
            return None
        texts[file] = texts[file].replace(old, new)
    return texts


def make(work, name, edits, old):
    """Makes the turned copy WORK/name of the commit old with the edits, if it is not there."""
    to = os.path.join(work, name)
    if os.path.isdir(to):
        return
    room = to + ".part"
    shutil.rmtree(room, ignore_errors=True)
    git(work, "clone", "-q", "-n", ROOT, room)
    git(room, "checkout", "-q", "--detach", old)
    for e in edits:
        texts = applied({f: read(e.place(room, f)) for f in e.files}, e.pairs)
        for f, t in texts.items():
            write(e.place(room, f), t)
    if edits:
        git(room, "-c", "user.name=-", "-c", "user.email=-", "commit", "-q", "-a", "-m", "edited")
    ran = subprocess.run([sys.executable, "-c", RUN, os.path.dirname(PORT), to + ".said"], cwd=room, stdout=subprocess.PIPE, stderr=subprocess.STDOUT, text=True)
    write(to + ".log", ran.stdout)
    if ran.returncode:
        raise SystemExit("turn_edits: port.py failed, see %s.log" % to)
    names = os.path.join(work, "names")
    if not edits:
        shutil.copytree(room, names, ignore=shutil.ignore_patterns(".git", "out"))
    subprocess.run([sys.executable, RESPELL, room, names], check=True, stdout=subprocess.DEVNULL)
    os.rename(room, to)


def rounds(edits):
    """The edits in groups, of which none has two edits of one file."""
    groups = []
    for e in edits:
        files = {e.place("", f) for f in e.files}
        group = next((g for g in groups if not g[0] & files), None)
        if group is None:
            group = (set(), [])
            groups.append(group)
        group[0].update(files)
        group[1].append(e)
    return [g[1] for g in groups]


def joined(lines):
    """Lines as one, in the form that rt fmt gives them where they have room."""
    text = lines[0] + "".join(" " + l.strip() for l in lines[1:])
    return re.sub(r",? \)", ")", re.sub(r"\( ", "(", text)) if len(lines) > 1 else text


def import_of(line, turned):
    """The line of imports with the names that it lacks of the turned one put first."""
    module, names = re.fullmatch(r"(use [\w.]+\.\{)(.*)\}", line).groups()
    other, more = re.fullmatch(r"(use [\w.]+\.\{)(.*)\}", turned).groups()
    lacking = [n + "," for n in more.split(", ") if n not in names.split(", ")]
    return module + "".join(lacking) + names + "}" if module == other else turned


def changed(base, turned):
    """The lines that differ, as pairs of a line and what stands in its place; None where lines do not go one to one."""
    base, turned, out = base.split("\n"), turned.split("\n"), []
    if len(base) == len(turned):
        out = [(a, b) for a, b in zip(base, turned) if a != b]
    else:
        for kind, a, b, c, d in difflib.SequenceMatcher(None, base, turned, autojunk=False).get_opcodes():
            if kind == "equal":
                continue
            if b - a == d - c:
                out += zip(base[a:b], turned[c:d])
            elif b - a == 1 and d > c:
                out.append((base[a], joined(turned[c:d])))
            elif b == a:
                # What stands behind another statement in an edit has a line of its own in the copy.
                out.append((base[a - 1], joined(turned[c - 1 : d])))
            else:
                return None
    return [(a, import_of(a, b) if a.startswith("use ") and b.startswith("use ") else b) for a, b in out]


def tokens(line):
    return TOKEN.findall(line)


def span(line, turned):
    """The tokens of the line that differ from the turned line's, as a first and an end."""
    a, b = tokens(line), tokens(turned)
    first = 0
    while first < min(len(a), len(b)) and a[first] == b[first]:
        first += 1
    end = 0
    while end < min(len(a), len(b)) - first and a[-1 - end] == b[-1 - end]:
        end += 1
    return first, len(a) - end


def named(line, was, old):
    """The tokens of the line that stand where the old text stands in the line as it was, as a first and an end."""
    words = lambda text: [(m.start(), m.group(0)) for m in TOKEN.finditer(text) if not m.group(0).isspace()]
    at, old = was.find(old.strip()), old.strip()
    before, here = words(was), words(line)
    first = max(i for i, w in enumerate(before) if w[0] <= at)
    end = max(i for i, w in enumerate(before) if w[0] < at + len(old)) + 1
    low, high = 0, len(here)
    for kind, a, b, c, d in difflib.SequenceMatcher(None, [w[1] for w in before], [w[1] for w in here], autojunk=False).get_opcodes():
        same = b - a == d - c
        if a <= first < b:
            low = c + first - a if same else c
        if a < end <= b:
            high = c + end - a if same else d
    places = [i for i, t in enumerate(tokens(line)) if not t.isspace()]
    return places[low], places[high - 1] + 1


def part(line, turned, ask, first, end):
    """The pair of texts for these tokens of the line, widened by tokens on both sides until the old one stands once where it is asked."""
    a, b = tokens(line), tokens(turned)
    low, high = span(line, turned)
    first, end = min(first, low), max(end, high)
    words = [i for i, t in enumerate(a) if not t.isspace()]
    left = sum(i < first for i in words)
    right = sum(i < end for i in words)
    while True:
        if left < right:
            first, end = min(words[left], low), max(words[right - 1] + 1, high)
            old, new = "".join(a[first:end]), "".join(b[first : len(b) - (len(a) - end)])
            if old.strip() and new.strip() and ask.count(old) == 1:
                return old, new
        if left == 0 and right == len(words):
            return (line, turned) if ask.count(line) == 1 else None
        left, right = max(left - 1, 0), min(right + 1, len(words))


def pairs_for(file, lines, today, old_pairs, was):
    """The pairs that make the lines' changes in today's text of the file; the second value says what hinders it."""
    out = []
    for line, turned in lines:
        if line not in today.split("\n"):
            return None, "today's file has no line: " + line.strip()
        if line.startswith("use "):
            end = line.index("{") + 1
            pair = (line[:end], turned[: len(turned) - len(line) + end])
            if not turned.endswith(line[end:]) or today.count(pair[0]) != 1:
                pair = (line, turned)
        else:
            like = lambda l: difflib.SequenceMatcher(None, tokens(l), tokens(line), autojunk=False).ratio()
            found = [(like(l), l, old) for _, old, _ in old_pairs for l in was.split("\n") if old in l]
            best = max(found) if found else None
            pair = part(line, turned, today, *(named(line, *best[1:]) if best else (0, len(tokens(line)))))
        if not pair:
            return None, "a line that stands more than once: " + line.strip()
        out.append((file, *pair))
    ordered, later = [], []
    for i, (f, old, new) in enumerate(out):
        if any(other in new for _, other, _ in out[i + 1 :]):
            ordered.append((f, old, EARLIER))
            later.append((f, EARLIER, new))
        else:
            ordered.append((f, old, new))
    return ordered + later, None


def turn(e, old, base, copy):
    """The edit in today's spelling; the second value says what hinders it."""
    today = {f: read(e.place(ROOT, f)) for f in e.files}
    pairs, wanted = [], dict(today)
    for f in e.files:
        b, t = read(e.place(base, f)), read(e.place(copy, f))
        lines = changed(b, t)
        if lines is None:
            return None, f + ": lines do not go one to one"
        if not lines:
            return None, f + ": nothing differs"
        here = today[f].split("\n")
        wanted[f] = "\n".join(dict(lines).get(l, l) for l in here) if all(here.count(l) == 1 for l, _ in lines) else None
        own = [p for p in e.pairs if p[0] == f]
        if wanted[f] is not None and (applied(today, own) or {}).get(f) == wanted[f]:
            pairs += own
            continue
        more, why = pairs_for(f, lines, today[f], own, git(ROOT, "show", old + ":" + e.place("", f)))
        if why:
            return None, f + ": " + why
        pairs += more
    got = applied(today, pairs)
    if got is None:
        return None, "the new texts get in each other's way"
    if any(wanted[f] is not None and wanted[f] != got[f] for f in e.files):
        return None, "what it makes is not what its copy has"
    turned = Edit(e.path, e.text())
    turned.pairs = pairs
    return turned, None


def main():
    old, work, names = sys.argv[1], os.path.abspath(sys.argv[2]), sys.argv[3:]
    os.makedirs(work, exist_ok=True)
    paths = [p for p in git(ROOT, "ls-tree", "-r", "--name-only", old, "crates").split("\n") if re.search(r"/must-fail/[^/]*\.edit$", p)]
    edits = [Edit(p, git(ROOT, "show", old + ":" + p)) for p in paths]
    groups = rounds(edits)
    make(work, "0", [], old)
    with ThreadPoolExecutor(2) as pool:
        list(pool.map(lambda k: make(work, str(k + 1), groups[k], old), range(len(groups))))
    kept = written = left = 0
    for k, group in enumerate(groups):
        for e in group:
            if names and e.crate not in names:
                continue
            turned, why = turn(e, old, os.path.join(work, "0"), os.path.join(work, str(k + 1)))
            if why:
                left += 1
                print("left:", e.path, why)
                continue
            kept += turned.pairs == e.pairs
            written += turned.pairs != e.pairs
            write(os.path.join(ROOT, e.path), turned.text())
    print(kept, "edits stay,", written, "are turned,", left, "are left")


main()
