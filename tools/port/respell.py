#!/usr/bin/env python3
"""Brings the names that this repository's own specs/ and proofs/ declare to the spelling of today's Rattle.

usage: tools/port/respell.py [ROOT [NAMES]]      run once, after the kit's port.py

NAMES is the tree that declares the names, before they are turned; without it, ROOT itself.

A value, a lemma, a field and a constructor are in snake case; a dash stays in a lemma's name only where it joins two words of the library or of specs/. A type
is in upper camel case. A test whose name ends in a question mark and names with operators stay. Names are turned as whole words, in .antt files, in the clauses and
ghost items of .rt files, in must-fail edits and in the code spans of the pages. A new name that a file with the old
one already has is no new name: the old one stays, and is printed.
The contracts of the functions that hold constants to their definitions name the constants as clauses do today.
"""
import glob
import os
import re
import sys

ROOT = sys.argv[1] if len(sys.argv) > 1 else "."
NAMES = sys.argv[2] if len(sys.argv) > 2 else ROOT
WORD = r"[^\s(){}\[\].;,@:«»`\"|·]+"
DECLARED = re.compile(
    r"^(\s*)((?:abbrev|unfoldable|pub|deriving|data|record)\s+)*(%s)((?:\s*(?:\((?:[^()]|\([^()]*\))*\)|\{[^{}\n]*\}))*)\s+:\s(.*)$" % WORD
)
# Words of the library that a lemma's name may join by a dash.
LIBRARY = "take drop append set sets slice replicate length get_or map bind shift subst sub put cons nil add mul eqb leb ltb all".split()
# Rattle makes these names of the code.
MADE = re.compile(r"^(loop|if|then|else|in|in_ok|in_err|returns|invariant|decreases|overflow\w*|bounds|slice_bounds|ghost|match|nonzero\w*|type_inv)-")


def read(path):
    with open(path, encoding="utf-8") as f:
        return f.read()


def own_files():
    for pattern in ("crates/*/specs/**/*.antt", "crates/*/proofs/*.antt"):
        yield from sorted(glob.glob(os.path.join(NAMES, pattern), recursive=True))


def bare(text):
    return "\n".join(re.sub(r"(^|\s)--.*", "", line) for line in text.split("\n"))


def declared():
    """Each name with how it is declared: whether it is a type, whether it is a field or a constructor, whether specs/ has it."""
    names = {}
    for path in own_files():
        body = False
        for line in bare(read(path)).split("\n"):
            m = DECLARED.match(line)
            if re.match(r"\S", line):
                body = bool(re.match(r"(pub |unfoldable |abbrev )*(data|record|deriving) ", line)) and not re.match(r".*=\s*$", line)
            if not m:
                # Constructors that share a type stand in one line: by-beta by-case by-numeral : Rule
                shared = re.match(r"^\s+((?:%s\s+)+)%s\s+:\s" % (WORD, WORD), line)
                if body and shared:
                    for n in line.split(":")[0].split():
                        names.setdefault(n, []).append((False, True, "/specs/" in path))
                continue
            name, result = m.group(3), m.group(5)
            if name in ("let", "in", "where", "λ", "elim", "use"):
                continue
            is_type = bool(re.search(r"\bType( \d+)?( where)?\s*$", result)) and bool(re.match(r"[A-Z]", name))
            names.setdefault(name, []).append((is_type, body and bool(m.group(1)), "/specs/" in path))
    return names


def snake(name):
    return re.sub(r"(?<=[a-z0-9])([A-Z])(?=[a-z]|$|-|_)", lambda m: "_" + m.group(1).lower(), name)


def camel(name):
    return "".join(p[:1].upper() + p[1:] for p in re.split(r"[-_]", name))


def new_name(name, how, words):
    if not re.fullmatch(r"[\w'-]+\??", name) or MADE.match(name):
        return name
    if re.match(r"[A-Z]", name) and any(h[0] for h in how):
        return camel(name) if "-" in name else name
    if re.match(r"[A-Z]", name):
        return name
    name = snake(name)
    if "-" not in name:
        return name
    parts = name.split("-")
    if any(h[1] for h in how):
        return "_".join(parts)
    out = parts[0]
    for left, right in zip(parts, parts[1:]):
        out += ("-" if left in words and right in words else "_") + right
    return out


def texts(root):
    for pattern in ("crates/**/*.antt", "crates/**/*.rt", "crates/*/must-fail/*.edit"):
        for p in sorted(glob.glob(os.path.join(root, pattern), recursive=True)):
            if "/out/" not in p:
                yield p
    yield from sorted(glob.glob(os.path.join(root, "*.md")) + glob.glob(os.path.join(root, "docs/**/*.md"), recursive=True))


def main():
    how = declared()
    words = set(LIBRARY)
    for n, hs in how.items():
        if any(h[2] and not h[0] and not h[1] for h in hs) and "-" not in n and not re.match(r"[A-Z]", n):
            words.add(snake(n))
    table = {}
    for n, hs in how.items():
        m = new_name(n, hs, words)
        if m != n:
            table[n] = m
    met = {}
    for n, m in table.items():
        met.setdefault(m, []).append(n)
    stay = set()
    for m, ns in met.items():
        # Of several, the definition in camel case has the name; a name with a dash is spelled well as it is.
        if len(ns) > 1:
            first = sorted(ns, key=lambda n: ("-" in n, n))[0]
            stay |= {n for n in ns if n != first}
            if sum("-" not in n for n in ns) > 1:
                stay |= set(ns)
    for p in texts(NAMES):
        t = read(p)
        if p.endswith(".antt"):
            text = bare(t)
            here = set(re.findall(r"(?<![^\s(){}\[\];,@:«»])(%s)" % WORD, text))
            every = set(re.findall(WORD, text))
            stay |= {n for n, m in table.items() if m in here and n in every}
        elif p.endswith(".rt"):
            for f in re.finditer(r"(?m)^ *(?:pub )?fn \w+[^{]*?\(([^)]*)\)(.*?)^\s*\{$", bare(t), re.S):
                parameters = set(re.findall(r"(\w+):", f.group(1)))
                cited = set(re.findall(WORD, f.group(2)))
                stay |= {n for n in cited if table.get(n) in parameters}
    for n in sorted(stay):
        if "-" not in n or len(met[table[n]]) == 1:
            print("stays:", n, "beside", table[n])
        del table[n]
    token = re.compile(r"(?<![^\s(){}\[\].;,@:«»`\"|·])(%s)(?![^\s(){}\[\].;,@:«»`\"|·])" % "|".join(sorted((re.escape(n) for n in table), key=len, reverse=True)))
    fields = {n for n, hs in how.items() if any(h[1] for h in hs)}

    def turn(t, walk=False):
        """In a function's own proof a name with a dash behind a dot is one that Rattle made of the code, unless it is a field of the repository's."""
        made = lambda m: walk and "-" in m.group(1) and m.group(1) not in fields and t[: m.start()].endswith(".")
        return token.sub(lambda m: m.group(1) if made(m) else table[m.group(1)], t)

    for p in texts(ROOT):
        t = read(p)
        if p.endswith(".md"):
            u = re.sub(r"`[^`\n]+`", lambda m: turn(m.group(0)), t)
        else:
            u = turn(t, bool(re.search(r"/proofs/.+/", p)))
        if p.endswith(".rt"):
            u = re.sub(r"ensures\* do_value\w* \{ do ⌜ \(← \(⟦(\w+)::(\w+)⟧\)\.entry\) ≡ (.+?) ⌝ \}", lambda m: "ensures %s { %s.%s ≡ %s }" % (m.group(2).lower(), m.group(1), m.group(2), m.group(3)), u)
        if u != t:
            with open(p, "w", encoding="utf-8") as f:
                f.write(u)
    print(len(table), "names respelled,", len(stay), "kept")


main()
