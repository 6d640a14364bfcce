#!/usr/bin/env python3
"""Respells the repository's own definitions and lemmas: words in snake case, as `rowOf` and `row-of` to `row_of`.

usage: respell.py [--check] [FOLDER]

Below FOLDER/crates it collects the names that specs/ and proofs/*.antt declare, the folders of functions left out, and
turns each that has a dash or a capital inside to small words with underscores: in every .antt, in the clauses and the
`ghost use` items of every .rt, in the edits of .antt files, and in code spans of README.md and docs/*.md. Types, modules
and records begin with a capital and stay; so do names of functions, of variables and of libraries. A name of OTHER gets
the spelling there, since its own would meet another name. With --check nothing is written. It ends with status 1 and
writes nothing where two names would fall together in one file.
"""
import collections
import os
import re
import sys

# lemmas whose plain spelling is a definition's, and what they are called
LAWS = """block-check block-sum blocks-due choices-below cost-cleared cost-unknown in_order
is-prod is-rule least-of length-long line-due line-room one-rule out-due query-due row-view same-state sentence-at
unless-due visit-due visited-is well-formed bit-and bit-or asked_is all_plain"""
OTHER = {name: name.replace("-", "_") + "_law" for name in LAWS.split()}

WORD = re.compile(r'[^\s(){}.;,@"«»`]+')
QUIET = re.compile(r'--[^\n]*|"(?:[^"\\\n]|\\.)*"')
DECLARED = re.compile(r'(?m)^ *(?:(?:abbrev|unfoldable|pub) )*([^\s(){}.;,@"«»:]+)(?: \{[^{}\n]*\})* :(?=\s)')
FUNCTION = re.compile(r"/proofs/.*/[^/]*\.antt$")
GHOST_USE = re.compile(r"ghost\s+use\b[^;]*;")
CLAUSE = re.compile(r"(?:requires|ensures)\s*\*?\s*(?:\w+\s*)?\{|ghost\s*(?:\w+\s*(?::\s*|=\s*))?\{")
SPOKEN = re.compile(r"--[^\n]*|(?:(?!--)[\s\S])+")
SPAN = re.compile(r"(`+)(?:[^\n]|\n(?!\s*\n))*?\1")


def read(path):
    with open(path, encoding="utf-8") as f:
        return f.read()


def files(root, *ends):
    for folder, dirs, names in os.walk(os.path.join(root, "crates")):
        dirs[:] = sorted(d for d in dirs if d != "out")
        for name in sorted(names):
            if name.endswith(ends):
                yield os.path.join(folder, name)


def snake(name):
    words = re.sub(r"(?<=[a-z0-9'])[A-Z]", lambda m: "_" + m[0].lower(), name)
    return words.replace("-", "_")


def code(text):
    return QUIET.sub(lambda m: " " * len(m[0]), text)


def table(root):
    found = {}
    for path in files(root, ".antt"):
        if FUNCTION.search(path):
            continue
        for m in DECLARED.finditer(code(read(path))):
            name = m[1]
            if name[0].isupper() or "◌" in name or "→" in name:
                continue
            new = OTHER.get(name, snake(name))
            if new != name:
                found[name] = new
    return found


def imported(root):
    """The names that the texts take from libraries: they are not ours."""
    own = "|".join(sorted(os.listdir(os.path.join(root, "crates"))))
    use = re.compile(r"(?m)(?:^|\bghost )(?:pub )?use (?!Rattle\.(?:%s)\.)([^\s;{]+)\.\{([^}]*)\}" % own)
    names = set()
    for path in files(root, ".antt", ".rt"):
        for m in use.finditer(read(path)):
            for item in m[2].split(","):
                names.add(item.split(" as ")[0].strip())
                names.add(item.split(" as ")[-1].strip())
    return names


def block(text, at):
    """The end of the block whose brace opens just before at."""
    depth = 1
    while depth:
        depth += {"{": 1, "}": -1}.get(text[at], 0)
        at += 1
    return at


def stretches(path, text):
    """The parts of a text that are antt, as pairs of places."""
    if path.endswith(".antt"):
        return [(0, len(text))]
    if path.endswith(".md"):
        return [m.span() for m in SPAN.finditer(text)]
    if path.endswith((".edit", ".edits")):
        return [m.span() for m in re.finditer(r"(?ms)^file: \S+\.antt$.*?(?=^file:|\Z)", text)]
    found = [m.span() for m in GHOST_USE.finditer(text)]
    for m in CLAUSE.finditer(text):
        found.append((m.end(), block(text, m.end())))
    return sorted(found)


def prose(text, names):
    """A comment: a word with a dash is a name only in a code span."""
    turned = lambda m: names.get(m[0], m[0])
    spans = re.split(r"(`[^`]*`)", text)
    return "".join(WORD.sub(turned, s) if s.startswith("`") else WORD.sub(lambda m: m[0] if "-" in m[0] else turned(m), s) for s in spans)


def turn(path, text, names):
    # in a function's folder a name behind a dot is mostly one that the check makes
    keep = FUNCTION.search(path)
    word = lambda m: m[0] if keep and m.start() and m.string[m.start() - 1] == "." else names.get(m[0], m[0])
    out, at = [], 0
    for a, e in stretches(path, text):
        if a < at:
            continue
        out.append(text[at:a])
        out.append(SPOKEN.sub(lambda m: prose(m[0], names) if m[0].startswith("--") else WORD.sub(word, m[0]), text[a:e]))
        at = e
    out.append(text[at:])
    # an item that would read `x as x` is `x`
    item = re.compile(r"(?<![^\s{,])(%s) as \1(?![^\s},])" % WORD.pattern)
    return "".join(m[0] if m[0].startswith("--") or path.endswith(".md") else item.sub(r"\1", m[0])
                   for m in SPOKEN.finditer("".join(out)))


def meets(path, text, names):
    """Pairs of names that would be one in this file."""
    words = collections.Counter()
    for a, e in stretches(path, text):
        part = text[a:e]
        part = code(part) if path.endswith(".antt") else part
        part = re.sub(r"\.[a-z][^\s(){}.;,@]*", "", part) if FUNCTION.search(path) else part
        words.update(WORD.findall(part))
    if path.endswith(".rt"):
        # a definition may have a function's name, and no parameter's
        called = set(re.findall(r"\bfn (\w+)", text)) | set(re.findall(r"(\w+)\(", text))
        words.update(w for w in re.findall(r"\w+", text) if w not in called)
    if FUNCTION.search(path):
        # a module has the function's name
        for w in os.path.dirname(path).split("/"):
            words.pop(w, None)
    by = collections.defaultdict(set)
    for w in words:
        by[names.get(w, w)].add(w)
    return [sorted(ws) for ws in by.values() if len(ws) > 1]


def main():
    args = sys.argv[1:]
    check = "--check" in args
    root = next((a for a in args if not a.startswith("--")), ".")
    names = table(root)
    for name in imported(root) & set(names):
        print("look: also a library's:", name)
        del names[name]
    bad = 0
    todo = list(files(root, ".antt", ".rt", ".edit"))
    tried = os.path.join(root, "tools", "mutants")
    todo += [os.path.join(tried, n) for n in sorted(os.listdir(tried)) if n.endswith(".edits")]
    todo += [os.path.join(root, "README.md")]
    todo += [os.path.join(root, "docs", n) for n in sorted(os.listdir(os.path.join(root, "docs"))) if n.endswith(".md")]
    turned = 0
    for path in todo:
        text = read(path)
        if not path.endswith(".md"):
            for pair in meets(path, text, names):
                print("meet:", path, *pair)
                bad += 1
        new = turn(path, text, names)
        if new != text:
            turned += 1
            if not check and not bad:
                with open(path, "w", encoding="utf-8") as f:
                    f.write(new)
    by = collections.defaultdict(list)
    for old, new in names.items():
        by[new].append(old)
    for new, old in sorted(by.items()):
        if len(old) > 1:
            print("one name:", new, *old)
    print(f"{len(names)} names, {turned} files, {bad} meetings")
    return 1 if bad else 0


if __name__ == "__main__":
    sys.exit(main())
