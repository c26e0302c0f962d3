#!/usr/bin/env python3
"""Spells the repository's own definitions and lemmas as today's Rattle spells names.

usage: python3 tools/respell.py [--check]     at the top of a repository that the kit's port.py has turned

A definition, a field, a lemma or an alias in mixed case gets snake case: parentOf becomes parent_of. In a lemma's name a dash stays
only between two names, as in length-corners_from; a plain word is added with an underscore, as in same_sound. Types, facts and
modules keep their capitals, and names in src/ keep theirs: only clauses and ghost items are turned there. A name that would meet
another one is left as it is, and a line 'left:' says so. Names in specs/, proofs/, clauses and the code spans of pages turn;
must-fail edits are not touched. --check writes nothing.
"""
import collections
import os
import re
import sys

WORD = re.compile(r"[^\s(){}.;,@\"«»\[\]|`]+")
DECLARED = re.compile(r"(?m)^ *((?:(?:pub|abbrev|unfoldable|opaque|inductive|record|data|mutual|private|instance|ruleset) +)*)([^\s(){}.;,@\"«»\[\]]+)(?: [\({][^\n]*[\)}])* :(?!:)")
ALIAS = re.compile(r"\bas ([^\s(){}.;,]+)")
TYPED = re.compile(r"(?m)^ *(?:pub +)?(?:abbrev|unfoldable|record|data|inductive)\b")
COMMENT = re.compile(r"(?m)(?<![^\s])--.*$|//.*$")
LIBRARY = re.compile(r"(?m)\buse (?!Rattle\.(?!std\b))([\w.]+)\.\{([^}\n]*)\}")
SPAN = re.compile(r"`[^`\n]+`")
MADE = re.compile(r"/proofs/[^/]+/")
# Lemmas that would have the name of a function that is respelled.
LEMMAS = ("bit_test", "bytes_read", "right_of", "spot_back")


def files(root, ends):
    for folder, dirs, names in os.walk(root):
        dirs[:] = sorted(d for d in dirs if d not in ("out", ".git", "target", "must-fail", "dist"))
        for name in sorted(names):
            if name.endswith(ends):
                yield os.path.join(folder, name)


def read(path):
    with open(path, encoding="utf-8") as f:
        return f.read()


def bare(text):
    return COMMENT.sub("", text)


def snake(part):
    """A part of a name: its humps become underscores, if it begins in lower case."""
    if not re.match(r"[a-z]", part):
        return part
    part = re.sub(r"(?<=[a-z0-9])([A-Z]+)(?=[A-Z][a-z])", lambda m: "_" + m[1].lower(), part)
    return re.sub(r"(?<=[a-z0-9])([A-Z])", lambda m: "_" + m[1].lower(), part)


def main(argv):
    check = argv == ["--check"]
    if argv and not check:
        raise SystemExit(__doc__)
    texts = {p: read(p) for p in files("crates", (".antt", ".rt"))}
    lemmas, others, words, rust, labels = set(), set(), set(), set(), set()
    made = collections.defaultdict(set)
    for p, t in texts.items():
        t = bare(t)
        if p.endswith(".rt"):
            code = re.sub(r"(?s)ghost use[^;]*;|(?:requires|ensures)\*?\s*(?:\w+\s*)?\{.*?\}\s*\n", " ", t)
            rust |= set(re.findall(r"\w+", code))
            continue
        for m in DECLARED.finditer(t):
            if MADE.search(p):
                labels.add(m[2])
            elif m[1].replace("pub", "").strip():
                words.add(m[2])
                others.add(m[2])
            else:
                lemmas.add(m[2])
        others |= set(ALIAS.findall(t))
        labels |= set(re.findall(r"\b(?:tie|goal|statement)\.(?:Need-)?([^\s(){}.;,]+)", t))
    library = {"length", "append", "take", "drop", "replicate", "map", "sum", "set", "get_or", "all", "any", "filter", "mem", "nat_abs", "mod", "div", "add", "mul", "sub", "concat", "reverse", "zip"}
    names = {snake(n) for n in words if "-" not in n} | library
    names |= {n for n in words if re.match("[A-Z]", n)}

    def spelled(name):
        parts = [snake(p) for p in re.split(r"(?<=[^-])-(?=[^-\d])", name)]
        if len(parts) == 1 or not re.match(r"[a-z]", name):
            return "-".join(parts)
        out = parts[0]
        for before, part in zip(parts, parts[1:]):
            out += ("-" if before in names and part in names else "_") + part
        return out

    table = {}
    for n in sorted(lemmas | others):
        if n in labels and "-" in n:
            continue
        new = spelled(n)
        if new != n:
            table[n] = new
    table |= {n: n + "_lem" for n in LEMMAS if n in lemmas}
    # a name that some file takes from a library stays in all files
    for m in (m for t in texts.values() for m in LIBRARY.finditer(t)):
        for n in re.split(r"[,\s]+", m[2]):
            table.pop(n, None)
    # where each word stands by itself: not as a step of a path or after a dot, and in src/ in clauses and as a parameter alone
    used = collections.defaultdict(set)
    for p, t in texts.items():
        t = bare(t)
        if p.endswith(".rt"):
            parameters = re.findall(r"\b(\w+): ", t)
            t = " ".join(re.findall(r"(?s)ghost use[^;]*;|(?:requires|ensures)\*?\s*(?:\w+\s*)?\{.*?\}\s*\n", t)) + " " + " ".join(parameters)
        for w in set(re.findall(rf"(?<!\.){WORD.pattern}(?!\.[A-Za-z_{{])", t)):
            used[w].add(p)
    # a lemma that would have its function's name gets _lem
    for old, new in list(table.items()):
        if "-" in old and any(o != old and spelled(o) == new and "-" not in o for o in (*lemmas, *others) if snake(o) == new):
            table[old] = new + "_lem"
    rivals = collections.defaultdict(list)
    for old, new in table.items():
        rivals[new].append(old)
    for new, olds in rivals.items():
        meets = new not in LEMMAS and used[new] and any(used[new] & used[o] for o in olds)
        crossed = len(olds) > 1 and any(used[a] & used[b] for a in olds for b in olds if a < b)
        if meets or crossed:
            for o in olds:
                print(f"left: {o}: {new} stands already beside it" if meets else f"left: {o}: meets {', '.join(x for x in olds if x != o)}")
                table.pop(o, None)
        elif used[new] or len(olds) > 1:
            print(f"look: {', '.join(olds)} as {new}: elsewhere there is one of that name")
        if new in rust:
            print(f"look: {new} is a name of src/ too")

    def turned(text, spans_only=False):
        def word(m):
            return table.get(m[0], m[0])

        def span(m):
            return WORD.sub(word, m[0])

        def comment(m):
            said = SPAN.sub(span, m[0])
            return WORD.sub(lambda w: table[w[0]] if w[0] in table and "-" not in w[0] else w[0], said)

        if spans_only:
            return SPAN.sub(span, text)
        out, at = [], 0
        for m in COMMENT.finditer(text):
            out += [WORD.sub(word, text[at : m.start()]), comment(m)]
            at = m.end()
        return "".join(out) + WORD.sub(word, text[at:])

    written = 0
    for p, t in texts.items():
        new = turned(t)
        if new != t:
            written += 1
            if not check:
                with open(p, "w", encoding="utf-8") as f:
                    f.write(new)
    for p in [*files("docs", (".md",)), *[x for x in os.listdir(".") if x.endswith(".md")]]:
        t = read(p)
        new = turned(t, spans_only=True)
        if new != t:
            written += 1
            if not check:
                with open(p, "w", encoding="utf-8") as f:
                    f.write(new)
    print(f"respell: {len(table)} names in {written} files")
    with open(os.environ.get("RESPELLED", os.devnull), "w") as f:
        f.writelines(f"{a}\t{b}\n" for a, b in sorted(table.items()))


if __name__ == "__main__":
    main(sys.argv[1:])
