#!/usr/bin/env python3
# Counts the places that docs/DESIGN-PASS.md speaks of, in crates/*/src: tools/places.py [POINT], from the top of the repository.
# A place is printed as crate: name. What it finds is looked at by hand: the page says what each is.
import collections
import glob
import re
import sys

FN = re.compile(r"^( *)(?:pub )?(?:extern \"C\" )?fn (\w+)(<[^(]*>)?\(", re.M)


def functions():
    """Yields crate, name, parameters, clauses and body of each function."""
    for path in sorted(glob.glob("crates/*/src/*.rt")):
        text, crate = open(path, encoding="utf-8").read(), path.split("/")[1]
        for found in FN.finditer(text):
            indent = found.group(1)
            end = text.find(f"\n{indent}}}\n", found.end())
            start = text.find(f"\n{indent}{{\n", found.end(), end)
            if start < 0 or end < 0:
                continue
            head = text[found.start() : start]
            clause = re.search(r"\n *(requires|ensures)\b", head)
            signature = head[: clause.start()] if clause else head
            clauses = head[clause.start() :] if clause else ""
            body = "\n".join(it for it in text[start:end].split("\n") if not it.strip().startswith("//"))
            yield crate, found.group(2), re.sub(r"\s+", " ", signature), re.sub(r"\s+", " ", clauses), body


def own_enums():
    """1: enums of the repository."""
    for path in sorted(glob.glob("crates/*/src/*.rt")):
        for name in re.findall(r"^ *(?:pub )?enum (\w+)", open(path, encoding="utf-8").read(), re.M):
            yield path.split("/")[1], name


def early_refusals():
    """1: an Err or a None that is passed on by hand."""
    for crate, name, _, _, body in functions():
        for _ in re.findall(r"Err\(\w+\) => (?:return )?Err\(\w+\)|None => (?:return )?None\b|if let (?:Err|\w+::Refused)\(\w+\) = [^{]*\{\s*return|\w+::Refused\((\w+)\) => \w+::Refused\(\1\)|\w+::Full => \w+::Full", body):
            yield crate, name


def twins():
    """2: functions of one crate whose bodies are the same apart from names of functions, constants and numbers."""
    same = collections.defaultdict(list)
    for crate, name, signature, _, body in functions():
        mask = re.sub(r"\b[A-Z][A-Za-z0-9_]*(::[A-Za-z0-9_]+)*\b|\b\d+(?:[ui]\d+|usize)?\b", "N", body)
        mask = re.sub(r"\b\w+\(", "f(", mask)
        mask = re.sub(r"\s+", " ", mask)
        if len(mask) > 40:
            same[mask].append((crate, name))
    for group in same.values():
        if len(group) > 1:
            yield from group


def counted_loops():
    """3: a `while` whose body ends in an index that goes one up or down."""
    for crate, name, _, _, body in functions():
        for found in re.finditer(r"^( *)while ([^\n]*) \{\n(.*?)^\1\}", body, re.M | re.S):
            if re.search(r"\b(\w+) [+-]= \d+;", found.group(3)) and re.search(r"[<>]|!=", found.group(2)):
                yield crate, name


def all_whiles():
    """3: every `while` and `loop`."""
    for crate, name, _, _, body in functions():
        for _ in re.findall(r"^ *(?:while |loop \{)", body, re.M):
            yield crate, name


def by_hand():
    """4: comparing, choosing the lesser or greater, widening, by a function of the repository."""
    for crate, name, _, _, body in functions():
        for _ in re.findall(r"\b(?:order::)?(?:lesser|greater|wide|higher|lower)\(|\b(?:walk_corner::)?alike\(", body):
            yield crate, name


def repeated_facts():
    """5: a fact that stands in the `requires` of three functions or more of one crate."""
    seen = collections.defaultdict(set)
    for crate, name, _, clauses, _ in functions():
        for clause in re.findall(r"requires[^{]*\{(.*?)\}(?= (?:requires|ensures)|$)", clauses):
            for fact in clause.split(" × "):
                fact = re.sub(r"\.(old|now|new)\b", "", fact).strip(" ()")
                if len(fact) > 4 and not re.fullmatch(r"\w+ : [^→]*", fact):  # a fact, and not a name that a later fact is about
                    seen[crate, fact].add(name)
    for (crate, fact), names in sorted(seen.items()):
        if len(names) > 2:
            yield crate, f"{fact} ({len(names)})"


def travellers():
    """5: three parameters or more that stand together in three functions or more of one crate."""
    seen = collections.defaultdict(set)
    for crate, name, signature, _, _ in functions():
        inside = signature[signature.find("(") + 1 : signature.rfind(")")]
        params = [it.strip() for it in inside.split(", ") if ":" in it]
        for n in range(len(params), 2, -1):
            for at in range(len(params) - n + 1):
                seen[crate, ", ".join(params[at : at + n])].add(name)
    kept = {}
    for (crate, params), names in sorted(seen.items(), key=lambda it: -len(it[0][1])):
        if len(names) > 2 and not any(crate == c and params in p and names <= n for (c, p), n in kept.items()):
            kept[crate, params] = names
    for (crate, params), names in sorted(kept.items()):
        yield crate, f"{params} ({len(names)})"


def buffers():
    """6: a buffer with a length or a place beside it among the parameters."""
    for crate, name, signature, _, _ in functions():
        if re.search(r"\w+: &(?:mut )?\[\w+\], (?:\w+: &(?:mut )?\[\w+\], )*(?:n|at|used|held|len|count|nodes|a|b|i): usize", signature):
            yield crate, name


def switches():
    """7: a `match` on a value that says which step to run, in more than one function for one enum."""
    for crate, name, _, _, body in functions():
        for _ in re.findall(r"match (?:self\.)?(?:task|way|kind|part|order)\b", body):
            yield crate, name


COUNTS = [own_enums, early_refusals, twins, counted_loops, all_whiles, by_hand, repeated_facts, travellers, buffers, switches]


def main():
    wanted = sys.argv[1:]
    for count in COUNTS:
        what = count.__doc__
        if wanted and what[0] not in wanted:
            continue
        found = list(count())
        print(f"{len(found):4} {what}")
        if wanted:
            for crate, name in found:
                print(f"       {crate}: {name}")


main()
