#!/usr/bin/env python3
"""Brings the repository's own definitions and lemmas to the spelling of today's Rattle: words in snake case.

usage: python3 tools/spell.py [--table]

Run once, at the top, after the toolchain's port.py. A definition `rowText` becomes `row_text`, a lemma `line-more` becomes
`line_more`; a dash stays where it joins the names of two definitions, as in `count-insert_all`. Names that Rattle makes, functions of
src/, types, modules and strings stay. --table prints the names and writes nothing.
"""

import glob
import re
import sys

WORD = re.compile(r"[^\s(){}.;,@\"«»`]+")
DECLARED = re.compile(
    r"^(?P<in> *)(?:(?:abbrev|unfoldable|pub|mutual|ruleset) )*(?:(?P<kind>data|record) )?(?P<name>[^\s:(){}.]+) (?:\([^\n]*\) )?: (?P<type>[^\n]*)",
    re.M,
)
# words of the library that the repository's lemmas speak of
LIBRARY = set("length take drop map sum replicate reverse get_or set sets max min count filter concat".split())


def sources():
    return sorted(glob.glob("crates/*/specs/**/*.antt", recursive=True) + glob.glob("crates/*/proofs/**/*.antt", recursive=True))


def declared():
    """The names that files of specs/ and proofs/ declare: those of definitions, and all."""
    words, every = set(), set()
    for path in sources():
        for m in DECLARED.finditer(open(path, encoding="utf-8").read()):
            if m["type"].startswith("tie."):
                continue
            every.add(m["name"])
            if "/specs/" in path:
                words.add(m["name"])
    return words, every


def snake(word):
    """`rowText` as `row_text`; a type's name, which begins with a capital, stays."""
    return re.sub(r"(?<=[a-z0-9])([A-Z])", lambda m: "_" + m[1].lower(), word) if word[:1].islower() else word


def functions():
    """The names of the functions of src/, as steps of a proof by hand may have them."""
    found = set()
    for path in glob.glob("crates/*/src/**/*.rt", recursive=True):
        found |= set(re.findall(r"\bfn (\w+)", open(path, encoding="utf-8").read()))
    return found


def spelled(name, stems):
    if not re.fullmatch(r"[A-Za-z][\w'-]*", name):
        return "-".join(snake(p) for p in name.split("-"))
    parts = [snake(p) for p in name.split("-")]
    new = parts[0]
    for at in range(1, len(parts)):
        left, right = "_".join(parts[:at]), "_".join(parts[at:])
        new += ("-" if left in stems and right in stems else "_") + parts[at]
    return new


def table():
    words, every = declared()
    stems = {snake(w) for w in words if "-" not in w} | LIBRARY
    to, groups = {}, {}
    for name in sorted(every):
        to[name] = spelled(name, stems)
        groups.setdefault(to[name], []).append(name)
    # where two fall together, the definition keeps the name and the lemma gets `_lem`
    for new, names in groups.items():
        first = [n for n in names if n in words and "-" not in n] or [n for n in names if n in words] or [n for n in names if re.search("[A-Z]", n)] or names
        for name in names:
            if len(names) > 1 and name != first[0]:
                to[name] = new + "_lem"
    return {k: v for k, v in to.items() if k != v}


def foreign(text):
    """The names that a file has from outside the repository, and its names for modules from outside."""
    own = tuple(f"Rattle.{c.split('/')[1]}." for c in glob.glob("crates/*"))
    names, modules = set(), set()
    for m in re.finditer(r"^use ([^\s{]+?)(?:\.\{([^}]*)\}| as (\S+))?$", text, re.M):
        if not m[1].startswith(own):
            names |= {w.split(" as ")[-1].strip() for w in (m[2] or "").split(",")}
            modules |= {m[3] or m[1].split(".")[-1]}
    return names, modules


def turn_words(text, to, steps, aliases, modules):
    """Each word of the table; behind a dot, in the proof of a function, a step's name stays."""

    def one(m):
        word = m[0]
        if word not in to:
            return word
        if text[m.start() - 1 : m.start()] == ".":
            head = re.search(r"[^\s(){};,@\"«»`]*$", text[: m.start()])[0].split(".")[0]
            if head in modules:
                return word
            if head[:1].islower() and head not in aliases and (word.replace("-", "_") in steps or to[word].endswith("_lem")):
                return word
        return to[word]

    return WORD.sub(one, text)


def turn_code(text, to, steps=frozenset()):
    """A file of antt: whole words, but in comments only those with a capital inside, and in code spans."""
    aliases = set(re.findall(r" as ([\w'-]+)", text))
    names, modules = foreign(text)
    to = {k: v for k, v in to.items() if k not in names}

    def prose(m):
        return re.sub(r"`[^`\n]*`|[A-Za-z]\w*[A-Z]\w*", lambda s: WORD.sub(lambda w: to.get(w[0], w[0]), s[0]), m)

    out = []
    for line in text.split("\n"):
        m = re.match(r"^(.*?)((?:^|(?<=\s))--(?:\s.*|$))$", line)
        code, comment = (m[1], m[2]) if m else (line, "")
        code = re.sub(r'"[^"\n]*"|[^"]+', lambda s: s[0] if s[0][0] == '"' else turn_words(s[0], to, steps, aliases, modules), code)
        out.append(code + prose(comment))
    return "\n".join(out)


def turn_rust(text, to):
    """A file of Rattle: names with a capital inside, which only clauses have."""
    only = {k: v for k, v in to.items() if re.fullmatch(r"[a-z][a-z0-9_]*[A-Z]\w*", k)}
    return re.sub(r'"[^"\n]*"|[^"]+', lambda s: s[0] if s[0][0] == '"' else WORD.sub(lambda w: only.get(w[0], w[0]), s[0]), text)


def rewrite(path, turn, *more):
    text = open(path, encoding="utf-8").read()
    new = turn(text, *more)
    if new != text:
        open(path, "w", encoding="utf-8").write(new)
        return 1
    return 0


def main():
    to = table()
    if "--table" in sys.argv:
        for k, v in sorted(to.items()):
            print(k, v, sep="\t")
        return
    n, steps = 0, functions()
    for path in sources():
        of_function = path.count("/", path.index("/proofs/") + 8) > 0 if "/proofs/" in path else False
        n += rewrite(path, turn_code, to, steps if of_function else frozenset())
    for path in sorted(glob.glob("crates/*/src/**/*.rt", recursive=True)):
        n += rewrite(path, turn_rust, to)
    print(f"spell: {len(to)} names, {n} files")


main()
